#!/bin/sh
# Times the reading of a field text of 2000000 spans, about 45 MB, against a reader of the same text in Rust, line by line, built by rustc -O
# with the C library's memchr. Prints the processor seconds of one reading, from the least of three runs with 1 and with 6 readings each, and the most memory of
# one reading; fails where the product takes more than 1.3 times as long, or 0.4 seconds and more. usage: bench/span_text.sh
set -eu
cd "$(dirname "$0")/.."
work=$(mktemp -d)
trap 'rm -rf "$work"' EXIT

rustc -O -o "$work/rust" bench/span_text.rs
(cd crates/bench_calls && rt run < stdin > "$work/build.log" 2>&1) || { cat "$work/build.log"; exit 1; }
cp crates/bench_calls/out/bench_calls "$work/product"

{
    printf 'nav 1\nsize 1000 1000\ntile 32\nagent 10 4 2\nerror 169\nmesh contours\nlimit 64\ncost 63 2\n'
    awk 'BEGIN { for (z = 0; z < 1000; z++) for (x = 0; x < 1000; x++) printf "span %d %d 0 %d 63\nspan %d %d 4000 %d 63\n", x, z, 100 + (x * 7 + z) % 900, x, z, 4100 + (x + z * 5) % 4000; print "end" }'
} > "$work/text"
for rounds in 1 6; do { echo "text $rounds"; cat "$work/text"; } > "$work/input$rounds"; done

# seconds PROGRAM ROUNDS: the least processor time of three runs
seconds() {
    for _ in 1 2 3; do /usr/bin/time -f '%U %S' -a -o "$work/times" "$1" < "$work/input$2" > "$1.out"; done
    awk '{ print $1 + $2 }' "$work/times" | sort -n | head -n 1
    rm "$work/times"
}

for program in product rust; do
    one=$(seconds "$work/$program" 1)
    six=$(seconds "$work/$program" 6)
    awk -v one="$one" -v six="$six" 'BEGIN { printf "%.3f\n", (six - one) / 5 }' > "$work/$program.seconds"
done
cmp -s "$work/product.out" "$work/rust.out" || { echo "the summaries differ"; cat "$work/product.out" "$work/rust.out"; exit 1; }
/usr/bin/time -f %M -o "$work/memory" "$work/product" < "$work/input1" > /dev/null
bytes=$(wc -c < "$work/text")
cat "$work/product.out"
awk -v product="$(cat "$work/product.seconds")" -v rust="$(cat "$work/rust.seconds")" -v bytes="$bytes" -v memory="$(cat "$work/memory")" 'BEGIN {
    printf "%d bytes: product %.3f s, rustc -O %.3f s, ratio %.2f, memory %d MB\n", bytes, product, rust, product / rust, memory / 1024
    exit !(product <= 1.3 * rust && product < 0.4)
}'
