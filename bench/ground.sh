#!/bin/sh
# Times the ground of whole fields, by the stages of the program bench_pipeline: reading the text, and then the ground, for fields of two
# floors with an agent of radius 2 in tiles of 48, 128 to 1024 columns a side. Prints processor seconds, the least of five runs each. Fails
# where the ground of the largest field (2000000 spans) takes more than 6 times its reading, or more than 400 bytes of memory a span at the
# peak. Then two neighbouring columns of 4000 spans each, which may take 50 ms.     usage: bench/ground.sh
set -eu
cd "$(dirname "$0")/.."
work=$(mktemp -d)
trap 'rm -rf "$work"' EXIT

(cd crates/bench_pipeline && rt run < stdin > "$work/build.log" 2>&1) || { cat "$work/build.log"; exit 1; }
program=$PWD/crates/bench_pipeline/out/bench_pipeline

# text SIDE: a field of two floors, of at most 2000000 spans
text() {
    printf 'nav 1\nsize %d %d\ntile 48\nagent 10 4 2\nerror 169\nmesh strips\nlimit 64\n' "$1" "$1"
    awk -v side="$1" 'BEGIN { n = 0; for (z = 0; z < side; z++) for (x = 0; x < side; x++) {
        printf "span %d %d 0 %d 63\n", x, z, 10 + (x * 7 + z * 3) % 11 % 3; n++
        if (n < 2000000 && side * side - (z * side + x) - 1 < 2000000 - n) { printf "span %d %d 60 %d 63\n", x, z, 64 + (x + z * 5) % 13 % 3; n++ } }
        print "end" }'
}

# seconds STAGE TEXT: the least processor time of five runs up to a stage, and that run's memory at the peak in KB
seconds() {
    { echo "$1"; echo 0; cat "$2"; } > "$work/input"
    for _ in 1 2 3 4 5; do /usr/bin/time -f '%U %S %M' -a -o "$work/times" "$program" < "$work/input" > /dev/null; done
    awk '{ print $1 + $2, $3 }' "$work/times" | sort -n | head -n 1
    rm "$work/times"
}

for side in 128 256 512 1024; do
    text $side > "$work/text"
    spans=$(grep -c '^span' "$work/text")
    echo "$side $spans $(seconds 2 "$work/text") $(seconds 1 "$work/text")"
done | awk '{ ground = $3 - $5
    printf "%4d columns a side, %7d spans: reading %.3f s, ground %.3f s, %.2f times, %.0f ns and %.0f bytes a span\n", $1, $2, $5, ground, ($5 > 0 ? ground / $5 : 0), ground / $2 * 1e9, $4 * 1024 / $2
    last = ($5 > 0 ? ground / $5 : 0); bytes = $4 * 1024 / $2 }
    END { exit !(last <= 6 && bytes < 400) }'

{
    printf 'nav 1\nsize 2 1\ntile 4\nagent 1 0 0\nerror 169\nmesh strips\nlimit 64\n'
    awk 'BEGIN { for (x = 0; x < 2; x++) for (i = 0; i < 4000; i++) printf "span %d 0 %d %d 63\n", x, 2 * i, 2 * i + 1; print "end" }'
} > "$work/text"
set -- $(seconds 2 "$work/text")
echo "two columns of 4000 spans each: $1 s in all"
awk -v seconds="$1" 'BEGIN { exit !(seconds < 0.05) }'
