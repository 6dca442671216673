#!/bin/sh
# Times roots and turns against the same work in Rust, built by rustc -O: the root there is that of Rust's library.
# Prints the processor seconds of both, the least of five runs each, and fails where the product takes more than twice as long.
# Turns are cheap, and are taken ten times as often. usage: bench/nav_base.sh [ROUNDS]
set -eu
cd "$(dirname "$0")/.."
rounds=${1:-30000000}
work=$(mktemp -d)
trap 'rm -rf "$work"' EXIT

rustc -O -o "$work/rust" bench/nav_base.rs
(cd crates/bench_calls && rt run < stdin > "$work/build.log" 2>&1) || { cat "$work/build.log"; exit 1; }
cp crates/bench_calls/out/bench_calls "$work/product"

# seconds PROGRAM: the least processor time of five runs on the work file
seconds() {
    for _ in 1 2 3 4 5; do
        /usr/bin/time -f %U -a -o "$work/times" "$1" < "$work/input" > "$1.out"
    done
    sort -n "$work/times" | head -n 1
    rm "$work/times"
}

status=0
for name in large_roots small_roots turns; do
    count=$rounds
    [ "$name" != turns ] || count=$((rounds * 10))
    echo "$name $count" > "$work/input"
    product=$(seconds "$work/product")
    rust=$(seconds "$work/rust")
    cmp -s "$work/product.out" "$work/rust.out" || { echo "$name: the sums differ"; status=1; }
    awk -v name="$name" -v product="$product" -v rust="$rust" \
        'BEGIN { printf "%-12s product %.2f s, rustc -O %.2f s, ratio %.2f\n", name, product, rust, product / (rust > 0 ? rust : 0.01); exit !(product <= 2 * rust) }' || status=1
done
exit $status
