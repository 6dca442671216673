#!/bin/sh
# The cost of one uncontended `TurnLock::with` beside that of one lock, push and unlock of a `std::sync::Mutex` that
# `rustc -O` built. Each side adds 10000 pairs a round in one thread; the times are the best of nine runs, less the
# time of a run with no round. The target is within 3 times. usage: bench/turn_lock.sh [ROUNDS]
set -eu
cd "$(dirname "$0")/.."
rounds=${1:-2000}
work=$(mktemp -d)
trap 'rm -rf "$work"' EXIT

rustc -O -o "$work/rust" bench/turn_lock.rs
(cd crates/bench_calls && rt run < stdin > "$work/build.log" 2>&1) || { cat "$work/build.log"; exit 1; }
cp crates/bench_calls/out/bench_calls "$work/product"

# least PROGRAM ROUNDS: the least time of nine runs in nanoseconds
least() {
    echo "lock $2" > "$work/input"
    best=
    for _ in 1 2 3 4 5 6 7 8 9; do
        before=$(date +%s%N)
        "$1" < "$work/input" > "$1.out"
        after=$(date +%s%N)
        took=$((after - before))
        if [ -z "$best" ] || [ "$took" -lt "$best" ]; then best=$took; fi
    done
    echo "$best"
}

# cost PROGRAM: what a run with all rounds takes beyond one with none
cost() {
    none=$(least "$1" 0)
    echo $(($(least "$1" "$rounds") - none))
}

acts=$((rounds * 10000))
lock=$(cost "$work/product")
mutex=$(cost "$work/rust")
cmp -s "$work/product.out" "$work/rust.out" || { echo "the counts differ"; exit 1; }
awk -v lock="$lock" -v mutex="$mutex" -v acts="$acts" 'BEGIN {
    printf "TurnLock::with  %.1f ns\nMutex           %.1f ns\nratio           %.2f\n", lock / acts, mutex / acts, lock / mutex
}'
