#!/bin/sh
# Times the pulling of a path through 2000 portals: `straight`, a straight corridor, and `turn`, a way round a wall that bends slowly, on which
# each corner's cone looks at all portals that are left, about 2000000 looks a path. Prints the microseconds of one path, from the least
# processor time of five runs, less that of making the chain alone; fails where a straight path takes 50 microseconds or more, or one with the
# turn 20 milliseconds or more, and where a path has not the corners that it should. usage: bench/funnel.sh
set -eu
cd "$(dirname "$0")/.."
work=$(mktemp -d)
trap 'rm -rf "$work"' EXIT

(cd crates/bench_calls && rt run < stdin > "$work/build.log" 2>&1) || { cat "$work/build.log"; exit 1; }
cp crates/bench_calls/out/bench_calls "$work/product"

# seconds NAME PULLS: the least processor time of five runs
seconds() {
    echo "$1 2000 $2" > "$work/input"
    for _ in 1 2 3 4 5; do
        /usr/bin/time -f '%U %S' -a -o "$work/times" "$work/product" < "$work/input" > "$work/output"
    done
    awk '{ print $1 + $2 }' "$work/times" | sort -n | head -n 1
    rm "$work/times"
}

# measure NAME PULLS CORNERS LIMIT: the time of one path, its corners and the limit in microseconds
measure() {
    made=$(seconds "$1" 0)
    pulled=$(seconds "$1" "$2")
    echo "$1 $(($2 * $3))" | cmp -s - "$work/output" || { echo "$1: not $3 corners a path: $(cat "$work/output")"; return 1; }
    awk -v name="$1" -v made="$made" -v pulled="$pulled" -v pulls="$2" -v corners="$3" -v limit="$4" 'BEGIN {
        time = (pulled - made) / pulls * 1000000
        printf "%-9s 2000 portals, %4d corners: %8.1f microseconds a path\n", name, corners, time
        exit !(time < limit)
    }'
}

status=0
measure straight 20000 0 50 || status=1
measure turn 50 2000 20000 || status=1
exit $status
