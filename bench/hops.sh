#!/bin/sh
# Times hop walks in the strips of 512 by 512 columns, one in 64 a pillar, radius 2, tiles of 32: of 1000 questions between random points, those
# whose points are held. Prints the milliseconds of a walk without jumps and with 256, which are too dear to be taken, beside those of a search
# over links without an estimate and of a corridor, each from the least processor time of nine runs, less that of reading and building. Fails
# where a hop walk without jumps takes more than 1.6 times the search without an estimate, or 256 jumps add more than 0.3 ms. usage:
# bench/hops.sh
set -eu
cd "$(dirname "$0")/.."
work=$(mktemp -d)
trap 'rm -rf "$work"' EXIT

(cd crates/bench_hops && rt run < stdin > "$work/build.log" 2>&1) || { cat "$work/build.log"; exit 1; }
cp crates/bench_hops/out/bench_hops "$work/product"
python3 bench/path_input.py 512 0 1 64 path strips | sed '/^end/q' > "$work/field"

# seconds WAY COUNT JUMPS: the least processor time of nine runs
seconds() {
    { printf '%s\n' "$1" "$2" "$3"; cat "$work/field"; } > "$work/input"
    for _ in 1 2 3 4 5 6 7 8 9; do
        /usr/bin/time -f '%U %S' -a -o "$work/times" "$work/product" < "$work/input" > "$work/output"
    done
    awk '{ print $1 + $2 }' "$work/times" | sort -n | head -n 1
    rm "$work/times"
}

made=$(seconds 1 0 0)
alone=$(seconds 1 1000 0)
walks=$(sed 's/.* polygons, \(.*\) walks.*/\1/' "$work/output")
jumping=$(seconds 1 1000 256)
plain=$(seconds 2 1000 0)
corridor=$(seconds 3 1000 0)
awk -v made="$made" -v alone="$alone" -v jumping="$jumping" -v plain="$plain" -v corridor="$corridor" -v walks="$walks" 'BEGIN {
    printf "%d walks: %.2f ms a hop walk, %.2f with 256 jumps, %.2f a search without an estimate, %.2f a corridor\n", walks,
        (alone - made) / walks * 1000, (jumping - made) / walks * 1000, (plain - made) / walks * 1000, (corridor - made) / walks * 1000
    exit !(alone - made <= 1.6 * (plain - made) && jumping - alone <= 0.0003 * walks)
}'
