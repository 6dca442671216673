#!/bin/sh
# Times marches in strips: 4000 questions for the path from one end to the other of a hall of 8 by 1004 columns, with a wall at every tenth row
# that leaves a gap at one side and then at the other, so that the way has 1001 links and turns at each wall; and 4000 marches along it from the
# same place, of random lengths. Prints the microseconds of each, from the least processor time of nine runs, less that of reading and building.
# Fails where a march takes more than 1.2 times the question; and where `part` tries more than 3 steps a call on corridors of strips, which
# tries.py counts. usage: bench/walks.sh
set -eu
cd "$(dirname "$0")/.."
work=$(mktemp -d)
trap 'rm -rf "$work"' EXIT

(cd crates/bench_hops && rt run < stdin > "$work/build.log" 2>&1) || { cat "$work/build.log"; exit 1; }
cp crates/bench_hops/out/bench_hops "$work/product"
awk 'BEGIN {
    print "nav 1\nsize 8 1004\ntile 32\nagent 10 4 0\nerror 169\nmesh strips\nlimit 1"
    for (z = 0; z < 1004; z++) for (x = 0; x < 8; x++) {
        wall = z % 10 == 9 && (int(z / 10) % 2 ? x > 1 : x < 6)
        print "span", x, z, 0, wall ? "40 0" : "10 63"
    }
    print "end"
}' > "$work/field"

# seconds WAY COUNT: the least processor time of nine runs
seconds() {
    { printf '%s\n' "$1" "$2" 0; cat "$work/field"; } > "$work/input"
    for _ in 1 2 3 4 5 6 7 8 9; do
        /usr/bin/time -f '%U %S' -a -o "$work/times" "$work/product" < "$work/input" > "$work/output"
    done
    awk '{ print $1 + $2 }' "$work/times" | sort -n | head -n 1
    rm "$work/times"
}

made=$(seconds 4 0)
asked=$(seconds 4 4000)
cat "$work/output"
marched=$(seconds 5 4000)
cat "$work/output"
status=0
awk -v made="$made" -v asked="$asked" -v marched="$marched" 'BEGIN {
    printf "%.0f microseconds a question, %.0f a march: %.2f times\n", (asked - made) * 250, (marched - made) * 250, (marched - made) / (asked - made)
    exit !(marched - made <= 1.2 * (asked - made))
}' || status=1
python3 bench/tries.py || status=1
exit $status
