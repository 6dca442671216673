#!/bin/sh
# Times one tile of 128 by 128 columns by outlines of error 0. Its 42 regions are lanes of two columns that zigzag between walls of one: each has
# an outline of 512 corners, which is cut into 510 triangles that are united again. Prints the processor seconds of reading and building it,
# the least of three runs, and fails where they are more than 0.3. With BEFORE, another build of the program, that is timed in turn with it,
# once, and must answer the same.     Build the program first: cd crates/navd && rt run -- play < stdin
# usage: bench/merge.sh [BEFORE]
set -eu
navd="$(cd "$(dirname "$0")" && pwd)/../crates/navd/out/navd"
navd=${NAVD:-$navd}
work=$(mktemp -d)
trap 'rm -rf "$work"' EXIT

awk 'BEGIN {
    printf "nav 1\nsize 128 128\ntile 128\nagent 10 4 0\nerror 0\nmesh contours\nlimit 4\n"
    for (z = 0; z < 128; z++) for (x = 0; x < 128; x++) if ((x - z % 2 + 3) % 3 == 2) printf "span %d %d 0 40 0\n", x, z; else printf "span %d %d 0 10 63\n", x, z
    print "end\nscript 1 1\nsettle" }' > "$work/input"

# run NAME PROGRAM: one run, its processor seconds and its answer kept under the name
run() {
    /usr/bin/time -f '%U %S' -a -o "$work/$1.times" "$2" play < "$work/input" > "$work/$1.output"
}

# seconds NAME: the least processor time of its runs
seconds() {
    awk '{ print $1 + $2 }' "$work/$1.times" | sort -n | head -n 1
}

run now "$navd"
if [ $# -gt 0 ]; then run before "$1"; fi
run now "$navd"
run now "$navd"
now=$(seconds now)
echo "a tile with 42 regions that zigzag: $now s"
if [ $# -gt 0 ]; then
    cmp "$work/now.output" "$work/before.output"
    before=$(seconds before)
    awk -v now="$now" -v before="$before" 'BEGIN { printf "before: %s s, %.3f times as long now\n", before, now / before }'
fi
awk -v now="$now" 'BEGIN { exit !(now <= 0.3) }' || { echo "more than 0.3 s"; exit 1; }
