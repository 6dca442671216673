#!/bin/sh
# Times the opening of levels from arrays of floats to their opening from the triangle texts of the same triangles, as arrays.c does it, by the least processor
# time of nine runs in turn; and the same from arrays whose triangles share no vertex, without a limit. Fails where the ratio of a level is above 0.95. LIB is the archive of the library, and else what `rt lib` of crates/nav_ffi makes.
# usage: [LIB=..] bench/arrays.sh TEXT..
set -eu
cd "$(dirname "$0")/.."
. bench/with_library.sh
cc -std=c11 -O2 bench/arrays.c hosts/c/heap.c "$LIB" -lm -o "$work/arrays"
status=0
for text in "$@"; do
    for _ in 1 2 3 4 5 6 7 8 9; do
        "$work/arrays" "$text" text
        "$work/arrays" "$text" arrays
        "$work/arrays" "$text" soup
    done | awk -v name="$(basename "$text")" '
        !($1 in least) || $2 < least[$1] { least[$1] = $2 }
        END {
            ratio = least["arrays"] / least["text"]
            printf "%s: %.1f ms from arrays, %.1f ms from text; ratio %.3f [0.95]; no vertex shared: %.3f\n", name, least["arrays"] / 1e6, least["text"] / 1e6, ratio, least["soup"] / least["text"]
            exit ratio > 0.95
        }' || status=1
done
exit $status
