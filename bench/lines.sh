#!/bin/sh
# Counts the instructions of a shortest line over the library, beside a peer on the same spans, as lines.c and lines_peer.cpp do it: a quick one beside findPath
# and findStraightPath [1.5], and one by the whole search beside Detour's search at any angle [1.7]; on a made level of contours at error 49, and on each
# LEVEL, a field text whose height unit is UNIT cells. Fails where a ratio is above its limit. Wanted are valgrind and librecast-dev of the distribution.
# LIB is the archive of the library, and else what `rt lib` of crates/nav_ffi makes.
# usage: [LIB=..] [UNIT=0.125] [COUNT=100] bench/lines.sh [LEVEL..]
set -eu
cd "$(dirname "$0")/.."
. bench/with_library.sh
cc -std=c11 -O2 -DCOUNTED bench/lines.c hosts/c/heap.c "$LIB" -lm -o "$work/lines"
c++ -O2 -std=c++17 -DCOUNTED -I/usr/include/recastnavigation bench/lines_peer.cpp -o "$work/peer_program" -lDetourTileCache -lDetour -lRecast

# counted NAME PROGRAM..: a line for each kind, its name and the instructions of a question
counted() {
    name=$1
    shift
    rm -f "$work"/calls*
    valgrind --tool=callgrind --instr-atstart=no --callgrind-out-file="$work/calls" "$@" 1 > "$work/found" 2> "$work/valgrind.log"
    while read -r kind _ found count; do
        awk -v kind="$kind" -v found="$found" -v count="$count" '
            /^totals:/ { all = $2 }
            END { printf "%s %.0f %d %d\n", kind, all / count, found, count }' "$(grep -l "Client Request: $kind\$" "$work"/calls.*)"
    done < "$work/found" > "$work/$name"
    grep -h "^lines: quick" "$work/valgrind.log" || true
}

# beside NAME FIELD UNIT: both programs on one level
beside() {
    "$work/lines" "$2" make "${COUNT:-100}" > "$work/pairs"
    counted own "$work/lines" "$2" ask "$work/pairs" "$3"
    counted peer "$work/peer_program" "$2" "$work/pairs" "$3"
    awk -v level="$1" '
        BEGIN { most["quick"] = 1.5; most["whole"] = 1.7 }
        NR == FNR { own[$1] = $2; asked[$1] = $3 " of " $4; next }
        {
            above = above || own[$1] > most[$1] * $2
            printf "%s, %s (%s, the peer %d of %d): %d instructions, the peer %d; ratio %.2f [%s]\n", level, $1, asked[$1], $3, $4, own[$1], $2, own[$1] / $2,
                most[$1]
        }
        END { exit above }' "$work/own" "$work/peer"
}

status=0
python3 bench/path_input.py 512 0 1 64 path contours | sed 's/^error .*/error 49/; /^end/q' > "$work/made"
beside "made" "$work/made" 1 || status=1
for level in "$@"; do
    beside "$(basename "$level" .field)" "$level" "${UNIT:-0.125}" || status=1
done
exit $status
