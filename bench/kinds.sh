#!/bin/sh
# Times, as kinds.c and kinds_peer.cpp do it, by the least processor time of RUNS runs in turn:
#   opening 2 and 4 kinds of agents at once over the spans of a level, to opening as many by themselves [0.85]; told beside it: to as many field texts
#   a door that is put up, turned, while another goes, and the settle, to one that is a block [1.3], and to a turned box of the peer's DetourTileCache [1.2]
# on two made levels of contours, of one and of two storeys, and on each LEVEL, a field text whose height unit is UNIT cells. Fails where a ratio is above
# its limit. With INSTRUCTIONS=1 it counts instructions, by callgrind of the distribution's valgrind, in place of times, with the same limits: a busy
# machine does not change them. Wanted is librecast-dev of the distribution. LIB is the archive of the library, and else what `rt lib` of
# crates/nav_ffi makes.
# usage: [LIB=..] [UNIT=0.125] [RUNS=9] [COUNT=500] [INSTRUCTIONS=1] bench/kinds.sh [LEVEL..]
set -eu
cd "$(dirname "$0")/.."
. bench/with_library.sh
cc -std=c11 -O2 ${INSTRUCTIONS:+-DCOUNTED} bench/kinds.c hosts/c/heap.c "$LIB" -lm -o "$work/kinds"
c++ -O2 -std=c++17 ${INSTRUCTIONS:+-DCOUNTED} -I/usr/include/recastnavigation bench/kinds_peer.cpp -o "$work/peer" -lDetourTileCache -lDetour -lRecast

# timed NAME PROGRAM..: a line behind those that were told: NAME, and the time or the instructions of what the program does
timed() {
    name=$1
    shift
    if [ -z "${INSTRUCTIONS:-}" ]; then
        "$@" > "$work/one"
        sed "s/^[^ ]*/$name/" "$work/one" >> "$work/told"
        return
    fi
    rm -f "$work"/calls*
    valgrind --tool=callgrind --instr-atstart=no --callgrind-out-file="$work/calls" "$@" > "$work/one" 2> "$work/valgrind.log"
    read -r kind _ parts < "$work/one"
    awk -v name="$name" -v parts="$parts" '/^totals:/ { all = $2 } END { printf "%s %.0f\n", name, all / parts }' \
        "$(grep -l "Client Request: $kind\$" "$work"/calls.*)" >> "$work/told"
}

# beside NAME FIELD UNIT: all in turn on one level
beside() {
    rm -f "$work/told"
    sed 's/^limit .*/limit 64/' "$2" > "$work/field"
    "$work/kinds" "$work/field" make "${COUNT:-500}" > "$work/places"
    runs=${RUNS:-9}
    [ -z "${INSTRUCTIONS:-}" ] || runs=1
    for _ in $(seq "$runs"); do
        for count in 2 4; do
            for kind in open alone texts; do timed "$kind$count" "$work/kinds" "$work/field" $kind $count; done
        done
        for kind in block prism; do timed $kind "$work/kinds" "$work/field" $kind "$work/places"; done
        for kind in box turned; do timed $kind "$work/peer" "$work/field" $kind "$work/places" "$3"; done
    done
    awk -v level="$1" -v unit="${INSTRUCTIONS:+instructions}" '
        !($1 in least) || $2 < least[$1] { least[$1] = $2 }
        function told(what, one, other, limit) {
            ratio = least[one] / least[other]
            printf "%s, %s: %.0f %s to %.0f; ratio %.3f%s\n", level, what, least[one], unit ? unit : "ns", least[other], ratio,
                limit ? sprintf(" [%.2f]%s", limit, ratio > limit ? ", ABOVE" : "") : ""
            above = above || (limit && ratio > limit)
        }
        END {
            told("two kinds, to two by themselves", "open2", "alone2", 0.85)
            told("four kinds, to four by themselves", "open4", "alone4", 0.85)
            told("two kinds, to two texts", "open2", "texts2", 0)
            told("four kinds, to four texts", "open4", "texts4", 0)
            told("a turned door, to a block", "prism", "block", 1.3)
            told("a turned door, to a turned box of the peer", "prism", "turned", 1.2)
            told("a block, to a box of the peer", "block", "box", 0)
            exit above
        }' "$work/told"
}

status=0
python3 bench/path_input.py 512 0 1 64 path contours | sed '/^end/q' > "$work/one_storey"
beside "one storey" "$work/one_storey" 1 || status=1
python3 bench/level_input.py 240 0 11 contours 169 0 smooth | sed '/^end/q' > "$work/two_storeys"
beside "two storeys" "$work/two_storeys" 1 || status=1
for level in "$@"; do
    beside "$(basename "$level" .field)" "$level" "${UNIT:-0.125}" || status=1
done
exit $status
