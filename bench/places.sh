#!/bin/sh
# Times the place nearest to a random point, in the strips of 512 by 512 columns, one in 64 a pillar, radius 2, tiles of 32: 100000 questions
# each within nothing, within 4 cells and within 64. Prints microseconds a question, each from the least processor time of nine runs, less that
# of reading and building. Fails where a question within some reach takes more than twice one within nothing, which looks at one polygon or two.
#
# With PEER, a program as places_peer.cpp makes it, or that file, which is compiled then (librecast-dev of the distribution is wanted), the library's
# calls are timed beside the peer's on the same spans, as places.c and places_peer.cpp do it: on two made levels of contours, and on each LEVEL,
# a field text whose height unit is UNIT cells. Each number is the least of RUNS runs in turn. Fails where the ratio of a kind, or of the sum of
# the nearest places, is above its limit. With INSTRUCTIONS=1 it counts instructions, by callgrind of the distribution's valgrind, in place of times,
# with the same limits: a busy machine does not change them. PEER is a source file then.
# LIB is the archive of the library, and else what `rt lib` of crates/nav_ffi makes.
# usage: [LIB=..] [UNIT=0.125] [RUNS=5] [COUNT=4000] [INSTRUCTIONS=1] bench/places.sh [PEER [LEVEL..]]
set -eu
cd "$(dirname "$0")/.."
work=$(mktemp -d)
trap 'rm -rf "$work"' EXIT

# seconds REACH COUNT: the least processor time of nine runs
seconds() {
    { printf '%s\n' "$1" 16 "$2"; cat "$work/field"; } > "$work/input"
    for _ in 1 2 3 4 5 6 7 8 9; do
        /usr/bin/time -f '%U %S' -a -o "$work/times" "$work/product" < "$work/input" > "$work/output"
    done
    awk '{ print $1 + $2 }' "$work/times" | sort -n | head -n 1
    rm "$work/times"
}

# alone: questions within a reach to those within nothing
alone() {
    (cd crates/bench_places && rt run < stdin > "$work/build.log" 2>&1) || { cat "$work/build.log"; exit 1; }
    cp crates/bench_places/out/bench_places "$work/product"
    python3 bench/path_input.py 512 0 1 64 path strips | sed '/^end/q' > "$work/field"
    made=$(seconds 0 0)
    own=$(seconds 0 100000)
    near=$(seconds 64 100000)
    far=$(seconds 1024 100000)
    awk -v made="$made" -v own="$own" -v near="$near" -v far="$far" 'BEGIN {
        printf "%.2f us a question within nothing, %.2f within 4 cells, %.2f within 64\n", (own - made) * 10, (near - made) * 10, (far - made) * 10
        exit !(near - made <= 2 * (own - made) && far - made <= 2 * (own - made))
    }'
}

# asked NAME PROGRAM..: a line for each kind of question, its name, what one takes, how many have an answer, and how many there are, behind those of NAME
asked() {
    name=$1
    shift
    if [ -z "${INSTRUCTIONS:-}" ]; then
        "$@" 3 >> "$work/$name"
        return
    fi
    rm -f "$work"/calls*
    valgrind --tool=callgrind --instr-atstart=no --callgrind-out-file="$work/calls" "$@" 1 > "$work/found" 2> "$work/valgrind.log"
    while read -r kind _ found count; do
        awk -v kind="$kind" -v found="$found" -v count="$count" '
            /^totals:/ { all = $2 }
            END { printf "%s %.1f %d %d\n", kind, all / count, found, count }' "$(grep -l "Client Request: $kind\$" "$work"/calls.*)"
    done < "$work/found" >> "$work/$name"
}

# beside NAME FIELD UNIT: both programs in turn on one level
beside() {
    "$work/places" "$2" make "${COUNT:-4000}" > "$work/questions"
    rm -f "$work/own" "$work/peer"
    runs=${RUNS:-5}
    [ -z "${INSTRUCTIONS:-}" ] || runs=1
    for _ in $(seq "$runs"); do
        asked own "$work/places" "$2" ask "$work/questions" "$3"
        asked peer "$peer" "$2" "$work/questions" "$3"
    done
    awk -v level="$1" -v unit="${INSTRUCTIONS:+instructions}" '
        BEGIN {
            most["floor4"] = 1.3; most["floor16"] = 1; most["any64"] = 1; most["air4"] = 1.6; most["height"] = 1
            most["half"] = 1; most["step3"] = 1.5; most["wall10"] = 2; most["random"] = 1
            if (!unit) unit = "ns"
        }
        FNR == 1 { file++ }
        {
            key = file " " $1
            if (!(key in least) || $2 < least[key]) least[key] = $2
            part[key] = $3 " of " $4
            if (file == 1 && !($1 in seen)) { seen[$1]; order[++n] = $1 }
        }
        # a kind without a limit is told alone
        function told(name, a, b, limit) {
            worse = limit && a > limit * b ? ", ABOVE" : ""
            printf "%s, %s: %.0f %s, the peer %.0f; ratio %.2f [%s]%s\n", level, name, a, unit, b, a / b, limit ? sprintf("%.1f", limit) : "no limit", worse
            if (worse) above = 1
        }
        END {
            for (i = 1; i <= n; i++) {
                k = order[i]
                told(k " (" part["1 " k] ", the peer " part["2 " k] ")", least["1 " k], least["2 " k], most[k])
                if (k ~ /^(floor4|floor16|any64|air4)$/) { a += least["1 " k]; b += least["2 " k] }
            }
            told("all nearest", a, b, 1)
            exit above
        }' "$work/own" "$work/peer"
}

[ $# -gt 0 ] || { alone; exit; }
peer=$1
shift
case $peer in *.cpp)
    c++ -O2 -std=c++17 ${INSTRUCTIONS:+-DCOUNTED} -I/usr/include/recastnavigation "$peer" -o "$work/peer_program" -lDetourTileCache -lDetour -lRecast
    peer=$work/peer_program ;;
esac
if [ -z "${LIB:-}" ]; then
    (cd crates/nav_ffi && rt lib > "$work/build.log" 2>&1) || { cat "$work/build.log"; exit 1; }
    LIB=crates/nav_ffi/out/libnav_ffi.a
fi
cc -std=c11 -O2 ${INSTRUCTIONS:+-DCOUNTED} bench/places.c hosts/c/heap.c "$LIB" -lm -o "$work/places"

status=0
python3 bench/path_input.py 512 0 1 64 path contours | sed '/^end/q' > "$work/one"
beside "one storey" "$work/one" 1 || status=1
python3 bench/level_input.py 240 0 11 contours 169 0 smooth | sed '/^end/q' > "$work/two"
beside "two storeys" "$work/two" 1 || status=1
for level in "$@"; do
    name=$(basename "$level" .field)
    beside "$name" "$level" "${UNIT:-0.125}" || status=1
done
exit $status
