#!/bin/sh
# Times the further questions about ways, by the C library and beside a peer: q512 and q1024, levels of path_input.py, and each INPUT, a field text with a
# script behind it, of which the path lines are read. Up to 500 pairs that paths join, and up to 100 that none joins. PEER is a command that takes such a
# file and prints, as hosts/c/bench_ways.c does, the name of each measure and its nanoseconds; or bench/ways_peer.cpp, which is compiled then
# (librecast-dev of the distribution is wanted). The two run in turn, three times; the least counts. Fails where a measure takes more than its limit:
#   plan: a way through no filter, to navd_view_find_path [1.1]; the polygons that are closed at ten times all costs, to those at the costs [1.05]
#   partial: a way to the nearest place, to the question that is answered by NAVD_NO_PATH [1.5]
#   flood: 128 cells, to findPolysAroundCircle [1.0]
#   ways_to_one: the ways of all starts to one goal by one flood back, to the same by a circle round all and its parents [1.3]
#   flood and ways_to_one are told a polygon too, since the peer has fewer polygons
#   changed_tiles: one door [5000 ns]; check_a_link: a kept path that is checked again and again [20 ns a link]; check_in_turn: one after the other
#   follow: a step of half a cell, 8 links ahead, to findCorners, isValid and movePosition [1.0]
# usage: bench/ways.sh [PEER [INPUT..]]
set -eu
here=$(cd "$(dirname "$0")/.." && pwd)
peer=${1:-}
[ $# -eq 0 ] || shift
work=$(mktemp -d)
trap 'rm -rf "$work"' EXIT

lib=${NAVD_ARCHIVE:-$here/crates/nav_ffi/out/libnav_ffi.a}
[ -n "${NAVD_ARCHIVE:-}" ] || (cd "$here/crates/nav_ffi" && rt lib > "$work/build.log" 2>&1) || { cat "$work/build.log"; exit 1; }
make -s -C "$here/hosts/c" LIB="$lib" TO="$work" "$work/bench_ways"
case $peer in *.cpp)
    c++ -O2 -std=c++17 -I/usr/include/recastnavigation "$peer" -o "$work/peer" -lDetourCrowd -lDetourTileCache -lDetour -lRecast
    peer=$work/peer ;;
esac

# compare NAME INPUT: the two programs in turn, and what their least times come to
compare() {
    rm -f "$work/own" "$work/other"
    for _ in 1 2 3; do
        "$work/bench_ways" "$2" >> "$work/own"
        [ -z "$peer" ] || $peer "$2" >> "$work/other"
    done
    touch "$work/other"
    awk -v name="$1" '
        function tell(what, ratio, limit) { printf "  %-52s %8.2f (limit %s)\n", what, ratio, limit; if (ratio > limit) bad = 1 }
        function by_polygon(what, count) {
            printf "  %s: %.1f ns each of %d polygons, the peer %.1f each of %d\n", what, own[what] / own[count], own[count], other[what] / other[count], other[count]
        }
        /^paths / { if (!seen[FILENAME]++) head[FILENAME] = $0; next }
        FILENAME ~ /own$/ { if (!($1 in own) || $2 < own[$1]) own[$1] = $2; next }
        { if (!($1 in other) || $2 < other[$1]) other[$1] = $2 }
        END {
            print name ": " head[ARGV[1]] (head[ARGV[2]] ? "; the peer: " head[ARGV[2]] : "")
            for (key in own) if (key !~ /^(closed|polygons)/) printf "  %-18s %12.1f ns%s\n", key, own[key], key in other ? sprintf(", the peer %.1f", other[key]) : ""
            tell("a plan to a path", own["plan"] / own["find_path"], 1.1)
            tell("closed at ten times the costs to closed", own["closed_at_ten_times"] / own["closed"], 1.05)
            if ("partial" in own) tell("a partial way to none", own["partial"] / own["no_path"], 1.5)
            tell("the tiles that a door changed, microseconds", own["changed_tiles"] / 1000, 5)
            tell("a check, nanoseconds a link", own["check_a_link"], 20)
            if ("flood" in other) {
                tell("a flood to findPolysAroundCircle", own["flood"] / other["flood"], 1.0)
                tell("ways to one goal to a circle round all", own["ways_to_one"] / other["ways_to_one"], 1.3)
                by_polygon("flood", "polygons_flood")
                by_polygon("ways_to_one", "polygons_to_one")
                tell("a step to findCorners, isValid, movePosition", own["follow_8_ahead"] / other["follow_8_ahead"], 1.0)
            }
            exit bad
        }' "$work/own" "$work/other" || status=1
}

status=0
for side in 512 1024; do
    python3 "$here/bench/path_input.py" $side 3000 1 64 path contours > "$work/level"
    compare "q$side" "$work/level"
done
for input in "$@"; do compare "$(basename "$input")" "$input"; done
exit $status
