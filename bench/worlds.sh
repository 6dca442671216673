#!/bin/sh
# Times the thin layer in a game's own numbers beside the calls of navd.h that do the same: ways with their corners, updates beside
# navd_registry_update, and the refresh of a snapshot where something is new beside navd_view_copy. Each number is the least of RUNS runs in turn. Fails
# where a way or an update is above 1.05 times the other, or a refresh above a microsecond. With INSTRUCTIONS=1 it counts instructions, by callgrind of the
# distribution's valgrind, in place of times: a busy machine does not change them; a refresh has no limit then.
# LIB is the archive of the library, and else what `rt lib` of crates/nav_ffi makes.
# usage: [LIB=..] [RUNS=9] [COUNT=2000] [INSTRUCTIONS=1] bench/worlds.sh
set -eu
cd "$(dirname "$0")/.."
. bench/with_library.sh
cc -std=c11 -O2 ${INSTRUCTIONS:+-DCOUNTED} -Iinclude bench/worlds.c hosts/world/navd_world.c hosts/c/heap.c "$LIB" -lm -pthread -o "$work/worlds"

runs=${RUNS:-9}
[ -z "${INSTRUCTIONS:-}" ] || runs=1
for _ in $(seq "$runs"); do
    for kind in path exact_path update exact refresh copy; do
        if [ -z "${INSTRUCTIONS:-}" ]; then
            "$work/worlds" $kind "${COUNT:-2000}" >> "$work/told"
        else
            valgrind --tool=callgrind --collect-atstart=no --callgrind-out-file="$work/calls" "$work/worlds" $kind "${COUNT:-2000}" > "$work/one" 2> "$work/log"
            awk -v all="$(sed -n 's/^totals: //p' "$work/calls")" '{ print $1, all / $3, $3 }' "$work/one" >> "$work/told"
        fi
    done
done
awk -v counts="${INSTRUCTIONS:-}" '
    !($1 in least) || $2 < least[$1] { least[$1] = $2 }
    function told(name, other, limit) {
        ratio = least[name] / least[other]
        printf "%s: %.0f %s, %s %.0f; ratio %.3f%s\n", name, least[name], counts ? "instructions" : "ns", other, least[other], ratio,
            limit ? " [" limit "]" : ""
        above = above || (limit && ratio > limit)
    }
    END {
        told("path", "exact_path", 1.05)
        told("update", "exact", 1.05)
        told("refresh", "copy", 0)
        exit above || (!counts && least["refresh"] > 1000)
    }' "$work/told"
