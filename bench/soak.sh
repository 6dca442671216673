#!/bin/sh
# A month of doors: PUBLISHES publishes (1000000) on one level of 512 by 512 columns with 24 doors, and on each LEVEL, a field text, as soak.c does it
# over the library. Fails where the same 100 paths take more than 1.3 times as long at the end as at the beginning, or the heap in use is more than
# a fiftieth greater. LIB is the archive of the library, and else what `rt lib` of crates/nav_ffi makes.
# usage: [LIB=..] [PUBLISHES=1000000] bench/soak.sh [LEVEL..]
set -eu
cd "$(dirname "$0")/.."
work=$(mktemp -d)
trap 'rm -rf "$work"' EXIT

lib=${LIB:-crates/nav_ffi/out/libnav_ffi.a}
[ -n "${LIB:-}" ] || (cd crates/nav_ffi && rt lib > "$work/build.log" 2>&1) || { cat "$work/build.log"; exit 1; }
cc -std=c11 -O2 -Wall -Wextra -o "$work/soak" bench/soak.c hosts/c/heap.c "$lib"
python3 bench/path_input.py 512 0 1 64 path contours | sed '/^end/q' > "$work/made"

status=0
for level in "$work/made" "$@"; do
    "$work/soak" "$level" "${PUBLISHES:-1000000}" > "$work/told"
    awk -v name="$(basename "$level")" '
        /^path/ { path = $4; line = sprintf("a path %.2f us at the beginning, %.2f at the end, ratio %.2f (limit 1.3)", $2, $3, $4) }
        /^memory/ { memory = $4; line = line sprintf("; %.0f bytes, then %.0f, ratio %.3f (limit 1.02)", $2, $3, $4) }
        END { print name ": " line; exit !(path <= 1.3 && memory <= 1.02) }' "$work/told" || status=1
done
exit $status
