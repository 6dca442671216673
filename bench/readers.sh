#!/bin/sh
# Times readers side by side in the built program: live runs of 1, 2 and 4 lanes over a level of 512 by 512 columns, each lane with the same
# 2048 path questions, less a run whose lanes ask nothing: processor seconds a lane, the least of three runs in turn. Fails where a lane of
# several takes more than LIMIT times what a lane alone does.
# The level is path_input.py's, or that which GENERATOR writes: a command that takes the columns along a side, the columns along a tile's
# side, how many obstacles, how many questions and a seed, of whose script the path lines alone are taken.
# Build the program first: cd crates/navd && rt run -- play < stdin.
# usage: [LIMIT=1.15] bench/readers.sh [GENERATOR]
set -eu
here=$(cd "$(dirname "$0")" && pwd)
navd=${NAVD:-$here/../crates/navd/out/navd}
limit=${LIMIT:-1.15}
generator=${1:-}
work=$(mktemp -d)
trap 'rm -rf "$work"' EXIT

level() {
    if [ -n "$generator" ]; then $generator 512 32 1024 2048 1; else python3 "$here/path_input.py" 512 2048 1 64 path contours; fi
}

level > "$work/all"
awk '/^script / { exit } { print }' "$work/all" > "$work/field"
awk 'script && /^path / && n < 2048 { print; n++ } /^script / { script = 1 }' "$work/all" > "$work/questions"
for lanes in 1 2 4; do
    { cat "$work/field"; echo "script $lanes 1"; } > "$work/none.$lanes"
    {
        cat "$work/none.$lanes"
        lane=0
        while [ "$lane" -lt "$lanes" ]; do
            echo "lane $lane"
            cat "$work/questions"
            lane=$((lane + 1))
        done
    } > "$work/many.$lanes"
done
for _ in 1 2 3; do
    for lanes in 1 2 4; do
        for cut in none many; do
            /usr/bin/time -f '%U %S' -a -o "$work/$cut.$lanes.times" "$navd" live < "$work/$cut.$lanes" > /dev/null
        done
    done
done

least() { awk '{ print $1 + $2 }' "$work/$1.times" | sort -n | head -n 1; }
for lanes in 1 2 4; do echo "$lanes $(least "many.$lanes") $(least "none.$lanes")"; done | awk -v limit="$limit" '
    { each = ($2 - $3) / $1; if ($1 == 1) alone = each
      printf "%d lanes: %.3f s of the processor a lane, %.2f times one alone (limit %s)\n", $1, each, each / alone, limit
      if (each > limit * alone) worse = 1 }
    END { exit worse }'
