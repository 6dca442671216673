#!/bin/sh
# Times the built program on plays of 1000 script lines over a flat field of 128 by 128 columns, and compares what it writes with
# what the plain second program writes. Build the program first: cd crates/navd && rt run -- play < stdin
set -e
here=$(cd "$(dirname "$0")" && pwd)
navd="$here/../crates/navd/out/navd"
work=$(mktemp -d)
trap 'rm -rf "$work"' EXIT
for seed in 1 2 3; do
    python3 "$here/play_input.py" 128 1000 $seed > "$work/input"
    /usr/bin/time -f "seed $seed: %e s, %M KB" "$navd" play < "$work/input" > "$work/output"
    python3 "$here/../reference/play_check.py" "$work/input" "$work/output" && echo "seed $seed: the same as the second program"
done
