#!/bin/sh
# Times questions in the built program: 2000 for paths, or with `ray` 20000 for straight walks, between random points of a field of 512 by 512
# columns of which one in 64 is a pillar, with an agent of radius 2 and tiles of 32, less the same field with one question; the least processor
# time of three runs each. Fails where the paths take 4 seconds or more, the rays half a second.
# Build the program first: cd crates/navd && rt run -- play < stdin.     usage: bench/paths.sh [path | ray]
set -eu
here=$(cd "$(dirname "$0")" && pwd)
navd="$here/../crates/navd/out/navd"
work=$(mktemp -d)
trap 'rm -rf "$work"' EXIT
kind=${1:-path}
case $kind in
    path) count=2000 most=4 ;;
    ray) count=20000 most=0.5 ;;
    *) echo "usage: bench/paths.sh [path | ray]" >&2; exit 2 ;;
esac

# seconds INPUT: the least processor time of three runs, and that run's memory at the peak in KB
seconds() {
    for _ in 1 2 3; do /usr/bin/time -f '%U %S %M' -a -o "$work/times" "$navd" play < "$1" > "$work/out"; done
    awk '{ print $1 + $2, $3 }' "$work/times" | sort -n | head -n 1
    rm "$work/times"
}

python3 "$here/path_input.py" 512 "$count" 1 64 "$kind" > "$work/many"
python3 "$here/path_input.py" 512 1 1 64 "$kind" > "$work/one"
many=$(seconds "$work/many")
cut -d ' ' -f 1 "$work/out" | sort | uniq -c | sort -rn
one=$(seconds "$work/one")
echo "$many $one $count $most" | awk '{ printf "%d questions: %.2f s, %.4f ms each; reading and building %.2f s; %d KB\n", $5, $1 - $3, ($1 - $3) * 1000 / $5, $3, $2; exit !($1 - $3 < $6) }'
