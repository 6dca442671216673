#!/bin/sh
# Times path questions on a level that changes, in the built program: 1024 by 1024 columns on two storeys in tiles of 32, as the GENERATOR writes it,
# where 256 times a block of 4 by 4 inside one tile comes or goes, as a door does, then a settle, and then 16 questions for paths between the
# points of its script. Prints microseconds a question, from the least processor time of three runs, less that of the same run without the
# questions; where a PEER is given, a command that plays the same input, its runs stand between. Fails where a question takes more than LIMIT
# times the peer's. GENERATOR takes the columns along a side, the columns along a tile's side, how many obstacles, how many questions and a seed.
# Build the program first: cd crates/navd && rt run -- play < stdin.
# usage: [RUNS=3] [LIMIT=1] bench/changes.sh GENERATOR [PEER]
set -eu
navd=${NAVD:-$(cd "$(dirname "$0")" && pwd)/../crates/navd/out/navd}
limit=${LIMIT:-1}
generator=$1
peer=${2:-}
work=$(mktemp -d)
trap 'rm -rf "$work"' EXIT

$generator 1024 32 2048 4096 1 | awk '!script { print; script = /^script / ; next } /^path / {
    if (asked % 16 == 0) {
        round++
        print round % 2 ? "add block 526 529 0 100 526 529" : "drop " round / 2
        print "settle"
    }
    asked++
    print }' > "$work/asked"
grep -v '^path ' "$work/asked" > "$work/silent"
questions=$(grep -c '^path ' "$work/asked")

# timed NAME COMMAND: one run with the questions and one without; their processor times are appended to the times of NAME
timed() {
    name=$1
    shift
    for cut in asked silent; do /usr/bin/time -f '%U %S' -a -o "$work/$name.$cut" "$@" < "$work/$cut" > /dev/null; done
}

for _ in $(seq "${RUNS:-3}"); do
    timed own "$navd" play
    [ -z "$peer" ] || timed peer $peer
done

least() { awk '{ print $1 + $2 }' "$work/$1" | sort -n | head -n 1; }
# each NAME: microseconds a question
each() { echo "$(least "$1.asked") $(least "$1.silent") $questions" | awk '{ printf "%.1f", ($1 - $2) * 1000000 / $3 }'; }

own=$(each own)
echo "a path question, with a door that moves after each 16: $own us"
[ -z "$peer" ] || echo "$own $(each peer) $limit" | awk '{ printf "the peer: %.1f us, ratio %.2f (limit %s)\n", $2, $1 / $2, $3; exit !($1 <= $3 * $2) }'
