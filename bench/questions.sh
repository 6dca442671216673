#!/bin/sh
# Times path questions in the built program: q1024, 1000 questions between random points of 1024 by 1024 columns, and q512, 2048 of 512 by 512,
# each less the same level without a question; the least processor time of three runs each. Prints microseconds a searched question, which is
# one that is answered by a path or by nopath. Where a peer is given, a command that plays the same input and prints one line with the words
# `found N` and `nopath N`, its runs stand between the program's, and the ratio of the two is printed: the script fails where it is above LIMIT.
# The levels are path_input.py's, or those that GENERATOR writes: a command that takes the columns along a side, the columns along a tile's
# side, how many obstacles, how many questions and a seed, of whose script the path lines alone are taken.
# Build the program first: cd crates/navd && rt run -- play < stdin.
# usage: [LIMIT=1.3] bench/questions.sh [PEER [GENERATOR]]
set -eu
here=$(cd "$(dirname "$0")" && pwd)
navd=${NAVD:-$here/../crates/navd/out/navd}
limit=${LIMIT:-1.3}
peer=${1:-}
generator=${2:-}
work=$(mktemp -d)
trap 'rm -rf "$work"' EXIT

# level SIDE OBSTACLES QUESTIONS: a level of SIDE by SIDE columns and its script
level() {
    if [ -n "$generator" ]; then $generator "$1" 32 "$2" "$3" 1; else python3 "$here/path_input.py" "$1" "$3" 1 64 path contours; fi
}

# timed NAME INPUT COMMAND: one run's processor time, appended to the times of NAME
timed() {
    name=$1 input=$2
    shift 2
    /usr/bin/time -f '%U %S' -a -o "$work/$name.times" "$@" < "$input" > "$work/$name.out"
}

# least NAME: the least of the processor times
least() { awk '{ print $1 + $2 }' "$work/$1.times" | sort -n | head -n 1; }

# a searched question's microseconds from the times with questions and without, and how many were searched
each() { echo "$1 $2 $3" | awk '{ printf "%.1f", ($1 - $2) * 1000000 / $3 }'; }

status=0
for row in "q1024 1024 2048 4096 1000" "q512 512 1024 2048 2048"; do
    set -- $row
    level "$2" "$3" "$4" | awk -v most="$5" '!script { print; script = /^script / ; next } /^path / && n < most { print; n++ }' > "$work/many"
    awk '{ print } /^script / { exit }' "$work/many" > "$work/none"
    rm -f "$work"/*.times
    for _ in 1 2 3; do
        for cut in none many; do
            timed "own.$cut" "$work/$cut" "$navd" play
            [ -z "$peer" ] || timed "peer.$cut" "$work/$cut" $peer
        done
    done
    searched=$(grep -c -E '^(path|nopath)( |$)' "$work/own.many.out")
    own=$(each "$(least own.many)" "$(least own.none)" "$searched")
    if [ -z "$peer" ]; then
        echo "$1: $searched searched questions, $own us each"
        continue
    fi
    theirs=$(tr ' ' '\n' < "$work/peer.many.out" | awk 'last == "found" || last == "nopath" { sum += $1 } { last = $1 } END { print sum }')
    other=$(each "$(least peer.many)" "$(least peer.none)" "$theirs")
    echo "$1 $searched $own $theirs $other $limit" | awk '{ ratio = $3 / $5
        printf "%s: %d searched questions, %.1f us each; the peer %d, %.1f us each; ratio %.2f\n", $1, $2, $3, $4, $5, ratio; exit !(ratio <= $6) }' || status=1
done
exit $status
