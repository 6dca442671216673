#!/bin/sh
# Times the stages of the built program on one input, beside a peer that plays the same: 1024 by 1024 columns on two storeys in tiles of 32,
# 2048 obstacles, 4096 paths and as many rays, as the GENERATOR writes it. Stages are told apart by cuts of that input, as differences of
# processor times: reading (the whole text, refused for its last line), building (no script line), obstacles (no question), questions (no
# obstacle). Each is the least of RUNS runs of both programs in turn, to 10 milliseconds; reading, which takes about four of these, the least of
# READINGS runs by a clock of microseconds. Prints both, their ratio and its limit, and the greatest memory of the whole input; fails where a
# ratio is above its limit: reading 1.0, building 0.4, obstacles 0.4, questions 1.0, memory 3.
# PEER is a command that plays the input on its standard input. GENERATOR takes the columns along a side, the columns along a tile's side, how
# many obstacles, how many questions and a seed.
# Build the program first: cd crates/navd && rt run -- play < stdin.
# usage: [RUNS=3] [READINGS=60] bench/stages.sh PEER GENERATOR
set -eu
here=$(cd "$(dirname "$0")" && pwd)
navd=${NAVD:-$here/../crates/navd/out/navd}
peer=$1
generator=$2
work=$(mktemp -d)
trap 'rm -rf "$work"' EXIT

$generator 1024 32 2048 4096 1 > "$work/whole"
awk '{ print } END { print "jump" }' "$work/whole" > "$work/parse"
awk '{ print } /^script / { exit }' "$work/whole" > "$work/build"
grep -v -E '^(path|ray|floor) ' "$work/whole" > "$work/obstacles"
awk '!script { print; script = /^script / ; next } /^(path|ray|floor) /' "$work/whole" > "$work/questions"

# timed NAME INPUT COMMAND: one run; its processor seconds and kilobytes are kept under the name
timed() {
    name=$1 input=$2
    shift 2
    /usr/bin/time -q -f '%U %S %M' -a -o "$work/$name.times" "$@" < "$input" > /dev/null 2>&1 || true
}

for _ in $(seq "${RUNS:-3}"); do
    for cut in build obstacles questions whole; do
        timed "own.$cut" "$work/$cut" "$navd" play
        timed "peer.$cut" "$work/$cut" $peer
    done
done
"$here/in_turn.py" "${READINGS:-60}" "$work/parse" "$navd play" "$peer" > "$work/parse.seconds"
{ read -r own_parse; read -r peer_parse; } < "$work/parse.seconds"

seconds() { awk '{ print $1 + $2 }' "$work/$1.times" | sort -n | head -n 1; }
megabytes() { awk '{ print $3 / 1000 }' "$work/$1.times" | sort -n | head -n 1; }

# at_most LIMIT NAME UNIT OWN PEER [OWN PEER]: what both take, less the second two, and whether their ratio is within the limit
at_most() {
    awk -v limit="$1" -v name="$2" -v unit="$3" -v own="$4" -v other="$5" -v own_less="${6:-0}" -v other_less="${7:-0}" 'BEGIN {
        own -= own_less; other -= other_less
        printf "%s: %.3f %s, the peer %.3f, ratio %.2f (limit %s)\n", name, own, unit, other, own / other, limit
        exit !(own <= limit * other) }'
}

status=0
at_most 1.0 reading s "$own_parse" "$peer_parse" || status=1
at_most 0.4 building s "$(seconds own.build)" "$(seconds peer.build)" "$own_parse" "$peer_parse" || status=1
at_most 0.4 obstacles s "$(seconds own.obstacles)" "$(seconds peer.obstacles)" "$(seconds own.build)" "$(seconds peer.build)" || status=1
at_most 1.0 questions s "$(seconds own.questions)" "$(seconds peer.questions)" "$(seconds own.build)" "$(seconds peer.build)" || status=1
at_most 3 memory MB "$(megabytes own.whole)" "$(megabytes peer.whole)" || status=1
exit $status
