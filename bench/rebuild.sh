#!/bin/sh
# Times one changed tile and its settle in the built program, on a level of 1024 by 1024 columns on two storeys in tiles of 32, as the GENERATOR
# writes it. A block of 4 by 4 inside one tile comes and goes 8000 times, as a door does, a settle after each; and a block comes, at 784 places
# in that tile in turn, and the one before it goes, and then a settle, 4000 times. The first asks for the same two builds again and again, which
# the level remembers; of the second each is new. No place touches another tile. Each is the least processor time of RUNS runs, less that of the
# level alone; microseconds a settle. Where a PEER is given, a command that plays the same input, its runs stand between. Fails where a settle of
# the first takes more than LIMIT microseconds, or one of the second more than MOVING times the peer's.
# GENERATOR takes the columns along a side, the columns along a tile's side, how many obstacles, how many questions and a seed.
# Build the program first: cd crates/navd && rt run -- play < stdin.
# usage: [RUNS=3] [LIMIT=110] [MOVING=1.2] bench/rebuild.sh GENERATOR [PEER]
set -eu
navd=${NAVD:-$(cd "$(dirname "$0")" && pwd)/../crates/navd/out/navd}
limit=${LIMIT:-110}
moving=${MOVING:-1.2}
generator=$1
peer=${2:-}
work=$(mktemp -d)
trap 'rm -rf "$work"' EXIT

$generator 1024 32 2048 4096 1 | awk '{ print } /^script / { exit }' > "$work/none"
{
    cat "$work/none"
    awk 'BEGIN { for (n = 1; n <= 8000; n++) printf "add block 526 529 0 100 526 529\nsettle\ndrop %d\nsettle\n", n }'
} > "$work/door"
{
    cat "$work/none"
    awk 'BEGIN {
        for (n = 1; n <= 4000; n++) {
            at = n * 5 % 784; x = 513 + at % 28; z = 513 + int(at / 28)
            printf "add block %d %d 0 100 %d %d\n", x, x + 3, z, z + 3
            if (n > 1) printf "drop %d\n", n - 1
            print "settle"
        } }'
} > "$work/moving"

# timed NAME COMMAND: one run without the settles and one of each kind; their processor times are appended to the times of NAME
timed() {
    name=$1
    shift
    for cut in none door moving; do /usr/bin/time -f '%U %S' -a -o "$work/$name.$cut" "$@" < "$work/$cut" > /dev/null; done
}

for _ in $(seq "${RUNS:-3}"); do
    timed own "$navd" play
    [ -z "$peer" ] || timed peer $peer
done

least() { awk '{ print $1 + $2 }' "$work/$1" | sort -n | head -n 1; }
# each NAME CUT SETTLES: microseconds a settle
each() { echo "$(least "$1.$2") $(least "$1.none") $3" | awk '{ printf "%.1f", ($1 - $2) * 1000000 / $3 }'; }

status=0
door=$(each own door 16000)
new=$(each own moving 4000)
echo "a changed tile and its settle, a door: $door us (limit $limit)"
echo "$door $limit" | awk '{ exit !($1 <= $2) }' || status=1
echo "a changed tile and its settle, a block that moves: $new us"
if [ -n "$peer" ]; then
    echo "$door $(each peer door 16000)" | awk '{ printf "the peer, a door: %.1f us, ratio %.2f\n", $2, $1 / $2 }'
    echo "$new $(each peer moving 4000) $moving" | awk '{ printf "the peer, a block that moves: %.1f us, ratio %.2f (limit %s)\n", $2, $1 / $2, $3; exit !($1 <= $3 * $2) }' || status=1
fi
exit $status
