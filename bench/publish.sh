#!/bin/sh
# Times what a settle takes that changes one small tile, in the built program. Empty levels: 1024 by 1024 columns with one span, in 64, 1024,
# 4096 and 16384 tiles, 4000 settles of one block in a tile without cells: what the history, the desk and the publishing take. A floor: 512 by
# 512 columns in 1024 tiles, 20000 settles of one block of 4 by 4, beside a peer if one is given, a command that plays the same input. Each is
# the least processor time of three runs, less that of the level without a settle; microseconds a settle. Fails where an empty tile takes more
# than 20 microseconds at 1024 tiles or 30 at 16384, or the floor more than LIMIT times the peer's.
# Build the program first: cd crates/navd && rt run -- play < stdin.
# usage: [LIMIT=1.0] bench/publish.sh [PEER]
set -eu
navd=${NAVD:-$(cd "$(dirname "$0")" && pwd)/../crates/navd/out/navd}
limit=${LIMIT:-1.0}
peer=${1:-}
work=$(mktemp -d)
trap 'rm -rf "$work"' EXIT

# level SIDE TILE SPANS SETTLES: one span or a floor, and a block that comes and goes, a settle after each
level() {
    awk -v side="$1" -v tile="$2" -v spans="$3" -v settles="$4" 'BEGIN {
        printf "nav 1\nsize %d %d\ntile %d\nagent 10 4 0\nerror 169\nmesh contours\nlimit 8\n", side, side, tile
        if (spans == "one") print "span 0 0 0 10 63"
        else for (z = 0; z < side; z++) for (x = 0; x < side; x++) printf "span %d %d 0 10 63\n", x, z
        print "end\nscript 1 1"
        at = 1 + int(side / 2 / tile) * tile + 1
        for (n = 1; n <= settles / 2; n++) printf "add block %d %d 0 100 %d %d\nsettle\ndrop %d\nsettle\n", at, at + 3, at, at + 3, n }'
}

# timed NAME INPUT COMMAND: one run's processor time, appended to the times of NAME
timed() {
    name=$1 input=$2
    shift 2
    /usr/bin/time -f '%U %S' -a -o "$work/$name.times" "$@" < "$input" > /dev/null
}

least() { awk '{ print $1 + $2 }' "$work/$1.times" | sort -n | head -n 1; }

# timed_level SIDE TILE SPANS SETTLES: the times of both programs with the settles and without
timed_level() {
    rm -f "$work"/*.times
    level "$1" "$2" "$3" "$4" > "$work/many"
    awk '{ print } /^script / { exit }' "$work/many" > "$work/none"
    for _ in 1 2 3; do
        for cut in none many; do
            timed "own.$cut" "$work/$cut" "$navd" play
            [ -z "$5" ] || timed "peer.$cut" "$work/$cut" $5
        done
    done
}

# each NAME SETTLES: microseconds a settle
each() { echo "$(least "$1.many") $(least "$1.none") $2" | awk '{ printf "%.1f", ($1 - $2) * 1000000 / $3 }'; }

status=0
for tile in 128 32 16 8; do
    timed_level 1024 $tile one 4000 ""
    own=$(each own 4000)
    echo "an empty tile of $((1024 / tile * 1024 / tile)): $own us a settle"
    case $tile in 32) most=20 ;; 8) most=30 ;; *) continue ;; esac
    echo "$own $most" | awk '{ exit !($1 <= $2) }' || status=1
done
timed_level 512 16 floor 20000 "$peer"
own=$(each own 20000)
if [ -z "$peer" ]; then
    echo "a block on a floor of 1024 tiles: $own us a settle"
else
    echo "$own $(each peer 20000) $limit" | awk '{ printf "a block on a floor of 1024 tiles: %.1f us a settle, the peer %.1f us; ratio %.2f\n", $1, $2, $1 / $2; exit !($1 <= $3 * $2) }' || status=1
fi
exit $status
