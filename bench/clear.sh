#!/bin/sh
# Times what it costs that agents keep their radius from obstacles, in the built program: the same levels with `clear 1` and with `clear 0`.
# Rebuilding: 96 by 96 columns in nine tiles of 32, radius 2, of one storey and of two; a block of 4 by 4 comes at one of 625 places in the
# middle tile, the one before it goes, and then a settle, 4000 times, so that each build is new; microseconds a settle, less what the level
# takes without one. Opening: 1024 by 1024 columns of one
# storey, tiles of 32, radius 2, no obstacle; seconds and megabytes. Each is the least of three runs. Fails where a settle takes more than LIMIT
# times as long, or the opening more than 1.5 times as long or 1.5 times as much memory.
# Build the program first: cd crates/navd && rt run -- play < stdin.
# usage: [LIMIT=3] bench/clear.sh
set -eu
navd=${NAVD:-$(cd "$(dirname "$0")" && pwd)/../crates/navd/out/navd}
limit=${LIMIT:-3}
work=$(mktemp -d)
trap 'rm -rf "$work"' EXIT

# level SIDE STOREYS CLEAR SETTLES
level() {
    awk -v side="$1" -v storeys="$2" -v clear="$3" -v settles="$4" 'BEGIN {
        printf "nav 2\nsize %d %d\ntile 32\nagent 10 4 2\nerror 169\nmesh contours\nlimit 8\nclear %d\n", side, side, clear
        for (z = 0; z < side; z++) for (x = 0; x < side; x++) {
            printf "span %d %d 0 10 63\n", x, z
            if (storeys == 2) printf "span %d %d 30 40 63\n", x, z
        }
        print "end\nscript 1 1"
        for (n = 1; n <= settles; n++) {
            at = n * 7 % 625; x = 34 + at % 25; z = 34 + int(at / 25)
            printf "add block %d %d 0 100 %d %d\n", x, x + 3, z, z + 3
            if (n > 1) printf "drop %d\n", n - 1
            print "settle"
        } }'
}

# timed NAME INPUT: three runs; their processor seconds and kilobytes are kept under the name
timed() {
    for _ in 1 2 3; do /usr/bin/time -f '%U %S %M' -a -o "$work/$1.times" "$navd" play < "$2" > /dev/null; done
}

seconds() { awk '{ print $1 + $2 }' "$work/$1.times" | sort -n | head -n 1; }

kilobytes() { awk '{ print $3 }' "$work/$1.times" | sort -n | head -n 1; }

# at_most LIMIT NAME UNIT WITH WITHOUT: tells both and their ratio, and whether it is within the limit
at_most() {
    awk -v limit="$1" -v name="$2" -v unit="$3" -v with="$4" -v without="$5" 'BEGIN {
        printf "%s: %.2f %s, without clearance %.2f, %.2f times (limit %s)\n", name, with, unit, without, with / without, limit
        exit !(with <= limit * without) }'
}

status=0
for storeys in 1 2; do
    for clear in 0 1; do
        level 96 $storeys $clear 4000 > "$work/many"
        awk '{ print } /^script / { exit }' "$work/many" > "$work/none"
        timed "$storeys.$clear.many" "$work/many"
        timed "$storeys.$clear.none" "$work/none"
        echo "$(seconds $storeys.$clear.many) $(seconds $storeys.$clear.none)" | awk '{ print ($1 - $2) * 1000000 / 4000 }' > "$work/$storeys.$clear"
    done
    at_most "$limit" "a settle that builds one tile of 32 again, $storeys storeys" us "$(cat "$work/$storeys.1")" "$(cat "$work/$storeys.0")" || status=1
done
for clear in 0 1; do
    level 1024 1 $clear 0 > "$work/open"
    timed "open.$clear" "$work/open"
done
at_most 1.5 "opening 1024 by 1024 columns" s "$(seconds open.1)" "$(seconds open.0)" || status=1
at_most 1.5 "its memory" MB "$(kilobytes open.1 | awk '{ print $1 / 1000 }')" "$(kilobytes open.0 | awk '{ print $1 / 1000 }')" || status=1
exit $status
