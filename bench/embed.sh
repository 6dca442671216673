#!/bin/sh
# Times calls over the border of the C library beside the same calls inside a program: floors of random columns, aims, and paths from one end to the
# other of 512 by 512 columns in strips, one in 64 a pillar, radius 0, tiles of 32; and four readers that ask 2000 questions each of views, alone and
# beside a thread that changes the level and publishes. Each is the least processor time of five runs; inside, less that of reading and building.
# Fails where floors or an aim take over 50 ns more than inside, a path over 5 % more, or the readers over 15 % more beside the changes, the least of
# five runs each. Wants four processors with nothing else on them for the readers. usage: bench/embed.sh
set -eu
cd "$(dirname "$0")/.."
work=$(mktemp -d)
trap 'rm -rf "$work"' EXIT

(cd crates/bench_hops && rt run < stdin > "$work/build.log" 2>&1) || { cat "$work/build.log"; exit 1; }
cp crates/bench_hops/out/bench_hops "$work/inside"
(cd crates/nav_ffi && rt lib > "$work/build.log" 2>&1) || { cat "$work/build.log"; exit 1; }
make -s -C hosts/c TO="$work" "$work/bench" "$work/readers"
python3 bench/path_input.py 512 0 1 64 path strips | sed '/^end/q; s/^agent 10 4 2/agent 10 4 0/' > "$work/field"

# over WAY COUNT: the least nanoseconds a call of five runs over the border
over() {
    for _ in 1 2 3 4 5; do "$work/bench" "$work/field" "$1" "$2"; done | sort -n | head -n 1 | cut -d ' ' -f 1
}

# seconds WAY COUNT: the least processor time of five runs inside
seconds() {
    { printf '%s\n' "$1" "$2" 0; cat "$work/field"; } > "$work/input"
    for _ in 1 2 3 4 5; do
        /usr/bin/time -f '%U %S' -a -o "$work/times" "$work/inside" < "$work/input" > "$work/output"
    done
    awk '{ print $1 + $2 }' "$work/times" | sort -n | head -n 1
    rm "$work/times"
}

# compare NAME WAY COUNT: the two beside each other
compare() {
    echo "$1 $3 $(over "$2" "$3") $(seconds "$2" 0) $(seconds "$2" "$3")" >> "$work/compared"
}

compare floors 6 1000000
compare aim 7 1000000
compare path 4 1000
for _ in 1 2 3 4 5; do "$work/readers" "$work/field" 2000 2>&1 > "$work/told"; done | sed 's/.*, \(.*\) times$/\1/' | sort -n | head -n 1 > "$work/readers_took"
awk '{
    inside = ($5 - $4) / $2 * 1e9
    printf "%s: %.0f ns over the border, %.0f inside\n", $1, $3, inside
    if ($1 == "path" ? $3 > 1.05 * inside : $3 > inside + 50) bad = 1
} END { exit bad }' "$work/compared" || status=1
printf 'four readers beside changes take %s times as long as alone\n' "$(cat "$work/readers_took")"
awk '{ exit !($1 <= 1.15) }' "$work/readers_took" || status=1
exit ${status:-0}
