#!/bin/sh
# Ten scenes of a crowd (crowd_scenes.py), each with the seeds 1 to SEEDS, over the library and by dtCrowd of librecast-dev on the same field, as crowd.c and
# crowd_peer.cpp do it: 20 steps a second, discs of a radius of 2 cells that go 10 cells a second. Told are means of a run, ours beside the peer's: pairs that
# overlap at some moment, moves off the mesh, moves that are too fast, agents left behind after SECONDS (in so many runs), when the last one arrives, how many pass the
# door a minute, which part of the moves stands; and the instructions of a step, with where paths lead, by callgrind of valgrind over the first COUNTED
# seconds of seed 1. Fails where, of ours, a pair overlaps, a move is off the mesh or too fast, an agent is left behind, fewer pass the door than FLOWS says, or
# a step takes more than 0.6 of the peer's instructions. COUNTED=0 counts none. LOG=FOLDER keeps what was written a step of seed 1, for tools/crowd_film.py.
# LIB is the archive of the library, and else what `rt lib` of crates/nav_ffi makes. PEER is bench/crowd_peer.cpp where none is named.
# usage: [LIB=..] [SEEDS=16] [SECONDS_A_RUN=120] [COUNTED=10] [SCENES=..] [LOG=..] bench/crowd.sh [PEER]
set -eu
cd "$(dirname "$0")/.."
peer=${1:-bench/crowd_peer.cpp}
seconds=${SECONDS_A_RUN:-120}
counted=${COUNTED:-10}
. bench/with_library.sh
own="cc -std=c11 -O2 bench/crowd.c hosts/c/heap.c $LIB -lm"
other="c++ -O2 -std=c++17 -I/usr/include/recastnavigation $peer -lDetourCrowd -lDetourTileCache -lDetour -lRecast"
$own -o "$work/own"
$other -o "$work/peer"
if [ "$counted" != 0 ]; then
    $own -DCOUNTED -o "$work/own_counted"
    $other -DCOUNTED -o "$work/peer_counted"
fi

# instructions PROGRAM SCENE: of a move of one agent
instructions() {
    rm -f "$work"/calls*
    valgrind --tool=callgrind --instr-atstart=no --callgrind-out-file="$work/calls" "$work/$1" "$work/$2.field" "$work/$2.agents" "$counted" \
        > "$work/line" 2> "$work/valgrind.log"
    awk 'NR == FNR { moves = $8; next } /^totals:/ { all = $2 } END { printf "%.0f\n", all / moves }' "$work/line" \
        "$(grep -l "Client Request: steps\$" "$work"/calls*)"
}

status=0
# who passes the door a minute, 0.95 of what was measured first
flow_of() {
    case $1 in corridor3) echo 69 ;; corridor2) echo 79 ;; door1) echo 104 ;; door2) echo 136 ;; both) echo 115 ;; evac) echo 134 ;; *) echo 0 ;; esac
}
for scene in ${SCENES:-circle corridor3 corridor2 corridor1 door1 door2 both crossing open evac}; do
    rm -f "$work/own.runs" "$work/peer.runs"
    for seed in $(seq "${SEEDS:-16}"); do
        python3 bench/crowd_scenes.py "$scene" "$seed" "$work/$scene.field" "$work/$scene.agents"
        log=
        [ -z "${LOG:-}" ] || [ "$seed" != 1 ] || log=$LOG/$scene.log
        [ -z "$log" ] || cp "$work/$scene.field" "$work/$scene.agents" "$LOG"
        "$work/own" "$work/$scene.field" "$work/$scene.agents" "$seconds" ${log:+"$log"} >> "$work/own.runs"
        "$work/peer" "$work/$scene.field" "$work/$scene.agents" "$seconds" >> "$work/peer.runs"
        if [ "$seed" = 1 ] && [ "$counted" != 0 ]; then
            ours=$(instructions own_counted "$scene")
            theirs=$(instructions peer_counted "$scene")
        fi
    done
    awk -v scene="$scene" -v flow="$(flow_of "$scene")" -v ours="${ours:-0}" -v theirs="${theirs:-0}" '
        { k = FILENAME ~ /peer\.runs$/; runs[k]++; for (i = 1; i <= 9; i++) sum[k, i] += $i; left[k] += $5 > 0; if ($7 > 0) passed[k]++ }
        function mean(k, i) { return sum[k, i] / runs[k] }
        function flows(k) { return passed[k] ? sum[k, 7] / passed[k] : 0 }
        function below(what, value, most) { if (value > most) { printf "%s: %s %s, more than %s\n", scene, what, value, most; bad = 1 } }
        END {
            printf "%s (%d agents): overlapping pairs %.1f / %.1f, off the mesh %.1f / %.1f, too fast %.1f / %.1f, left behind %d (%d runs) / %d (%d), ", scene, mean(0, 4),
                mean(0, 1), mean(1, 1), mean(0, 2), mean(1, 2), mean(0, 3), mean(1, 3), sum[0, 5], left[0], sum[1, 5], left[1]
            printf "last arrival %.1f / %.1f s, passed a minute %.0f / %.0f, standing %.0f / %.0f %%", mean(0, 6), mean(1, 6), flows(0), flows(1),
                100 * sum[0, 9] / sum[0, 8], 100 * sum[1, 9] / sum[1, 8]
            if (theirs > 0) printf ", instructions %d / %d: %.2f", ours, theirs, ours / theirs
            print ""
            below("overlapping pairs", sum[0, 1], 0)
            below("moves off the mesh", sum[0, 2], 0)
            below("moves that are too fast", sum[0, 3], 0)
            below("agents left behind", sum[0, 5], 0)
            below("minus who pass a minute", -flows(0), -flow)
            if (theirs > 0) below("the ratio of instructions", ours / theirs, 0.6)
            exit bad
        }' "$work/own.runs" "$work/peer.runs" || status=1
done
exit $status
