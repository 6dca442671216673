#!/usr/bin/env python3
"""Fails each growth of memory of runs of the built program in turn, once alone and once with all that come after it. Each run must end with
status 6 and nothing written, or with status 0 and the whole right text: that of the run with ample memory, and for `live` a text whose lanes,
lengths and answers hold against a play of its history.

usage: memory.py NAVD [RUN ..]     with NAVD a built program, as crates/navd/out/navd
"""
import collections
import os
import subprocess
import sys

from preload import Preload

LIVE_CHECK = os.path.join(os.path.dirname(os.path.abspath(__file__)), "../reference/live_check.py")

OUT_OF_MEMORY = 6


def flat(size, tile, agent, mesh, limit, script, clear=False):
    lines = [f"nav {1 + clear}", f"size {size} {size}", f"tile {tile}", f"agent {agent}", "error 169", f"mesh {mesh}", f"limit {limit}"] + ["clear 1"] * clear
    return lines + [f"span {x} {z} 0 10 63" for z in range(size) for x in range(size)] + ["end"], script


# what a run is called, its words, its field and its script
RUNS = {
    "play, one tile": (["play"], flat(6, 6, "10 4 0", "strips", 4, ["script 1 1", "floor 2 2", "add block 2 2 0 100 2 2", "settle", "floor 2 2"])),
    "play, workers and a path": (["play"], flat(8, 4, "10 4 0", "strips", 4, ["script 1 1", "add block 3 4 0 100 3 4", "aim", "publish", "claim 0",
        "submit 0", "publish", "settle", "publish", "path 40 56 10 88 72 10", "ray 24 24 10 88 72"])),
    "play, jumps and a hop walk": (["play"], flat(8, 8, "10 4 0", "strips", 4, ["script 1 1", "add block 3 3 0 100 1 6", "settle", "jump 40 24 10 72 24 10 7",
        "jump 999 24 10 72 24 10 1", "add block 5 5 0 100 1 5", "settle", "hop 40 104 10 104 24 10"])),
    "play, clearance": (["play"], flat(16, 8, "10 4 2", "contours", 4, ["script 1 1", "add block 9 9 0 100 4 4", "aim", "claim 0", "submit 0", "settle",
        "floor 7 4", "path 72 72 10 184 184 10"], clear=True)),
    "live, three lanes": (["live"], flat(96, 48, "10 4 2", "contours", 64, ["script 3 2", "lane 0", "add block 40 55 0 100 40 55", "drop 1", "settle",
        "path 160 160 10 1400 1400 10", "lane 1", "add cylinder 96 96 4 0 100", "settle", "drop 1", "lane 2", "path 160 160 10 1400 1400 10"])),
    "live, two small lanes": (["live"], flat(12, 4, "10 4 0", "strips", 8, ["script 2 3", "lane 0", "add block 3 4 0 30 7 8", "settle", "floor 3 7",
        "drop 1", "lane 1", "add block 7 8 0 30 7 8", "settle", "floor 8 8"])),
    "gen 1 32": (["gen", "1", "32"], None),
}


def is_right(program, words, text, wanted, out):
    """Whether a text is right: for `live`, where many are, as live_check.py finds that hands it to a play of its history."""
    if words != ["live"] or out == wanted:
        return out == wanted
    names = {name: f"{program.folder.name}/{name}" for name in ("input", "answer", "told")}
    for name, content in (("input", text), ("answer", out), ("told", f'#!/bin/sh\n[ "$1" = live ] && cat > {os.devnull} && exec cat {names["answer"]}\nexec {program.navd} "$@"\n'.encode())):
        with open(names[name], "wb") as it:
            it.write(content)
    os.chmod(names["told"], 0o700)
    return not subprocess.run([sys.executable, LIVE_CHECK, names["told"], names["input"]], capture_output=True).returncode


def text_of(name):
    given = RUNS[name][1]
    return "".join(f"{line}\n" for line in given[0] + given[1]).encode() if given else b""


def table(program, name):
    words, text = RUNS[name][0], text_of(name)
    status, wanted, counts = program.run(words, text)
    assert status == 0, (name, status)
    found, wrong, place = collections.Counter(), [], 1
    most = counts["memory"]
    # threads take memory in another order each time: two hundred places more than one run had, each of which may be past a run's last
    for place in range(1, most + (200 if words == ["live"] else 1) + 1):
        for kind in ("memory", "memory_from"):
            status, out, counts = program.run(words, text, f"{kind} {place}")
            if counts["memory"] < place:
                found["not reached"] += 1
            if status == OUT_OF_MEMORY and not out:
                found["status 6, nothing written"] += 1
            elif status == 0 and is_right(program, words, text, wanted, out):
                found["right text"] += 1
            else:
                found["WRONG"] += 1
                wrong.append((kind, place, status, out[:80]))
    print(f"| {name} | {most} | {found['status 6, nothing written']} | {found['right text']} | {found['not reached']} | {found['WRONG']} |", flush=True)
    for it in wrong[:10]:
        print("  ", *it)
    return len(wrong)


if __name__ == "__main__":
    program = Preload(sys.argv[1])
    print("| Run | Growths | Status 6, nothing written | Right text | of these, not reached | Else |\n|---|---|---|---|---|---|")
    sys.exit(bool(sum(table(program, name) for name in sys.argv[2:] or RUNS)))
