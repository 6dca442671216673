#!/usr/bin/env python3
"""Writes an input for `navd live` to standard output: SIDE by SIDE columns in tiles of TILE, of which one in 64 is a pillar, and a script by
KIND. The same arguments give the same bytes.

usage: live_input.py KIND SIDE TILE LANES WORKERS COUNT [MORE]
    settles     lane 0 changes something and settles COUNT times; each other lane asks for MORE paths
    settles8    each lane changes something and settles COUNT times
    wide        each lane changes the area of all columns and settles, COUNT times
    paths       each lane asks for COUNT paths
"""
import random
import sys

kind, (side, tile, lanes, workers, count) = sys.argv[1], map(int, sys.argv[2:7])
more = int(sys.argv[7]) if len(sys.argv) > 7 else 0
random.seed(1)

out = ["nav 1", f"size {side} {side}", f"tile {tile}", "agent 10 4 1", "error 169", "mesh strips", "limit 1024"]
for z in range(side):
    for x in range(side):
        out.append(f"span {x} {z} 0 40 0" if random.randrange(64) == 0 else f"span {x} {z} 0 {10 + random.randrange(2)} 63")
out += ["end", f"script {lanes} {workers}"]


def path():
    return "path {} {} 10 {} {} 10".format(*[random.randrange(16 * side) for _ in range(4)])


for lane in range(lanes):
    out.append(f"lane {lane}")
    for i in range(count if kind != "settles" or lane == 0 else more):
        if kind == "paths" or (kind == "settles" and lane > 0):
            out.append(path())
        elif kind == "wide":
            out += [f"add area {1 + i % 62} block 0 {side - 1} 0 100 0 {side - 1}", "settle"]
        else:
            x, z = random.randrange(side), random.randrange(side)
            out += [f"add block {x} {min(side - 1, x + 3)} 0 100 {z} {min(side - 1, z + 3)}", "settle"]
sys.stdout.write("\n".join(out) + "\n")
