#!/usr/bin/env python3
"""Writes an input for `navd play` to standard output: a field of SIDE by SIDE columns in tiles of 32, of which one in 64 is a pillar and the
others step by 1, for an agent of radius 2; and COUNT questions for paths between random points. With PILLARS of another number one
column in so many is a pillar, and with 0 none. With KIND `ray` the questions are for straight walks. MESH is strips or contours. The same
arguments give the same bytes.

usage: path_input.py [SIDE [COUNT [SEED [PILLARS [KIND [MESH]]]]]]     (defaults 512 2000 1 64 path strips)
"""
import random
import sys

side, count, seed, pillars = [int(word) for word in sys.argv[1:5]] + [512, 2000, 1, 64][len(sys.argv[1:5]):]
kind = sys.argv[5] if len(sys.argv) > 5 else "path"
mesh = sys.argv[6] if len(sys.argv) > 6 else "strips"
random.seed(seed)

out = ["nav 1", f"size {side} {side}", "tile 32", "agent 10 4 2", "error 169", f"mesh {mesh}", "limit 64"]
for z in range(side):
    for x in range(side):
        out.append(f"span {x} {z} 0 40 0" if pillars and random.randrange(pillars) == 0 else f"span {x} {z} 0 {10 + random.randrange(2)} 63")
out += ["end", "script 1 1"]
for _ in range(count):
    points = [random.randrange(16 * side) for _ in range(4)]
    out.append("ray {} {} 10 {} {}".format(*points) if kind == "ray" else "path {} {} 10 {} {} 10".format(*points))
sys.stdout.write("\n".join(out) + "\n")
