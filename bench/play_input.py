#!/usr/bin/env python3
"""Writes an input for `navd play` to standard output: a flat field of SIDE by SIDE columns in one tile, and LINES script lines that
mix floors, blocks, cylinders, removes and settles. The same arguments give the same bytes.

usage: play_input.py [SIDE [LINES [SEED]]]     (defaults 128 1000 1)
"""
import random
import sys

side = int(sys.argv[1]) if len(sys.argv) > 1 else 128
count = int(sys.argv[2]) if len(sys.argv) > 2 else 1000
random.seed(int(sys.argv[3]) if len(sys.argv) > 3 else 1)

out = ["nav 1", f"size {side} {side}", "tile 128", "agent 10 4 0", "error 169", "mesh strips", "limit 1024"]
out += [f"span {x} {z} 0 10 63" for z in range(side) for x in range(side)]
out += ["end", "script 1 1"]
adds = 0
for _ in range(count):
    kind = random.randrange(6)
    if kind == 0 or (kind == 1 and adds == 0):
        x, z = random.randrange(side), random.randrange(side)
        out.append(f"add block {x} {min(side - 1, x + random.randrange(8))} 0 100 {z} {min(side - 1, z + random.randrange(8))}")
        adds += 1
    elif kind == 1:
        out.append(f"drop {random.randrange(1, adds + 1)}")
    elif kind == 2:
        out.append(f"add cylinder {random.randrange(2 * side)} {random.randrange(2 * side)} {random.randrange(6)} 0 100")
        adds += 1
    elif kind in (3, 4):
        out.append(f"floor {random.randrange(side)} {random.randrange(side)}")
    else:
        out.append("settle")
sys.stdout.write("\n".join(out) + "\n")
