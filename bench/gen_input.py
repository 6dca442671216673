#!/usr/bin/env python3
"""Writes the made input of `navd gen NUMBER SIZE` to standard output, from the rules of docs/FORMATS.md.

usage: gen_input.py NUMBER SIZE
"""
import sys

state, size = int(sys.argv[1]), int(sys.argv[2])


def draw():
    global state
    state = (state * 6364136223846793005 + 1442695040888963407) % 2 ** 64
    return state // 2 ** 33


out = ["nav 1", f"size {size} {size}", "tile 32", "agent 10 4 2", "error 169", "mesh contours", "limit 64"]
for z in range(size):
    for x in range(size):
        n = draw()
        out.append(f"span {x} {z} 0 40 0" if n % 64 == 0 else f"span {x} {z} 0 {10 + n // 64 % 2} 63")
out += ["end", "script 1 1"]
for turn in range(1, 65):
    cx, cz, r = draw() % (2 * size + 1), draw() % (2 * size + 1), draw() % 8
    x1, z1, x2, z2 = [draw() % (16 * size) for _ in range(4)]
    out.append(f"add cylinder {cx} {cz} {r} 0 100")
    out += [f"drop {turn - 8}"] if turn > 8 else []
    out += ["aim"] + ["claim 0", "submit 0"] * 8 + ["publish", f"path {x1} {z1} 10 {x2} {z2} 10"]
sys.stdout.write("\n".join(out) + "\n")
