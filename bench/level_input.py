#!/usr/bin/env python3
"""Writes an input for `navd play` to standard output: a rough field of SIDE by SIDE columns with two floors, cut into tiles, with holes,
steps, hanging spans and low ceilings, for an agent with a radius; and LINES script lines that mix floors, paths, blocks, cylinders, removes
and settles. MESH is strips or contours, with its ERROR. With WORKERS of at least 1 the script also has rays and the workers' single steps:
aims, claims, submits, backs and publishes. With KIND `smooth` the field has few holes, areas in patches, and ramps between the two floors,
so that regions are large and most questions are answered by paths. With AREAS `areas` two obstacles in five set an area. With HOPS `hops`
the script begins with 60 jumps, and one line in four asks for a hop walk or declares a further jump, up to 256. With CLEAR 0 or 1 the field
text is of the second form and says so of clearance; with 1 the agent has a radius of at least 1. The same arguments give the same bytes.

usage: level_input.py [SIDE [LINES [SEED [MESH [ERROR [WORKERS [KIND [AREAS [HOPS [CLEAR]]]]]]]]]]
       (defaults 40 300 1 strips 169 0 rough none none none)
"""
import random
import sys

side = int(sys.argv[1]) if len(sys.argv) > 1 else 40
count = int(sys.argv[2]) if len(sys.argv) > 2 else 300
random.seed(int(sys.argv[3]) if len(sys.argv) > 3 else 1)
mesh = sys.argv[4] if len(sys.argv) > 4 else "strips"
error, workers = [int(word) for word in sys.argv[5:7]] + [169, 0][len(sys.argv[5:7]):]
kind = sys.argv[7] if len(sys.argv) > 7 else "rough"
areas = sys.argv[8:9] == ["areas"]
hops = sys.argv[9:10] == ["hops"]
clear = [f"clear {word}" for word in sys.argv[10:11] if word in ("0", "1")]


def rough_column(x, z):
    """The spans of a column, each (bottom, top, area)."""
    if random.randrange(40) == 0:
        return []
    ground = 10 + random.randrange(2) * (random.randrange(12) == 0) * 9 + (x + z) // 9 % 3
    spans = [(0, ground, 0 if random.randrange(50) == 0 else random.choice([63, 63, 63, 5]))]
    if ground < 15 and random.randrange(25) == 0:
        spans.append((ground + random.randrange(1, 3), ground + 3 + random.randrange(4), 0))
    if (x // 8 + z // 8) % 2 == 0 and random.randrange(30):
        under = 26 + random.randrange(2) * (random.randrange(20) == 0) * 3
        spans.append((under, under + 2 + random.randrange(2), 63))
    return spans


def smooth_column(x, z):
    """The same, with ramps in two bands of rows, an upper floor beyond them, and beams that the agent just fits under."""
    if random.randrange(150) == 0:
        return []
    area = 5 if (x // 6 + z // 5) % 7 == 3 else 63
    if z % 16 in (3, 4, 5, 6) and x % 24 < 10:
        return [(0, 10 + 2 * (x % 24), area)]
    ground = 10 + (x + z) // 9 % 3 + (random.randrange(8) == 0)
    spans = [(0, ground, area)]
    if random.randrange(10) == 0:
        spans.append((ground + 10, ground + 11, 0))
    if 9 < x % 24 < 20 and z % 16 < 10:
        spans.append((26, 28 + random.randrange(2), 63))
    return spans


tile = random.choice([4, 7, 16, 48])
climb, radius = (random.randrange(6), random.randrange(4)) if kind == "rough" else (random.choice([2, 3, 4]), random.choice([0, 0, 1, 2]))
if clear == ["clear 1"]:
    radius = max(1, radius)
    tile = max(2 * radius, tile)
out = [f"nav {len(clear) + 1}", f"size {side} {side - 3}", f"tile {tile}", f"agent 10 {climb} {radius}", f"error {error}", f"mesh {mesh}",
       f"limit {random.choice([3, 64])}", *clear] + [["cost 5 3"], []][random.randrange(2)] + ["cost 20 7"] * areas
floors = []
for z in range(side - 3):
    for x in range(side):
        for bottom, top, area in (rough_column if kind == "rough" else smooth_column)(x, z):
            out.append(f"span {x} {z} {bottom} {top} {area}")
            if area:
                floors.append((x, z, top))
out += ["end", f"script 2 {max(workers, 1)}"]
adds = [0, 0]
lane = 0


def steps():
    """Single steps of workers: one, or a few claims and submits in a row."""
    worker = random.randrange(workers)
    few = [line for _ in range(random.randrange(1, 12)) for line in (f"claim {worker}", f"submit {worker}")]
    return random.choice([["aim"], ["publish"], [f"claim {worker}"], [f"claim {worker}"], [f"submit {worker}"], [f"back {worker}"], few, few + ["publish"]])


def add():
    """The first words of an obstacle's line."""
    return f"add area {random.choice([5, 20, 63])}" if areas and random.randrange(5) < 2 else "add"


def places():
    """Two places, as a path names them."""
    points = [random.choice([1, 1, 4, 16]) * (random.randrange(1000)) % (16 * side) for _ in range(4)]
    heights = [random.choice([10, 11, 27, 28]) for _ in range(2)]
    return f"{points[0]} {points[1]} {heights[0]} {points[2]} {points[3]} {heights[1]}"


def spots():
    """Two places, as a jump and a hop name them: most lie on a floor."""
    if random.randrange(8) == 0:
        return places()
    return " ".join(f"{16 * x + random.randrange(17)} {16 * z + random.randrange(17)} {top}" for x, z, top in random.choices(floors, k=2))


def jump():
    return f"jump {spots()} {random.choice([1, 20, 200, 1000])}"


jumps = 60 * hops
out += [jump() for _ in range(jumps)]
for _ in range(count):
    if hops and random.randrange(4) == 0:
        is_hop = jumps == 256 or random.randrange(5) > 0
        jumps += not is_hop
        out.append(f"hop {spots()}" if is_hop else jump())
        continue
    line = random.randrange(16 if workers else 11)
    if line == 0:
        x, z, y = random.randrange(side), random.randrange(side), random.choice([0, 20])
        out.append(f"{add()} block {x} {x + random.randrange(8)} {y} {y + random.randrange(40)} {z} {z + random.randrange(8)}")
        adds[lane] += 1
    elif line == 1 and adds[lane]:
        out.append(f"drop {random.randrange(1, adds[lane] + 1)}")
    elif line == 2:
        out.append(f"{add()} cylinder {random.randrange(2 * side)} {random.randrange(2 * side)} {random.randrange(6)} 0 {random.choice([15, 100])}")
        adds[lane] += 1
    elif line == 3:
        out.append("settle")
    elif line == 4:
        lane = random.randrange(2)
        out.append(f"lane {lane}")
    elif line > 11:
        out += steps()
    elif line == 11:
        out.append("ray {} {} {} {} {}".format(*[random.randrange(16 * side) for _ in range(2)], random.choice([10, 11, 27, 28]),
                                               *[random.randrange(16 * side) for _ in range(2)]))
    elif line < 8:
        out.append(f"floor {random.randrange(side + 2)} {random.randrange(side)}")
    else:
        out.append(f"path {places()}")
sys.stdout.write("\n".join(out) + "\n")
