#!/usr/bin/env python3
"""Checks `navd raster` on random triangle texts against rasters that are worked out here with exact fractions: each triangle is cut to the closed
square of each column, one side after another; it hits the column where the mean of the corners that are left lies inside, and spans are joined
pair by pair. Every fourth text has a fault put into it, of which the line and the kind are worked out too.

usage: raster_check.py NAVD [TEXTS] [SEED]     (2000 texts, seed 1)
"""
import math
import random
import subprocess
import sys
from fractions import Fraction

FORM, RANGE, ORDER, CLIMB, UNFINISHED = 1, 2, 3, 5, 7
LIMITS = {"size": [(1, 1024)] * 2, "tile": [(4, 128)], "agent": [(1, 255), (0, 254), (0, 15)], "error": [(0, 10000)], "limit": [(1, 1024)], "clear": [(0, 1)],
    "cost": [(1, 63), (1, 1000)], "tri": [(0, 16384), (0, 8190), (0, 16384)] * 3 + [(0, 63)]}


def cut(points, axis, line, keep):
    """The part of a polygon on one side of a line, the line included: its corners in order."""
    side = [keep * (point[axis] - line) for point in points]
    left = []
    for at, point in enumerate(points):
        if side[at - 1] * side[at] < 0:
            share = Fraction(side[at - 1]) / (side[at - 1] - side[at])
            left.append(tuple(p + share * (q - p) for p, q in zip(points[at - 1], point)))
        if side[at] >= 0:
            left.append(point)
    return left


def shadow(corners, x, z):
    """The heights of a triangle in a column that it hits: the whole numbers below and above them all."""
    for axis, line, keep in ((0, 16 * x, 1), (0, 16 * x + 16, -1), (2, 16 * z, 1), (2, 16 * z + 16, -1)):
        corners = corners and cut(corners, axis, line, keep)
    if not corners:
        return None
    mean = [sum(point[axis] for point in corners) / Fraction(len(corners)) for axis in (0, 2)]
    if not (16 * x < mean[0] < 16 * x + 16 and 16 * z < mean[1] < 16 * z + 16):
        return None
    bottom = min(math.floor(point[1]) for point in corners)
    return bottom, max(max(math.ceil(point[1]) for point in corners), bottom + 1)


def groups(shadows):
    """The shadows of a column in sets, of which each meets no other: every pair that meets is joined."""
    sets = []
    for one in shadows:
        met = [it for it in sets if any(one[0] <= other[1] and other[0] <= one[1] for other in it)]
        sets = [it for it in sets if it not in met] + [[one, *(other for it in met for other in it)]]
    return sets


def raster(width, depth, climb, triangles):
    for z in range(depth):
        for x in range(width):
            shadows = []
            for *numbers, area in triangles:
                found = shadow([tuple(numbers[at : at + 3]) for at in (0, 3, 6)], x, z)
                if found:
                    shadows.append((*found, area))
            spans = []
            for group in groups(shadows):
                top = max(it[1] for it in group)
                spans.append((min(it[0] for it in group), top, max(it[2] for it in group if it[1] >= top - climb)))
            for span in sorted(spans):
                yield f"span {x} {z} %d %d %d" % span


def number(word):
    return int(word) if word.isascii() and word.isdigit() and str(int(word)) == word and int(word) < 2**32 else None


def numbers_of(line, first, count):
    words = line.split(" ")
    found = [number(word) for word in words[1:]]
    return found if words[0] == first and len(found) == count and None not in found else None


def fault_of(text):
    """The line and the kind of a text's first fault, or None."""
    lines = text.split("\n")
    rest = lines.pop()
    places = ["nav", "size", "tile", "agent", "error", "mesh", "limit"] + ["clear"] * (lines[:1] == ["nav 2"]) + ["body"]
    place, area, tris, said = 0, 0, 0, {}
    for at, line in enumerate(lines, 1):
        name = places[place]
        first = line.split(" ")[0]
        if name == "after":
            return at, FORM
        if name == "nav" or name == "mesh":
            if line not in (["nav 1", "nav 2"] if name == "nav" else ["mesh strips", "mesh contours"]):
                return at, FORM
            place += 1
            continue
        if name == "body":
            if line == "end":
                places.append("after")
                place += 1
                continue
            if first not in ("cost", "tri") or first == "cost" and tris:
                return at, FORM
            name = first
        found = numbers_of(line, name, len(LIMITS[name]))
        if found is None:
            return at, FORM
        if not all(least <= it <= most for it, (least, most) in zip(found, LIMITS[name])):
            return at, RANGE
        if name == "clear" and found[0] and said["tile"][0] < 2 * said["agent"][2]:
            return at, RANGE
        if name == "agent" and found[1] >= found[0]:
            return at, CLIMB
        said[name] = found
        if name == "cost":
            if found[0] <= area:
                return at, ORDER
            area = found[0]
        tris += name == "tri"
        place += places[place] != "body"
    return None if places[place] == "after" and not rest else (len(lines) + 1, UNFINISHED)


def place_near(rng, size):
    """A coordinate: on a line between columns, near one, anywhere in the field, or beyond it."""
    draw = rng.random()
    if draw < 0.35:
        return 16 * rng.randrange(size + 1)
    if draw < 0.5:
        return min(16384, max(0, 16 * rng.randrange(size + 1) + rng.choice([-1, 1])))
    return rng.randrange(16 * size + 1) if draw < 0.95 else rng.randrange(16 * (size + 6))


def triangle(rng, width, depth, high):
    corners = [[place_near(rng, width), rng.randrange(high), place_near(rng, depth)] for _ in range(3)]
    draw = rng.random()
    if draw < 0.1:
        corners[2] = list(corners[0])
    elif draw < 0.15:
        corners[1] = corners[2] = list(corners[0])
    elif draw < 0.3:
        axis = rng.choice([0, 1, 2])
        corners[1][axis] = corners[2][axis] = corners[0][axis]
    elif draw < 0.4:
        corners[2] = [(p + q) // 2 for p, q in zip(*corners[:2])]
    elif draw < 0.5:
        corners[1] = [max(0, it + rng.randrange(-3, 4)) for it in corners[0]]
    return [*corners[0], *corners[1], *corners[2], rng.choice([0, 1, 5, 63, rng.randrange(64)])]


def random_text(rng):
    width, depth, high = rng.randrange(1, 7), rng.randrange(1, 7), rng.choice([3, 12, 60, 8191])
    climb = rng.choice([0, 0, 1, 4, 30])
    triangles = [triangle(rng, width, depth, high) for _ in range(rng.randrange(9))]
    tile, radius, form = rng.randrange(4, 129), rng.randrange(16), rng.choice(["nav 1", "nav 2"])
    head = [form, f"size {width} {depth}", f"tile {tile}", f"agent {climb + rng.randrange(1, 20)} {climb} {radius}",
        f"error {rng.randrange(10001)}", rng.choice(["mesh strips", "mesh contours"]), f"limit {rng.randrange(1, 1025)}"]
    if form == "nav 2":
        head.append(f"clear {int(tile >= 2 * radius) * rng.randrange(2)}")
    head += [f"cost {area} {rng.randrange(1, 1001)}" for area in sorted(rng.sample(range(1, 64), rng.choice([0, 0, 1, 3])))]
    return head, (width, depth, climb), triangles


def broken(rng, text):
    """The text with something wrong in it, or not."""
    lines = text.splitlines(keepends=True)
    at = rng.randrange(len(lines))
    draw = rng.randrange(8)
    if draw == 0:
        return text[: rng.randrange(len(text))]
    if draw == 1:
        lines.insert(at, rng.choice(lines))
    elif draw == 2:
        del lines[at]
    elif draw == 3:
        lines[at] = lines[at].replace(" ", rng.choice(["  ", "\t", " 0", " -", " +"]), 1)
    elif draw == 4:
        words = lines[at].split(" ")
        words[rng.randrange(len(words))] = rng.choice(["8191", "16385", "64", "0", "1", "2", "4294967296", "1025", "x", ""])
        lines[at] = " ".join(words).rstrip("\n") + "\n"
    elif draw == 5:
        lines[at] = rng.choice(["tri 0 0 0 0 0 0 0 0 0 0\n", "cost 63 1\n", "span 0 0 0 1 63\n", "end\n", "\n", "script 1 1\n"])
    elif draw == 6:
        lines.append(rng.choice(["script 1 1\n", "end\n", "\n", "tri"]))
    else:
        lines[at] = lines[at].rstrip("\n") + rng.choice([" ", "\r", "\0", " 1"]) + "\n"
    return "".join(lines)


def main():
    navd = sys.argv[1]
    texts, seed = [int(it) for it in (sys.argv[2:] + ["2000", "1"][len(sys.argv) - 2 :])][:2]
    rng, spans, faults = random.Random(seed), 0, 0
    for at in range(texts):
        head, (width, depth, climb), triangles = random_text(rng)
        text = "".join(f"{line}\n" for line in [*head, *("tri " + " ".join(map(str, it)) for it in triangles), "end"])
        text = broken(rng, text) if at % 4 == 3 else text
        fault = fault_of(text)
        if fault:
            wanted, status, faults = "fault %d %d\n" % fault, 1, faults + 1
        else:
            # what was put in may have left a right text: it is read again
            head = [it for it in text.splitlines() if it.split()[0] not in ("tri", "end")]
            triangles = [list(map(int, it.split()[1:])) for it in text.splitlines() if it.startswith("tri ")]
            (width, depth), climb = map(int, head[1].split()[1:]), int(head[3].split()[2])
            if width * depth > 2000:
                continue
            found = list(raster(width, depth, climb, triangles))
            wanted, status, spans = "".join(f"{line}\n" for line in [*head, *found, "end"]), 0, spans + len(found)
        ran = subprocess.run([navd, "raster"], input=text.encode(), capture_output=True, timeout=100)
        if (ran.returncode, ran.stdout) != (status, wanted.encode()):
            sys.exit(f"text {at} of seed {seed}:\n{text}status {ran.returncode}:\n{ran.stdout.decode(errors='replace')}wanted {status}:\n{wanted}")
    print(f"{texts} texts with {spans} spans, {faults} of them with a fault: all byte for byte")


main()
