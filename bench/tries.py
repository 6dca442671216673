#!/usr/bin/env python3
"""Counts the steps of a way that `part` of `surface_move` tries, on corridors of strips, by a plain program that looks as it does: polygons from
the last to the first, in each the steps from the most that its edges allow down to one more than is known. Checks what it finds against every
near point of every step. Fails where a call tries more than 3 on average.

usage: tries.py [CALLS [SEED]]     (defaults 2000 1)
"""
import random
import sys

calls, seed = [int(word) for word in sys.argv[1:3]] + [2000, 1][len(sys.argv[1:3]):]
random.seed(seed)


def orient(a, b, p):
    return (b[0] - a[0]) * (p[1] - a[1]) - (b[1] - a[1]) * (p[0] - a[0])


def edges(polygon):
    return list(zip(polygon, polygon[1:] + polygon[:1]))


def holds(polygon, p):
    return all(orient(a, b, p) >= 0 for a, b in edges(polygon))


def near(start, end, n, g):
    """The points near the way after g of its n steps, the least first."""
    both = [n * a + g * (b - a) for a, b in zip(start, end)]
    return sorted({(both[0] // n, both[1] // n), (-(-both[0] // n), -(-both[1] // n))})


def possible(polygon, start, end, n, least, most):
    wide = abs(end[0] - start[0]) == n
    for a, b in edges(polygon):
        begin = n * orient(a, b, start) + abs(b[0] - a[0] if wide else b[1] - a[1]) * (n - 1)
        each = orient(a, b, end) - orient(a, b, start)
        if begin >= 0:
            if each < 0:
                most = min(most, begin // -each)
        elif each <= 0:
            return 1, 0
        else:
            least = max(least, -(begin // each))
    return least, most


def part(polygons, start, end, rest):
    """The steps gone, and how many were tried."""
    n = max(abs(end[0] - start[0]), abs(end[1] - start[1]))
    gone = tries = 0
    for polygon in reversed(polygons):
        least, most = possible(polygon, start, end, n, gone + 1, rest)
        for g in range(most, least - 1, -1):
            tries += 1
            if any(holds(polygon, p) for p in near(start, end, n, g)):
                gone = g
                break
    return gone, tries


def strips():
    """A corridor of strips one cell wide along z, each beside the one before, and the corners of the portals between them."""
    low, high, polygons, portals = 20, 20 + random.randrange(1, 12), [], []
    for z in range(random.randrange(2, 60)):
        if polygons:
            before = low, high
            low = random.randrange(max(0, before[0] - 6), before[1])
            high = random.randrange(max(low, before[0]) + 1, before[1] + 8)
            portals.append([(16 * max(low, before[0]), 16 * z), (16 * min(high, before[1]), 16 * z)])
        polygons.append([(16 * low, 16 * z), (16 * high, 16 * z), (16 * high, 16 * z + 16), (16 * low, 16 * z + 16)])
    return polygons, portals


total = worst = asked = 0
while asked < calls:
    polygons, portals = strips()
    if not portals:
        continue
    place = random.randrange(len(portals))
    first = random.randrange(place + 1)
    box = polygons[first]
    start = random.randrange(box[0][0], box[2][0] + 1), random.randrange(box[0][1], box[2][1] + 1)
    end = random.choice(portals[place])
    n = max(abs(end[0] - start[0]), abs(end[1] - start[1]))
    if n < 2:
        continue
    some, rest = polygons[first:place + 1], random.randrange(1, n)
    gone, tries = part(some, start, end, rest)
    best = max([g for g in range(1, rest + 1) if any(holds(p, q) for q in near(start, end, n, g) for p in some)], default=0)
    assert gone == best, (some, start, end, rest, gone, best)
    asked, total, worst = asked + 1, total + tries, max(worst, tries)
print(f"{asked} calls of part on corridors of strips: {total / asked:.2f} tries a call, at most {worst}")
sys.exit(total > 3 * asked)
