#!/usr/bin/env python3
"""Checks the shortest lines that the library tells of a view, on random levels as `ways_check.py` has them: that the links are a walk between the polygons
that locate both ends, that the turns are taut, that `upper` is the length of the line with each leg rounded up, that no line of the mesh is shorter than
`lower` and none that the whole search finds is longer than the shortest, and which answers are called shortest. The lengths of shortest lines are those of
`lines_mesh.py`, over the mesh that the view draws.

usage: reference/lines_check.py LIBRARY [LEVELS [SEED]]     (20 levels, seed 1; LIBRARY is what `make libnavd.so` of hosts/c makes)
"""
import math
import random
import sys
from collections import Counter

from library import host_and_levels
from lines_mesh import Lines
from ways_levels import Level, random_place, random_text

PARTS = 4096
navd, levels, first_seed = host_and_levels(__doc__, 20)
counts = Counter()


def rounded_up(a, b):
    """The distance of two points in parts, 4096 to a sixteenth."""
    square = PARTS * PARTS * ((a[0] - b[0]) ** 2 + (a[1] - b[1]) ** 2)
    root = math.isqrt(square)
    return root + (root * root < square)


def check_line(level, line, start, goal, first, last):
    """That it is a taut line over a walk, as long as is told, and called as it has to be. How many legs it has."""
    mesh = level.mesh
    links = [mesh.link(link) for link in line.links]
    assert (mesh.polygon(line.first), mesh.polygon(line.last)) == (first, last), "it begins or ends elsewhere"
    at = first
    for link in links:
        assert link in mesh.listed and link[0] == at, "the links are no walk"
        at = link[2]
    assert at == last, "it leads elsewhere"
    assert level.is_taut(start, links, goal, line.turns), "the line is not taut"
    stops = [(start.x, start.z)] + [turn.at for turn in line.turns] + [(goal.x, goal.z)]
    assert line.upper == sum(map(rounded_up, stops, stops[1:])), "its length is another"
    assert line.is_shortest == (line.upper <= line.lower + max(256, line.lower // 16384)), "it is called what it is not"
    return len(stops) - 1


def ask(level, lines, start, goal):
    mesh = level.mesh
    most, quick = random.choice([10**6, 10**6, random.randrange(1, 40)]), random.randrange(3) == 0
    told, first, last = level.view.shortest(start, goal, most, quick), mesh.locate(start), mesh.locate(goal)
    counts["questions"] += 1
    if first is None or last is None:
        assert told == navd.NoPath(navd.NO_START if first is None else navd.NO_GOAL), told
        return
    due = lines.shortest((start.x, start.z), first, (goal.x, goal.z), last)
    if due is None:
        assert told == navd.NoPath(navd.NO_PATH), told
        counts["places that no walk joins"] += 1
        return
    assert isinstance(told, navd.Line), told
    legs = check_line(level, told, start, goal, first, last)
    due *= PARTS
    assert told.lower <= due + 0.001, f"a line is shorter than {told.lower}: {due}"
    assert told.upper >= due - 0.001, f"no line is as short as {told.upper}: {due}"
    counts["lines called shortest" if told.is_shortest else "lines with a gap"] += 1
    over = told.upper - due
    if most == 10**6 and not quick:
        assert over <= legs + 8, f"a line of {due} is shorter than {told.upper}"
        counts["lines by the whole search"] += 1
        return
    counts[("lines by a quick search" if quick else "lines by a search that was cut") + (" that are the shortest" if over <= legs + 8 else " that are longer")] += 1


def run(seed):
    text = random_text(seed)
    with navd.Level(text.encode()) as opened, navd.View() as view:
        level = Level(navd, text, opened, view, counts)
        compared = random.randrange(4)
        for number in range(4):
            level.look()
            if len(level.mesh.names) < 6 and random.randrange(8):
                return
            if number == compared:
                level.compare()
            lines = Lines(level.mesh)
            for _ in range(12):
                ask(level, lines, random_place(level), random_place(level))
            level.change([])


for number in range(first_seed, first_seed + levels):
    try:
        run(number)
    except AssertionError as wrong:
        sys.exit(f"WRONG: level {number}: {wrong}")
for name, count in sorted(counts.items()):
    print(f"{count:8} {name}")
print(f"over {levels} levels: all as the second program has them")
