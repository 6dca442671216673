#!/usr/bin/env python3
"""Checks that nothing leaks through a wall: flat floors under a thin prism at any angle, down to a sixteenth of a cell thick, that reaches across from side to
side, for kinds of agents with and without a radius and clearance from obstacles, over strips and contours. The wall has a right and a left side: each free
column lies on one of them, and shares no area with the wall. No links may lead from the polygons that were made of cells of one side to those of the other,
and where outlines are exact no polygon may reach over, and no path may lead, from one side to the other.

usage: reference/leaks_check.py LIBRARY [WALLS [SEED]] [--jobs N]     (3000 walls, seed 1, one process; LIBRARY is what `make libnavd.so` of hosts/c makes)

Where outlines stray, a point of one side may be held by a polygon of the other, from which the path begins: such paths are counted. The rule for middles is
beside it: how many of the walls would leak that covered the columns alone whose middles they hold.
"""
import math
import random
from collections import Counter

from library import count_all, host_and_levels, processes

jobs = processes()
navd, walls, first_seed = host_and_levels(__doc__, 3000)

from contours import orient
from places_calls import Calls
from solids import is_over, is_over_by_parts, square

BATCH, HEIGHT = 20, 10


class Floor:
    """Kinds over a flat floor, with a view of each."""

    def __init__(self):
        self.width, self.depth = random.randrange(12, 25), random.randrange(12, 25)
        self.error = random.choice([None, None, 0, 0, 49, 169])
        tile = lambda: random.choice([4, 7, 12, 32])
        self.agents = [navd.Kind(6, 2, 0, tile()), navd.Kind(6, 2, 1, tile()), navd.Kind(6, 2, 1, tile(), True), navd.Kind(6, 2, 2, tile(), True)]
        spans = [(x, z, 0, HEIGHT, 63) for z in range(self.depth) for x in range(self.width)]
        self.kinds = navd.Kinds(navd.Ground(self.width, self.depth, 4, self.error or 0, self.error is not None), self.agents, spans)
        self.views = [navd.View() for _ in self.agents]

    def close(self):
        self.kinds.close()
        for view in self.views:
            view.close()


class Wall:
    """A prism with two long sides that begin and end outside a floor: corners a and b, and behind them those of the other long side."""

    def __init__(self, floor):
        thick, long = random.choice([1, 1, 1, 2, 4, 8, 16, random.randrange(1, 25)]), 16 * (floor.width + floor.depth)
        while True:
            angle = random.choice([random.random() * math.tau, random.randrange(8) * math.tau / 8])
            x, z = 8 * floor.width + random.randrange(-40, 41), 8 * floor.depth + random.randrange(-40, 41)
            along = round(math.cos(angle) * long), round(math.sin(angle) * long)
            off = round(-math.sin(angle) * thick), round(math.cos(angle) * thick)
            if along[0] * off[1] - along[1] * off[0] > 0:
                break
        self.a, self.b = (x - along[0], z - along[1]), (x + along[0], z + along[1])
        self.corners = (self.a, self.b, *((p[0] + off[0], p[1] + off[1]) for p in (self.b, self.a)))
        self.shape = "prism", (self.corners, 0, 100), None

    def side(self, points):
        """-1 where no point lies to the left of the right side of the wall, 1 where none lies to the right of its left side; 0 where it is neither."""
        if all(orient(self.a, self.b, point) <= 0 for point in points):
            return -1
        return 1 if all(orient(self.corners[3], self.corners[2], point) >= 0 for point in points) else 0

    def thickness(self):
        """In cells."""
        return orient(self.a, self.b, self.corners[2]) / math.dist(self.a, self.b) / 16


def joined(names, links):
    """By polygon the least polygon to which links join it, whichever way they lead."""
    near, found = {name: set() for name in names}, {}
    for one, _, other, _, _ in links:
        near[one].add(other)
        near[other].add(one)
    for name in sorted(names):
        if name not in found:
            waiting = [name]
            while waiting:
                at = waiting.pop()
                if at not in found:
                    found[at] = name
                    waiting += near[at]
    return found


def free_columns(floor, view, wall):
    """The middles of the free columns on the right and on the left side."""
    middles = {-1: [], 1: []}
    for x in range(floor.width):
        for z in range(floor.depth):
            if view.floors(x, z):
                side = wall.side(square(x, z))
                assert side and not is_over(wall.shape, x, z), f"the column {x}, {z} is free, and shares area with the wall"
                middles[side].append((16 * x + 8, 16 * z + 8))
    return middles


def check_links(view, middles, wall, is_exact):
    """By the place of each cell its polygon: those of both sides hang not together."""
    calls, count = Calls(view), len(middles[-1]) + len(middles[1])
    faces, links = calls.shown()
    home, sides = joined(faces, links), {}
    for number in range(count):
        drawn = calls.drawn(2**64 - 1, -(-(number << 64) // count))
        if drawn == "cut":
            continue
        name, point, _ = drawn
        side = wall.side([point])
        assert sides.setdefault(home[name], side) == side, f"the cell at {point} hangs together with cells of the other side"
    for name, (corners, *_) in faces.items() if is_exact else ():
        assert wall.side([(16 * x, 16 * z) for x, z in corners]), f"the polygon {name} reaches over the wall"


def check_paths(view, middles, is_exact, counts):
    """Paths from a point of one side to one of the other; points of one polygon are held by it alone where outlines are exact."""
    for start, goal in ((-1, 1), (1, -1), (-1, 1)):
        one, other = (navd.Place(*random.choice(middles[side]), HEIGHT) for side in (start, goal))
        told = view.find_path(one, other)
        if isinstance(told, navd.NoPath):
            counts["questions for a path: none leads over"] += 1
            continue
        assert not is_exact, f"a path leads from {one} to {other}: {told}"
        counts["questions for a path: an end is held by a polygon that strays over"] += 1


def leaks_by_middles(floor, wall):
    """Whether the columns that are left would hang together if the wall covered those alone whose middles it holds."""
    left = {(x, z) for x in range(1, floor.width - 1) for z in range(1, floor.depth - 1) if not is_over(("prism", wall.shape[1], 1), x, z)}
    sides = {at: -1 if orient(wall.a, wall.b, (16 * at[0] + 8, 16 * at[1] + 8)) <= 0 else 1 for at in left}
    return any(sides[at] != sides.get(other, sides[at]) for at in left for other in ((at[0] + 1, at[1]), (at[0], at[1] + 1)))


def check(floor, wall, counts):
    """One wall, in all kinds."""
    number = floor.kinds.add(navd.Prism(list(wall.corners), (0, 100)))
    floor.kinds.settle()
    is_exact = not floor.error
    for place, (view, agent) in enumerate(zip(floor.views, floor.agents)):
        view.look_at_kind(floor.kinds, place)
        middles = free_columns(floor, view, wall)
        if not all(middles.values()):
            counts["walls of a kind that leave one side alone"] += 1
            continue
        check_links(view, middles, wall, is_exact)
        check_paths(view, middles, is_exact, counts)
        counts[f"walls of a kind with radius {agent.radius}{' and clearance' if agent.clear else ''}"] += 1
    floor.kinds.remove(number)
    counts["walls"] += 1
    counts["walls thinner than an eighth of a cell"] += wall.thickness() < 1 / 8
    counts["walls that would leak by middles"] += leaks_by_middles(floor, wall)
    if random.randrange(50) == 0:
        for x in range(floor.width):
            for z in range(floor.depth):
                assert is_over(wall.shape, x, z) == is_over_by_parts(wall.shape, x, z), "two forms of a wall"


def run(seed):
    """Some walls over one floor: the counts, or what is wrong."""
    random.seed(seed)
    floor, counts = Floor(), Counter()
    for _ in range(BATCH):
        wall = Wall(floor)
        try:
            check(floor, wall, counts)
        except (AssertionError, navd.NavdError) as wrong:
            return f"seed {seed}, {floor.width} by {floor.depth} columns, error {floor.error}, {floor.agents}, {wall.corners}: {wrong}"
    floor.close()
    return counts


def main():
    count_all(run, range(first_seed, first_seed + -(-walls // BATCH)), jobs)
    print("no wall leaks")


if __name__ == "__main__":
    main()
