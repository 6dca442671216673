#!/usr/bin/env python3
"""Proposes `jump` lines for an input: drops from ledges, and jumps over gaps, between parts of the mesh that no walk joins that way.

    tools/drops.py --down 20 --far 14 level.nav > jumps          the lines alone
    tools/drops.py --whole level.nav > level2.nav                the input with them right behind its line `script`

The free cells and the polygons are those of the level without obstacles, or as published at --length K; what stands in the way are the spans of
the field, and the obstacles of that length. A jump leaves from the middle of a cell at the rim of a part and goes along a row or a column of
cells: to the first floor that is at most --down below, and to the first that is no more than the climb below and at most --up above. Over the
columns between nothing stands from the climb above the higher of the two floors up to the agent's head, also beside them as far as the agent's
radius, and nothing stands where the agent lands. One jump is taken for each two parts first, those of the largest parts before the others, and
then further ones that leave at some distance from it.
"""
import argparse
import math
import sys
from dataclasses import dataclass

from inputs import Trouble
from frames import read_frame
from scenes import Play

MOST_JUMPS = 256
PARTS = 16
AROUND = ((-1, 0), (0, 1), (1, 0), (0, -1))


@dataclass
class Jump:
    """Two cells, each a column's x and z and a floor, with the parts that they belong to; and what the jump costs."""

    leaves: tuple
    lands: tuple
    pair: tuple
    cost: int

    def line(self):
        ends = [f"{PARTS * x + PARTS // 2} {PARTS * z + PARTS // 2} {floor}" for x, z, floor in (self.leaves, self.lands)]
        return f"jump {ends[0]} {ends[1]} {self.cost}"


class Level:
    """The free cells of a scene by column, each with its part, and what stands in the columns of its field."""

    def __init__(self, play, scene):
        self.height, self.climb, self.radius = (int(word) for word in header_line(play, b"agent").split()[1:])
        self.spans = {}
        for line in play.lines[: play.start]:
            if line.startswith(b"span "):
                x, z, bottom, top, _ = map(int, line.split()[1:])
                self.spans.setdefault((x, z), []).append((bottom, top))
        for obstacle in scene.obstacles:
            for column in columns_of(obstacle, scene):
                self.spans.setdefault(column, []).append(heights_of(obstacle))
        self.parts, self.sizes = {}, {}
        joined = parts_of(scene)
        for tile in scene.tiles:
            self.place(tile, joined)

    def place(self, tile, joined):
        """Gives each free cell of a tile the part of the polygon that its middle is located in; a cell that none holds has no part."""
        over = {}
        for index, polygon in enumerate(tile.polygons):
            for column in middles_in(polygon.corners):
                over.setdefault(column, []).append((polygon.low, polygon.high, index))
        for x, z, floor, _ in tile.cells:
            near = [(max(low - floor, floor - high, 0), index) for low, high, index in over.get((x, z), ())]
            gap, index = min(near, default=(self.climb + 1, None))
            part = joined[tile.number, index] if gap <= self.climb else None
            self.parts.setdefault((x, z), {})[floor] = part
            self.sizes[part] = self.sizes.get(part, 0) + 1

    def has_room(self, column, low, high):
        """Whether nothing stands in a column between two heights."""
        return all(top <= low or bottom >= high for bottom, top in self.spans.get(column, ()))

    def goes_on(self, column, floor):
        """Whether a step leads from a floor into a column."""
        return any(abs(other - floor) <= self.climb for other in self.parts.get(column, ()))

    def is_clear(self, column, across, height):
        """Whether an agent passes over a column at some height, with its radius on both sides."""
        places = ((column[0] + at * across[0], column[1] + at * across[1]) for at in range(-self.radius, self.radius + 1))
        return all(self.has_room(place, height + self.climb, height + self.height) for place in places)

    def landing(self, column, low, high):
        """The highest floor of a column between two heights."""
        return max((floor for floor in self.parts.get(column, ()) if low <= floor <= high), default=None)

    def flies(self, passed, across, floor, lands):
        """Whether an agent that leaves the first of some columns comes over the others to a floor in the last."""
        height = max(floor, lands)
        if not self.has_room(passed[0], floor, height + self.height) or not self.has_room(passed[-1], lands, height + self.height):
            return False
        return all(self.is_clear(column, across, height) for column in passed[1:-1])

    def jumps_from(self, x, z, floor, most):
        """The jumps that leave a cell: along each axis and way to the first floor that is lower, and to the first that is not."""
        for dx, dz in AROUND:
            if self.goes_on((x + dx, z + dz), floor):
                continue
            passed, lowest = [(x, z)], floor - most.down
            while len(passed) <= most.far and lowest <= floor + most.up:
                column = x + len(passed) * dx, z + len(passed) * dz
                passed.append(column)
                lands = self.landing(column, lowest, floor + most.up)
                if lands is not None and self.flies(passed, (dz, dx), floor, lands):
                    yield self.jump(passed, floor, lands, most)
                    lowest = floor - self.climb if lands < floor - self.climb else math.inf
                elif not any(self.is_clear(column, (dz, dx), floor + rise) for rise in (0, most.up)):
                    break

    def jump(self, passed, floor, lands, most):
        pair = self.parts[passed[0]][floor], self.parts[passed[-1]][lands]
        return Jump((*passed[0], floor), (*passed[-1], lands), pair, max(1, round(PARTS * (len(passed) - 1) * most.factor)))


def header_line(play, word):
    return next(line for line in play.lines if line.startswith(word + b" "))


def columns_of(obstacle, scene):
    """The columns of the field that an obstacle covers; none where it stops nobody."""
    if obstacle.area is not None:
        return []
    if obstacle.kind == "block":
        x0, x1, _, _, z0, z1 = obstacle.numbers
        return [(x, z) for x in range(x0, min(x1 + 1, scene.width)) for z in range(z0, min(z1 + 1, scene.depth))]
    cx, cz, radius, _, _ = obstacle.numbers
    within = lambda x, z: (2 * x + 1 - cx) ** 2 + (2 * z + 1 - cz) ** 2 <= (2 * radius + 1) ** 2
    return [(x, z) for x in range(scene.width) for z in range(scene.depth) if within(x, z)]


def heights_of(obstacle):
    """From where to where an obstacle stands."""
    low, high = obstacle.numbers[2:4] if obstacle.kind == "block" else obstacle.numbers[3:5]
    return low, high + 1


def parts_of(scene):
    """The part of each polygon, by its tile and place: polygons that links join have one part."""
    beside = {(tile.number, index): [] for tile in scene.tiles for index in range(len(tile.polygons))}
    for link in scene.links():
        beside[link.start].append(link.end)
    joined = {}
    for first in beside:
        waiting = [] if first in joined else [first]
        while waiting:
            polygon = waiting.pop()
            if polygon not in joined:
                joined[polygon] = first
                waiting += beside[polygon]
    return joined


def middles_in(corners):
    """The columns whose middles lie in a polygon, which is convex and runs counterclockwise."""
    sides = list(zip(corners, corners[1:] + corners[:1]))
    xs, zs = zip(*corners)
    for z in range(min(zs), max(zs)):
        for x in range(min(xs), max(xs)):
            if all((bx - ax) * (2 * z + 1 - 2 * az) - (bz - az) * (2 * x + 1 - 2 * ax) >= 0 for (ax, az), (bx, bz) in sides):
                yield x, z


def candidates(level, most):
    """All jumps between parts that are large enough, the cheapest first."""
    found = []
    for (x, z), floors in level.parts.items():
        for floor, part in floors.items():
            if part is not None and level.sizes[part] >= most.least:
                found += level.jumps_from(x, z, floor, most)
    found = [jump for jump in found if jump.pair[1] is not None and level.sizes[jump.pair[1]] >= most.least]
    found = [jump for jump in found if most.same or jump.pair[0] != jump.pair[1]]
    return sorted(found, key=lambda jump: (jump.cost, jump.leaves[2] - jump.lands[2], jump.leaves, jump.lands))


def chosen(level, found, count, apart):
    """So many of the jumps: of each pair of parts the cheapest, then those that leave far from the ones before; pairs of one part come last."""
    by_pair = {}
    for jump in found:
        near = by_pair.setdefault(jump.pair, [])
        if all(max(abs(a - b) for a, b in zip(jump.leaves[:2], other.leaves[:2])) >= apart for other in near):
            near.append(jump)
    ordered = []
    for pair, jumps in by_pair.items():
        smaller = min(level.sizes[part] for part in pair)
        ordered += [((pair[0] == pair[1], place, -smaller, pair), jump) for place, jump in enumerate(jumps)]
    return [jump for _, jump in sorted(ordered, key=lambda row: row[0])[:count]]


def limits(given, level):
    """The limits in cells and units, given in the lengths of a frame where there is one."""
    if given.frame:
        frame = read_frame(given.frame)
        given.down = None if given.down is None else math.floor(given.down / frame.cell_height)
        given.up = None if given.up is None else math.floor(given.up / frame.cell_height)
        given.far = None if given.far is None else math.floor(given.far / frame.cell_size)
    given.down = 2 * level.height if given.down is None else int(given.down)
    given.up = level.climb if given.up is None else int(given.up)
    given.far = 2 * level.radius + 6 if given.far is None else int(given.far)
    if given.down < 0 or given.up < 0 or given.far < 1:
        raise Trouble("--down and --up are 0 or more, and --far is a cell or more")
    return given


def arguments():
    parser = argparse.ArgumentParser(description=__doc__, formatter_class=argparse.RawDescriptionHelpFormatter)
    add = parser.add_argument
    add("input", help="an input of navd: a level and a script")
    add("--down", type=float, help="how far a jump may go down, in height units (default: twice the agent's height)")
    add("--up", type=float, help="how far it may go up, in height units (default: the climb)")
    add("--far", type=float, help="how far it may go, in cells (default: twice the radius and 6)")
    add("--frame", metavar="FILE", help="a frame of tools/obj2tri.py: --down, --up and --far are in its lengths")
    add("--length", type=int, default=0, metavar="K", help="propose for what was published for the first K entries (default %(default)s)")
    add("--factor", type=float, default=1.0, help="what a jump costs, in times of its length (default %(default)s)")
    add("--apart", type=int, default=16, help="how many cells jumps between the same parts stand from each other (default %(default)s)")
    add("--least", type=int, default=4, help="how many cells a part must have (default %(default)s)")
    add("--same", action="store_true", help="propose jumps inside a part too, behind all others")
    add("--most", type=int, default=MOST_JUMPS, help="how many lines at most; a script may have 256 in all (default %(default)s)")
    add("--whole", action="store_true", help="write the input with the lines right behind its line `script`")
    add("--program", metavar="FILE", help="the built program navd_scene (default crates/navd_scene/out/navd_scene)")
    return parser.parse_args()


def main():
    given = arguments()
    try:
        play = Play(given.input, given.program)
        level = Level(play, play.scene(given.length))
        most = limits(given, level)
        found = candidates(level, most)
        room = min(given.most, MOST_JUMPS - len(play.jumps()))
        lines = [jump.line() for jump in chosen(level, found, room, given.apart)]
    except Trouble as trouble:
        sys.exit(f"drops.py: {trouble}")
    before = [line.decode("ascii") for line in play.lines]
    rows = before[: play.start + 1] + lines + before[play.start + 1 :] if given.whole else lines
    sys.stdout.write("".join(row + "\n" for row in rows))
    pairs = {jump.pair for jump in found}
    parts = sum(size >= given.least for part, size in level.sizes.items() if part is not None)
    print(f"drops.py: {len(lines)} jumps of {len(found)} that the limits allow, between {len(pairs)} pairs of {parts} parts", file=sys.stderr)


if __name__ == "__main__":
    main()
