#!/usr/bin/env python3
"""Checks what the library tells of tiles that may differ between a length of the history and what is published, on random levels: made fields of
both kinds and meshes, with and without clearance, under blocks and cylinders that stop agents or set areas, come and go, are refused or removed
twice, in levels that are settled or built step by step, and begin their history again. The tiles told have to be those that an obstacle touches
which is alive after one of the two lengths alone, worked out here; and each tile that is not told has to have the polygons, links and floors that
it had when that length was published.

usage: reference/changes_check.py LIBRARY [LEVELS [SEED]]     (40 levels, seed 1; LIBRARY is what `make libnavd.so` of hosts/c makes)
"""
import random
import sys

from library import host_and_levels, level_text

navd, levels, first_seed = host_and_levels(__doc__, 40)
NOT_YET = 8


class Field:
    """What the header lines of a field text say."""

    def __init__(self, text):
        words = {line.split()[0]: [int(word) for word in line.split()[1:]] for line in text.splitlines() if line.split()[0] in
                 ("size", "tile", "agent", "limit", "clear")}
        self.width, self.depth = words["size"]
        self.tile = words["tile"][0]
        self.limit = words["limit"][0]
        self.margin = words["agent"][2] if words.get("clear") == [1] else 0
        self.across = -(-self.width // self.tile)
        self.tiles = self.across * -(-self.depth // self.tile)

    def window(self, tile):
        x, z = tile % self.across * self.tile, tile // self.across * self.tile
        return x, min(x + self.tile, self.width) - 1, z, min(z + self.tile, self.depth) - 1

    def touches(self, shape, tile):
        """Whether a column of the shape's bounds, widened by what agents keep from obstacles, lies in a tile."""
        x0, x1, z0, z1 = self.window(tile)
        if isinstance(shape, navd.Block):
            ends = [(shape.x[0], shape.x[1]), (shape.z[0], shape.z[1])]
        else:
            reach = lambda middle: [c for c in range(-80, 1200) if abs(2 * c + 1 - middle) <= 2 * shape.r + 1]
            ends = [(min(columns), max(columns)) for columns in (reach(shape.cx), reach(shape.cz))]
        return all(low - self.margin <= last and first <= high + self.margin for (low, high), (first, last) in zip(ends, ((x0, x1), (z0, z1))))


class History:
    """The entries of a level, and which obstacles are alive after each length."""

    def __init__(self, limit):
        self.limit, self.shapes, self.alive = limit, {}, [frozenset()]

    def add(self, shape):
        number = len(self.alive)
        there = self.alive[-1]
        fits = len(there) < self.limit
        if fits:
            self.shapes[number] = shape
        self.alive.append(there | {number} if fits else there)
        return fits

    def remove(self, number):
        there = self.alive[-1]
        self.alive.append(there - {number})
        return number in there

    def renew(self):
        """The numbers that the obstacles had: they are added again, in that order."""
        numbers = sorted(self.alive[-1])
        shapes = [self.shapes[number] for number in numbers]
        self.shapes, self.alive = {}, [frozenset()]
        for shape in shapes:
            self.add(shape)
        return numbers


def random_shape(field):
    low = random.choice([0, 5, 20])
    heights = (low, low + random.randrange(60))
    if random.randrange(2):
        x, z = random.randrange(field.width), random.randrange(field.depth)
        return navd.Block((x, x + random.randrange(9)), heights, (z, z + random.randrange(9)))
    return navd.Cylinder(random.randrange(2 * field.width), random.randrange(2 * field.depth), random.randrange(5), heights)


def seen(level, field):
    """For each tile its polygons, links and floors."""
    floors = lambda x0, x1, z0, z1: [level.floors(x, z) for z in range(z0, z1 + 1) for x in range(x0, x1 + 1)]
    return [(level.polygons(tile), level.inner_links(tile), level.border_links(tile), floors(*field.window(tile))) for tile in range(field.tiles)]


def ask(level, history, field, shown, published):
    """Compares what is told of each length, and of the lengths that were published what stayed. How many pairs of lengths were looked at."""
    now = seen(level, field)
    for since in range(published + 1):
        once = history.alive[since] ^ history.alive[published]
        due = [tile for tile in range(field.tiles) if any(field.touches(history.shapes[number], tile) for number in once)]
        told = level.changed_tiles(since)
        assert told == due, f"since {since} of {published}: told {told}, and {due} is right"
        for tile in set(range(field.tiles)) - set(due) if since in shown else ():
            then, here = shown[since][tile], now[tile]
            assert then[:2] == here[:2] and then[3] == here[3], f"since {since} of {published}: tile {tile} is not as it was"
            stays = lambda links: [link for link in links if link.end.tile not in due]
            assert stays(then[2]) == stays(here[2]), f"since {since} of {published}: links of tile {tile} are not as they were"
    shown[published] = now
    try:
        level.changed_tiles(published + 1)
        assert False, "a length that is not published is answered"
    except navd.NavdError as refused:
        assert refused.status == 4, refused.status
    return published + 1


def request(level, history, field):
    numbers = list(history.shapes) + [0, 1, 99999]
    if random.randrange(3):
        shape, area = random_shape(field), random.choice([0, 0, 0, 5, 63])
        fits = history.add(shape)
        call = level.add_block if isinstance(shape, navd.Block) else level.add_cylinder
        done = lambda: call(shape, area)
    else:
        number = random.choice(numbers)
        fits = history.remove(number)
        done = lambda: level.remove(number)
    try:
        done()
        assert fits, "what is not there was removed, or too many are there"
    except navd.NavdError as refused:
        assert not fits and refused.status in (5, 6), refused.status


def run(seed):
    random.seed(seed)
    kind, mesh, clear = random.choice(["rough", "smooth"]), random.choice(["strips", "contours"]), random.randrange(2)
    side, error = random.choice([8, 15, 24]), random.choice([0, 49, 169])
    text = level_text(side, 0, seed, mesh, error, 0, kind, "areas", "none", clear)
    field = Field(text)
    pairs = 0
    with navd.Level(text.encode()) as level:
        history, shown, published = History(field.limit), {}, 0
        pairs += ask(level, history, field, shown, published)
        for _ in range(random.randrange(4, 14)):
            for _ in range(random.randrange(5)):
                request(level, history, field)
            if random.randrange(2):
                published = level.settle()
            else:
                level.aim()
                for _ in range(random.randrange(6)):
                    level.step()
                try:
                    published = level.publish()
                except navd.NavdError as refused:
                    assert refused.status == NOT_YET, refused.status
            pairs += ask(level, history, field, shown, published)
            if random.randrange(12) == 0:
                level.settle()
                assert level.renew() == history.renew(), "numbers after a renewal"
                published, shown = len(history.alive) - 1, {}
    return pairs


total = 0
for number in range(first_seed, first_seed + levels):
    try:
        total += run(number)
    except AssertionError as wrong:
        sys.exit(f"WRONG: level {number}: {wrong}")
print(f"{total} pairs of lengths over {levels} levels: all as the second program has them")
