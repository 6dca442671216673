#!/usr/bin/env python3
"""Shows what the library answers about places on levels of a game, each a field text, beside the second program:

  - the mesh that it shows is that of the second program;
  - the share of all floors over whose cell's middle there is a place within four cells: at least 99.3 %;
  - ways between places: each is a cheapest one, its line is taut, and the height at each corner is the floor of a cell below it;
  - walkers that go along these ways by a quarter of a cell: each point at which one stands is a place, and from one to the next the floor changes by no
    more than an agent climbs twice, as it does where a step leads over a corner of cells;
  - a way is told between two places where the cells below them hang together, and where they do not, as those of two storeys, none;
  - slides and walls at some of these places, by trying, where the library has their calls.

usage: reference/levels_places.py LIBRARY FIELD.. [WAYS]       (200 ways of each level; LIBRARY is what `make libnavd.so` of hosts/c makes)

A number that is not what it has to be ends it with 1, behind all levels.
"""
import random
import sys
from collections import Counter
from pathlib import Path

from library import host_and_levels
from places_levels import ALL, point_near
from places_mesh import Ground
from places_slides import Slides
from places_walls import Walls
from places_ways import Ways, turns_of

REACH, RISE, STEP = 64, 28, 4


class Level:
    """A level, the second program's reading of it, and a view that is asked."""

    def __init__(self, text, view):
        self.ground, self.view, self.calls, self.counts, self.wrong = Ground(text), view, places_calls.Calls(view), Counter(), Counter()
        self.ground.publish({})
        self.ways = Ways(self.calls, self.ground, self.counts)
        self.part = self.parts()
        self.cells = [(x, z, floor) for x, z, floor in self.part]
        self.stacked = {}
        for x, z, floor in self.cells:
            self.stacked.setdefault((x, z), []).append(floor)
        self.stacked = [(column, floors) for column, floors in self.stacked.items() if len(floors) > 1]

    def parts(self):
        """By column and floor of each free cell the number of the part of cells that hang together to which it belongs."""
        near, names = self.ground.names["near"], {}
        free = {place: cell[0] for tile in self.ground.names["free_now"]() for place, cell in tile.items()}
        for number, first in enumerate(free):
            left = [first] if first not in names else []
            while left:
                at = left.pop()
                if at in free and at not in names:
                    names[at] = number
                    left += [to for to in (near(at, dir) for dir in range(4)) if to is not None]
        return {(*place[:2], free[place]): number for place, number in names.items()}

    def nearest(self, cell):
        """The place nearest to a cell's middle, or None."""
        x, z, floor = cell
        return self.calls.nearest({"x": 16 * x + 8, "z": 16 * z + 8, "y": floor, "reach": REACH, "down": RISE, "up": RISE, "weight": 4, "areas": ALL})

    def parts_of(self, place):
        """The parts of the cells below a place that have its floor."""
        name, (x, z), floor = place
        columns = {(a, b) for a in {x // 16, (x - 1) // 16} for b in {z // 16, (z - 1) // 16}}
        return {self.part[(*column, floor)] for column in columns if floor in self.ground.faces[name].columns.get(column, [])}

    def told(self, what, good):
        """Counts a test, and whether it holds."""
        self.counts[what] += 1
        self.wrong[what] += not good

    def cover(self):
        for cell in self.cells:
            self.told("floors with a place within four cells", self.nearest(cell) is not None)

    def pair(self):
        """Two places: anywhere, or one in five times on two floors of a column."""
        while True:
            cells = random.sample(self.cells, 2)
            if self.stacked and random.randrange(5) == 0:
                column, floors = random.choice(self.stacked)
                cells = [(*column, floor) for floor in random.sample(floors, 2)]
            ends = [self.nearest(cell) for cell in cells]
            if None not in ends:
                return ends

    def way(self):
        """Whether a way was told between two places."""
        start, goal = self.pair()
        told = self.calls.way(start, goal, ALL, (), ALL, ALL)
        is_joined = self.parts_of(start) & self.parts_of(goal)
        try:
            self.ways.check(told, start, goal, ALL, self.ground.costs, ALL, ALL)
            self.told("answers that are right by the second program", True)
        except AssertionError as wrong:
            print(f"WRONG: from {start} to {goal}: {wrong}")
            self.told("answers that are right by the second program", False)
        if isinstance(told, str):
            self.told("none between places that do not hang together", told == "no path" and not is_joined)
            return False
        self.told("ways between places that hang together", is_joined)
        _, _, links, corners = told
        for name, at, floor in corners:
            self.told("heights at corners that are the floor of a cell below", floor in self.ground.faces[name].below(at))
        self.walk(start, goal, links, turns_of(links, corners[1:-1]))
        return True

    def walk(self, start, goal, links, turns):
        before = None
        for name, at in self.calls.walk(links, turns, start, goal, STEP):
            floor = self.calls.height(name, at)
            self.told("points of walkers that are places", floor is not None and self.calls.is_place(name, at, floor) and self.ground.is_place(name, at, floor))
            if floor is None:
                continue
            self.told("of these with a cell below", floor in self.ground.faces[name].below(at))
            self.told("steps of walkers up or down by at most twice the climb", before is None or abs(floor - before) <= 2 * self.ground.climb)
            before = floor

    def around(self, count):
        """Slides and walls at places, where the library has their calls."""
        places = [place for place in (self.nearest(random.choice(self.cells)) for _ in range(count)) if place]
        slides, walls = (subject(self.calls, self.ground, self.counts) for subject in (Slides, Walls))
        for place in places:
            try:
                if self.calls.has("slide"):
                    slides.ask(place, point_near(place[1], random.choice([8, 48, 160])), ALL)
                    self.told("places with slides as tried out", True)
                if self.calls.has("nearest_wall"):
                    walls.nearest(place, 160, ALL)
                    walls.all_around(place, 64, ALL)
                    self.told("places with walls as tried out", True)
            except AssertionError as wrong:
                print(f"WRONG: {wrong}")
                self.told("places with slides and walls as tried out", False)


# What need not hold for each: at least this part of all.
LEAST = {"floors with a place within four cells": 0.993, "of these with a cell below": 0}


def run(path, ways):
    """Tells the numbers of a level; whether they are what they have to be."""
    random.seed(1)
    text = Path(path).read_text()
    with navd.Level(text.encode()) as opened, navd.View() as view:
        view.look(opened)
        level = Level(text, view)
        level.told("polygons and links that are those of the second program", level.calls.shown() == level.ground.shown())
        level.cover()
        found = tried = 0
        while found < ways and tried < 20 * ways:
            found, tried = found + level.way(), tried + 1
        level.around(ways)
    print(f"{Path(path).stem}: {len(level.cells)} cells, {len(level.ground.faces)} polygons")
    good = True
    for what, count in level.counts.items():
        if what in level.wrong:
            is_good = count - level.wrong[what] >= LEAST.get(what, 1) * count
            good = good and is_good
            print(f"  {count - level.wrong[what]} of {count} {what}{'' if is_good else ': WRONG'}")
        else:
            print(f"  {count} {', '.join(what)}")
    return good


if __name__ == "__main__":
    words = sys.argv[2:]
    count = int(words.pop()) if words and words[-1].isdigit() else 200
    sys.argv[2:] = []
    navd, _, _ = host_and_levels(__doc__, 0)
    import places_calls
    sys.exit(0 if all([run(path, count) for path in words]) else 1)
