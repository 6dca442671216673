#!/usr/bin/env python3
"""Checks what the library answers about places: the nearest, heights, whether a place is one of the mesh, random places, ways between places and rays from
them, slides, and walls. Levels are small and random: two storeys, holes, steps, ramps up to the upper storey, areas, both kinds of meshes, several errors,
with and without clearance, before and after obstacles came. The mesh, and which cells each polygon stands for, is worked out by `play_check.py` from the
level's text and its obstacles, and has to be that which the library shows. Answers are found by trying: each whole point over each cell of each polygon
for the nearest place, each cell of a polygon for a height, the list of all cells for a draw, each row of points of each polygon that is looked at for a
slide, all links for costs and for what is around. Of places that are equally near the first by the rule of the header is wanted, and of cheapest ways,
nearest points of a slide and nearest walls any. What is tried cleverly is tried plainly now and then, and compared.

usage: reference/places_check.py LIBRARY [LEVELS [SEED [PROCESSES]]]     (200 levels, seed 1, one process; LIBRARY is what `make libnavd.so` of hosts/c makes)

It ends with the first answer that differs, and leaves the level's text in a file that it names. The levels are shared by the processes. Calls that the
library lacks are told, and are not asked.
"""
import random
import sys
import tempfile
from collections import Counter
from multiprocessing import Pool

from library import host_and_levels, refuser
from places_levels import ALL, FAR, random_near, random_point, random_text
from places_mesh import Ground
from places_slides import Slides
from places_walls import Walls
from places_ways import Ways


def change(level, ground, obstacles):
    """Adds an obstacle or two, or removes one, and publishes."""
    for _ in range(random.randrange(1, 3)):
        if obstacles and random.randrange(3) == 0:
            number = random.choice(list(obstacles))
            level.remove(number)
            del obstacles[number]
            continue
        x, z, low, area = random.randrange(ground.width), random.randrange(ground.depth), random.choice([0, 30, 45]), random.choice([0, 0, 5, 62])
        if random.randrange(2):
            ends = x, x + random.randrange(4), low, low + random.choice([12, 100]), z, z + random.randrange(4)
            number = level.add_block(navd.Block(ends[:2], ends[2:4], ends[4:]), area)
            obstacles[number] = "block", list(ends), area or None
        else:
            shape = 2 * x, 2 * z, random.randrange(3), low, low + 60
            number = level.add_cylinder(navd.Cylinder(*shape[:3], shape[3:]), area)
            obstacles[number] = "cylinder", list(shape), area or None
    level.settle()
    ground.publish(obstacles)


def agree(question, told, due):
    assert told == due, f"{question}: {told} is told, and {due} is right"


class Asker:
    """Asks a view, and compares; it counts the questions by kind and answer."""

    def __init__(self, view, ground):
        self.calls, self.ground, self.counts = places_calls.Calls(view), ground, Counter()

    def mesh(self):
        """That the view shows the mesh of the second program."""
        for what, told, due in zip(("polygons", "links"), self.calls.shown(), self.ground.shown()):
            agree(what, told, due)

    def nearest(self, asked):
        told = self.calls.nearest(asked)
        agree(f"nearest {asked}", told, self.ground.nearest(asked))
        self.counts["nearest", "found" if told else "none"] += 1
        return told

    def height(self, name, point):
        told = self.calls.height(name, point)
        agree(f"height in {name} at {point}", told, self.ground.height(name, point))
        self.counts["height", "no place" if told is None else "found" if self.is_over(name, point) else "aside"] += 1
        return told

    def is_over(self, name, point):
        return any(point[1] in points.get(point[0], []) for points in self.ground.faces[name].over.values())

    def is_place(self, name, point, floor):
        told = self.calls.is_place(name, point, floor)
        agree(f"is_place of {name} at {point} on {floor}", told, self.ground.is_place(name, point, floor))
        self.counts["is_place", "yes" if told else "no"] += 1
        return told

    def random_name(self):
        """A polygon, or seldom one that is not there."""
        if not self.ground.faces or random.randrange(20) == 0:
            return random.choice([0, 1, 2**32 - 1]), random.choice([0, 1, 9, 2**32 - 1])
        return random.choice(list(self.ground.faces))

    def heights(self, point):
        """The heights at a point in a random polygon and in all that hold it, and whether those and the next are places."""
        for name in [self.random_name()] + [name for name, face in self.ground.faces.items() if face.holds(point)]:
            floor = self.height(name, point)
            if floor is None:
                self.is_place(name, point, random.randrange(30, 60))
                continue
            assert self.is_place(name, point, floor), f"the height in {name} at {point} makes no place"
            self.is_place(name, point, random.choice([0, max(0, floor - 1), floor + 1, random.randrange(30, 60), 2**32 - 1]))

    def draw(self, areas, cells, draw):
        told = self.calls.drawn(areas, draw)
        agree(f"the place of areas {areas} that {draw} draws", told, self.ground.drawn(cells, draw))
        self.counts["random", told if isinstance(told, str) else "found"] += 1
        if not isinstance(told, str):
            assert self.is_place(*told), f"{told} was drawn, and is no place"

    def draws(self, count):
        """The first and the last number that draws each cell, and random ones of random areas."""
        cells = self.ground.cells_of(ALL)
        for number in range(len(cells)):
            self.draw(ALL, cells, -(-(number << 64) // len(cells)))
            self.draw(ALL, cells, -(-(number + 1 << 64) // len(cells)) - 1)
        for _ in range(count):
            areas = random.choice([0, ALL & ~(1 << 63), 1 << 5 | 1 << 20, random.randrange(2**64)])
            self.draw(areas, self.ground.cells_of(areas), random.choice([0, ALL, *[random.randrange(2**64)] * 4]))

    def from_places(self, count):
        """Questions from places, where the library has their calls."""
        for subject, names in ((Ways, ("find_way", "find_way_near", "cast_ray_from")), (Slides, ("slide",)), (Walls, ("nearest_wall", "walls"))):
            if all(map(self.calls.has, names)):
                subject(self.calls, self.ground, self.counts).all(count)
            else:
                self.counts["levels without", " ".join(names)] += 1

    def all(self, count):
        """Random questions; the places that were told."""
        self.mesh()
        found = [place for place in (self.nearest(random_near(self.ground)) for _ in range(count)) if place]
        for place in found:
            assert self.is_place(*place), f"{place} was told, and is no place"
            self.is_place(self.random_name(), *place[1:])
        beside = [random.choice(face.beside) for face in self.ground.faces.values() if face.beside]
        for point in [random_point(self.ground) for _ in range(count // 2)] + beside:
            self.heights(point)
        self.draws(count)
        self.from_places(count // 2)
        return found


def ask_beyond(view):
    """Numbers just out of their limits."""
    near, calls = navd.Place(0, 0, 40), places_calls.Calls(view)
    refused(view.nearest, navd.Place(FAR + 1, 0, 40))
    refused(view.nearest, navd.Place(0, -FAR - 1, 40))
    refused(view.nearest, near, 262144)
    refused(view.nearest, near, 64, 16384)
    refused(view.nearest, near, 64, 28, 16384)
    refused(view.nearest, near, 64, 28, 28, 65536)
    good, wrong = ((0, 0), (0, 0), 40), [((0, 0), (-FAR - 1, 0), 0), ((0, 0), (0, FAR + 1), 0)]
    refused(calls.height, *wrong[0][:2])
    refused(calls.is_place, *wrong[1])
    asked = dict(zip(("x", "z", "y", "reach", "down", "up", "weight", "areas"), (0, 0, 40, 64, 28, 28, 4, ALL)))
    for place in wrong:
        for name, call, words in (("find_way", calls.way, (place, good, ALL, (), ALL, ALL)), ("find_way", calls.way, (good, place, ALL, (), ALL, ALL)),
                                  ("find_way", calls.way, (good, good, ALL, [1] * 63, ALL, ALL)),
                                  ("find_way", calls.way, (good, good, ALL, [1] * 63 + [1001], ALL, ALL)),
                                  ("find_way_near", calls.way_near, (asked, {**asked, "reach": 262144}, ALL, (), ALL, ALL)),
                                  ("find_way_near", calls.way_near, ({**asked, "z": FAR + 1}, asked, ALL, (), ALL, ALL)),
                                  ("cast_ray_from", calls.ray, (place, (0, 0))), ("cast_ray_from", calls.ray, (good, place[1])),
                                  ("slide", calls.slide, (place, (0, 0), ALL)), ("slide", calls.slide, (good, place[1], ALL)),
                                  ("nearest_wall", calls.nearest_wall, (place, 8, ALL)), ("nearest_wall", calls.nearest_wall, (good, 262144, ALL)),
                                  ("walls", calls.walls, (place, 8, ALL)), ("walls", calls.walls, (good, 262144, ALL))):
            if calls.has(name):
                refused(call, *words)


def run(text):
    """Asks about a level, before and after some changes. The counts."""
    ground, obstacles = Ground(text), {}
    with navd.Level(text.encode()) as level, navd.View() as view:
        ground.publish(obstacles)
        view.look(level)
        asker = Asker(view, ground)
        old = asker.all(8)
        change(level, ground, obstacles)
        view.look(level)
        for place in old:
            asker.is_place(*place)
        asker.all(6)
        ask_beyond(view)
    return asker.counts


def run_level(number):
    """The counts of a level, or what is wrong."""
    random.seed(number)
    text = random_text()
    try:
        return run(text)
    except (AssertionError, navd.NavdError) as wrong:
        with tempfile.NamedTemporaryFile("w", prefix="navd_places_", suffix=".txt", delete=False) as kept:
            kept.write(text)
        return f"level {number}: {wrong}\nits text is in {kept.name}; to see it again: reference/places_check.py LIBRARY 1 {number}"


def main():
    total, processes = Counter(), int(sys.argv[4]) if len(sys.argv) > 4 else 1
    with Pool(processes) as pool:
        for told in pool.imap(run_level, range(first_seed, first_seed + levels), chunksize=4):
            if isinstance(told, str):
                sys.exit(f"WRONG: {told}")
            total += told
    for (kind, answer), count in sorted(total.items()):
        print(f"{count:10} {kind}: {answer}")
    print(f"{sum(total.values())} over {levels} levels: all as tried out")


if __name__ == "__main__":
    navd, levels, first_seed = host_and_levels(__doc__, 200)
    import places_calls
    refused = refuser(navd)
    main()
