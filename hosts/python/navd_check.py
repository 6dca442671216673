#!/usr/bin/env python3
"""Tests of a level for those who make it: says which cases do not hold, and what is so instead.

    navd_check.py LEVEL.obj CASES

Lengths and places are those of the Wavefront OBJ file, of which y is up; a place is three numbers, x y z, and its height says in which storey it lies. The
cases are lines of words; what stands behind a # is not read:

    cell SIZE HEIGHT, agent RADIUS HEIGHT CLIMB, slope DEGREES, area MATERIAL NUMBER
                                        before all others; else 0.3 0.2, 0.6 2 0.9 and 45, and each material has the area 63; 0 is not walked on
    box NAME PLACE HALF-SIDES [DEGREES] an obstacle that stops agents, turned from x to z; with a name that is there it is moved
    cylinder NAME PLACE RADIUS HALF-HEIGHT
    remove NAME
    case NAME                           what the lines below it are about
    stand PLACE, outside PLACE          an agent can stand there, or cannot
    reach PLACE PLACE, apart PLACE PLACE    a walk leads from one to the other, or none does
    within COST PLACE PLACE, longer COST PLACE PLACE    a walk there costs no more, or each costs more: about its length
    see PLACE PLACE, hidden PLACE PLACE     the straight walk comes there, or ends at a wall

It writes a line `failed LINE NAME WORD: ..` for each that does not hold, and last `cases N failed F`. It ends with 0 where all hold, with 8 where one does
not, and with 1 where a file cannot be read. The library is looked for as navd.py does.
"""
import math
import sys
from ctypes import byref, c_float, c_size_t, c_uint8, c_uint32
from dataclasses import dataclass, field

import navd

FAILED = 8
MOST_HEIGHT, NO_FLOOR, ANY_HEIGHT = 8191, 65535, 16383
FAULTS = {1: "names a vertex that is not there", 2: "has a number that is none", 3: "lies outside", 4: "has an area above 63"}


class Trouble(Exception):
    """What is wrong with a file, as a sentence."""


def steps(length, step, parts, up):
    """How many steps a length has, to the nearest of so many parts of one, and then up or down."""
    number = math.floor(length / step * parts + 0.5)
    return -(-number // parts) if up else number // parts


@dataclass
class Settings:
    """What is said before the cases; each word is followed by as many numbers as the list has."""
    cell: list = field(default_factory=lambda: [0.3, 0.2])
    agent: list = field(default_factory=lambda: [0.6, 2.0, 0.9])
    slope: list = field(default_factory=lambda: [45.0])
    areas: dict = field(default_factory=dict)

    def mesh(self, frame, width, depth):
        size, unit = self.cell
        radius, height, climb = self.agent
        told = navd._Setting(width=width, depth=depth, tile=48, height=steps(height, unit, 256, True) - 1, climb=steps(climb, unit, 256, False),
                             radius=steps(radius, size, 16, True), error=49, contours=1, limit=1024, clear=1)
        return navd._Mesh(frame=frame, slope=self.steepness(), setting=told)

    def steepness(self):
        if self.slope[0] >= 90:
            return navd._Slope(0, 0, 0)
        steep = math.tan(math.radians(self.slope[0])) * self.cell[0] / (16 * self.cell[1])
        return navd._Slope(round(steep * 131072), 131072, 0) if steep <= 0.125 else navd._Slope(16384, max(1, round(16384 / steep)), 0)


# == Files ==


def read_obj(lines):
    """The vertices of an OBJ file, and its triangles with their materials."""
    vertices, triangles, material = [], [], ""
    for number, line in enumerate(lines, 1):
        word, *words = line.split("#", 1)[0].split() or [""]
        try:
            if word == "v":
                vertices.append(tuple(float(part) for part in words[:3]))
            elif word == "usemtl":
                material = " ".join(words)
            elif word == "f":
                corners = [int(part.split("/")[0]) for part in words]
                corners = [at - 1 if at > 0 else len(vertices) + at for at in corners]
                triangles += [((corners[0], b, c), material) for b, c in zip(corners[1:], corners[2:])]
        except ValueError as error:
            raise Trouble(f"line {number} of the level: {error}") from error
    there = range(len(vertices))
    if not triangles or any(len(vertex) < 3 for vertex in vertices) or any(at not in there for corners, _ in triangles for at in corners):
        raise Trouble("the level has no triangle, or one without its vertices")
    return vertices, triangles


def numbers(line, words, *counts):
    try:
        found = [float(word) for word in words]
    except ValueError:
        found = []
    if len(found) not in counts or not all(map(math.isfinite, found)):
        raise Trouble(f"line {line} of the cases wants {' or '.join(map(str, counts))} numbers: {' '.join(words)[:60]!r}")
    return found


def read_cases(lines):
    """The settings, and the lines behind them, each with its number and its words."""
    settings, cases = Settings(), []
    for line, text in enumerate(lines, 1):
        word, *words = text.split("#", 1)[0].split() or [""]
        if word == "area" and len(words) == 2 and words[1].isdigit() and not cases:
            settings.areas[words[0]] = int(words[1])
        elif word in ("cell", "agent", "slope") and not cases:
            setattr(settings, word, numbers(line, words, len(getattr(settings, word))))
        elif word:
            cases.append((line, word, words))
    return settings, cases


# == A level in metres ==


def open_mesh(vertices, triangles, settings):
    """The level of the triangles, and its mesh."""
    low, high = ([pick(vertex[axis] for vertex in vertices) for axis in range(3)] for pick in (min, max))
    level, found, fault = navd.Level.__new__(navd.Level), navd._FramedField(), navd._MeshFault()
    navd._Asked.__init__(level)
    sizes = navd._Frame(*settings.cell)
    if level._calls.navd_frame_of(byref(sizes), byref(navd._WorldPoint(*low)), byref(navd._WorldPoint(*high)), byref(found)):
        raise Trouble("the level is wider than 1024 cells or higher than 8190 height units, or the cell is out of its limits")
    mesh = settings.mesh(found.frame, found.width, found.depth)
    flat = [part for vertex in vertices for part in vertex]
    corners = [corner for three, _ in triangles for corner in three]
    areas = [settings.areas.get(material, 63) for _, material in triangles]
    status = level._calls.navd_open_mesh(byref(level._handle), byref(mesh), (c_float * len(flat))(*flat), len(flat), (c_uint32 * len(corners))(*corners),
                                         len(corners), (c_uint8 * len(areas))(*areas), len(areas), byref(fault))
    if status == navd.FAULTY:
        raise Trouble(f"triangle {fault.place} of the level {FAULTS.get(fault.kind, 'fails')}")
    if status:
        raise Trouble(f"the level does not open: {navd.NAMES[status]}: look at the lines cell, agent and slope")
    return level, mesh


class Ground:
    """A level and a view of it, asked in metres."""

    def __init__(self, vertices, triangles, settings):
        self.level, self.mesh = open_mesh(vertices, triangles, settings)
        self.frame, self.view, self.obstacles, self.is_shown = self.mesh.frame, navd.View(), {}, False
        self.calls = self.level._calls

    def spot(self, x, y, z):
        place, count = navd._FramePlace(), c_size_t()
        if self.calls.navd_quantize(byref(self.frame), byref(navd._WorldPoint(x, y, z)), 1, byref(place), 1, byref(count)):
            raise Trouble(f"({x:g} {y:g} {z:g}) is too far away")
        return place

    def place(self, x, y, z):
        """A place for a question; what lies below the level by more than an agent climbs is on no floor."""
        spot = self.spot(x, y, z)
        floor = spot.y + 1
        is_off = floor < -self.mesh.setting.climb or floor > NO_FLOOR
        return navd.Place(spot.x, spot.z, NO_FLOOR if is_off else max(0, floor))

    def metres(self, at):
        told, count = navd._WorldPoint(), c_size_t()
        self.calls.navd_dequantize(byref(self.frame), byref(navd._FramePlace(at.x, at.y - 1, at.z)), 1, byref(told), 1, byref(count))
        return f"({told.x:.2f} {told.y:.2f} {told.z:.2f})"

    def length(self, sixteenths):
        return sixteenths / 16 * self.frame.cell_size

    def heights(self, low, high):
        """The floors on which an agent would stand in what reaches from one height to the other."""
        first = steps(low, self.frame.cell_height, 256, False) - self.frame.y + 1
        last = steps(high, self.frame.cell_height, 256, True) - self.frame.y + 1
        last, first = max(last - 1, first), first - self.mesh.setting.height
        return (MOST_HEIGHT, MOST_HEIGHT) if last < 0 or first > MOST_HEIGHT else (max(0, first), min(MOST_HEIGHT, last))

    def remove(self, name):
        self.level.remove(self.obstacles.pop(name))
        self.is_shown = False

    def put(self, name, shape):
        if name in self.obstacles:
            self.remove(name)
        add = self.level.add_disc if isinstance(shape, navd.Disc) else self.level.add_prism
        self.obstacles[name], self.is_shown = add(shape), False

    def box(self, x, y, z, half_x, half_y, half_z, degrees=0.0):
        middle, part = self.spot(x, y, z), self.frame.cell_size / 16
        return navd.turned_box((middle.x, middle.z), (half_x / part, half_z / part), math.radians(degrees), self.heights(y - half_y, y + half_y))

    def cylinder(self, x, y, z, radius, half):
        middle, part = self.spot(x, y, z), self.frame.cell_size / 16
        return navd.Disc(middle.x, middle.z, math.ceil(radius / part + 0.75), self.heights(y - half, y + half))

    def show(self):
        if not self.is_shown:
            self.level.settle()
            self.view.look(self.level)
            self.is_shown = True

    def plan(self, start, goal):
        return self.view.plan(start, goal, partial=min(1024, round(16 * self.frame.cell_height / self.frame.cell_size)))

    def nearest(self, place):
        """The nearest floor, in words."""
        weight = round(16 * self.frame.cell_height / self.frame.cell_size)
        found = self.view.nearest(place, reach=4096, down=ANY_HEIGHT, up=ANY_HEIGHT, weight=weight)
        return f"no floor is at {self.metres(place)}" + (f", the nearest is at {self.metres(found.at)}" if found else "")


# == Cases: each gives None where it holds, and else what is so ==


def held(ground, *places):
    """What is wrong with places on which an agent cannot stand."""
    for place in places:
        if isinstance(ground.view.plan(place, place), navd.NoPath):
            return ground.nearest(place)
    return None


def way(ground, start, goal):
    """The path from one place to the other, or None; and what is wrong with one of them, or where the way ends."""
    if wrong := held(ground, start, goal):
        return None, wrong
    path = ground.plan(start, goal)
    if isinstance(path, navd.Partial):
        return None, f"no walk leads there; it ends at {ground.metres(path.end.at)}"
    return path, None


def stand(ground, place):
    return held(ground, place)


def outside(ground, place):
    return None if held(ground, place) else "an agent can stand there"


def reach(ground, start, goal):
    return way(ground, start, goal)[1]


def apart(ground, start, goal):
    if wrong := held(ground, start, goal):
        return wrong
    path = way(ground, start, goal)[0]
    return f"a walk leads there, which costs {ground.length(path.cost):.2f}" if path else None


def within(ground, most, start, goal):
    path, wrong = way(ground, start, goal)
    return wrong if wrong else None if ground.length(path.cost) <= most else f"the cheapest walk costs {ground.length(path.cost):.2f}"


def longer(ground, least, start, goal):
    if wrong := held(ground, start, goal):
        return wrong
    path = way(ground, start, goal)[0]
    return f"a walk leads there, which costs {ground.length(path.cost):.2f}" if path and ground.length(path.cost) <= least else None


def ends_at_wall(ground, start, goal):
    """The ray's end, and what is wrong with its start."""
    wrong = held(ground, start)
    return (None, wrong) if wrong else (ground.view.cast_ray(start, goal), None)


def see(ground, start, goal):
    ray, wrong = ends_at_wall(ground, start, goal)
    if wrong or not isinstance(ray, navd.Wall):
        return wrong
    part = ray.num / ray.den
    at = navd.Place(round(start.x + (goal.x - start.x) * part), round(start.z + (goal.z - start.z) * part), start.y)
    return f"a wall stands at {ground.metres(at)}"


def hidden(ground, start, goal):
    ray, wrong = ends_at_wall(ground, start, goal)
    return wrong if wrong or isinstance(ray, navd.Wall) else "the straight walk comes there"


ONE, TWO = {"stand": stand, "outside": outside}, {"reach": reach, "apart": apart, "see": see, "hidden": hidden}
COST = {"within": within, "longer": longer}


def judged(ground, line, word, words):
    """What is so where a case does not hold, or None."""
    count = 3 if word in ONE else 6 if word in TWO else 7
    found = numbers(line, words, count)
    costs, parts = found[:count % 3], found[count % 3:]
    ground.show()
    places = [ground.place(*parts[at:at + 3]) for at in range(0, len(parts), 3)]
    return {**ONE, **TWO, **COST}[word](ground, *costs, *places)


def change(ground, line, word, words):
    """Puts an obstacle up, moves it or takes it down."""
    name, *rest = words or [""]
    if word == "remove":
        if name not in ground.obstacles or rest:
            raise Trouble(f"line {line} of the cases removes no obstacle that is there")
        ground.remove(name)
    else:
        ground.put(name, ground.box(*numbers(line, rest, 6, 7)) if word == "box" else ground.cylinder(*numbers(line, rest, 5)))


def run(ground, cases):
    """A line for each case that does not hold, and how many cases there are."""
    name, failed, count = "-", [], 0
    for line, word, words in cases:
        if word == "case" and len(words) == 1:
            name = words[0]
        elif word in ("box", "cylinder", "remove"):
            change(ground, line, word, words)
        elif word in ONE or word in TWO or word in COST:
            count += 1
            if what := judged(ground, line, word, words):
                failed.append(f"failed {line} {name} {word}: {what}")
        else:
            raise Trouble(f"line {line} of the cases begins with no word that is known: {word[:40]!r}")
    return failed, count


def main(words):
    if len(words) != 2:
        print(__doc__.strip(), file=sys.stderr)
        return 2
    try:
        with open(words[0], encoding="utf-8", errors="replace") as level, open(words[1], encoding="utf-8") as lines:
            settings, cases = read_cases(lines)
            ground = Ground(*read_obj(level), settings)
        failed, count = run(ground, cases)
    except (Trouble, OSError, navd.NavdError) as error:
        print(f"navd_check: {error}", file=sys.stderr)
        return 1
    print("\n".join([*failed, f"cases {count} failed {len(failed)}"]))
    return FAILED if failed else 0


if __name__ == "__main__":
    sys.exit(main(sys.argv[1:]))
