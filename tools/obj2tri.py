#!/usr/bin/env python3
"""Makes a triangle text for `navd raster` from a Wavefront OBJ file, and turns the file's numbers into navd's and back.

    tools/obj2tri.py --frame level.frame level.obj | navd raster > level.nav
    (cat level.nav; echo 'script 1 1'; echo 'path 1.5 0 2 30 3.5 12' | tools/obj2tri.py --frame level.frame --to-cells) |
        navd play | tools/obj2tri.py --frame level.frame --to-metres

The model is measured in cells (x and z, to a sixteenth) and height units, from its least x, height and z. With `--up y` the file's x, y and
z are x, height and z; with `--up z` they are x, z backward and height. Lengths, of cells and of the agent, are in the units of the file
after `--scale`; places, in --crop, --inside, --to-cells and --to-metres, are the file's own numbers.

An area is a number from 0 to 63; 0 is not walkable. A triangle has the area of its material (`usemtl`), else of its object or group (`o`,
`g`), else the default; where it is steeper than the slope, or seen from above it runs clockwise (its back is up), it has area 0.

An upright wall on a line between columns lies inside no column, and `navd raster` lets it vanish. So the model is moved by 0 to 15 sixteenths
of a cell along x and along z, by as many as leave the least length of walls on such lines. What was done is told on standard error.
"""
import argparse
import math
import sys

import walls
from frames import MOST_COLUMNS, MOST_HEIGHT, PARTS, Frame, read_frame, rounded_up, short, turned, turned_back, ways_out, write_frame
from inputs import Trouble
from inside import Field
from points import spot, to_cells, to_metres
from wavefront import cropped, read, triangles

MOST_TRIANGLES = 100000


def tell(text):
    print(f"obj2tri: {text}", file=sys.stderr)


def named_number(text):
    name, found, number = text.rpartition("=")
    if not found or not number.isdigit():
        raise argparse.ArgumentTypeError(f"{text!r} is not of the form NAME=NUMBER")
    return name, int(number)


def arguments():
    parser = argparse.ArgumentParser(description=__doc__, formatter_class=argparse.RawDescriptionHelpFormatter)
    add_level(parser.add_argument_group("the level"))
    add_agent(parser.add_argument_group("the agent and the mesh"))
    add_frame(parser.add_argument_group("the frame, and what is done with one"))
    given = parser.parse_args()
    for name in ("scale", "cell_size", "cell_height"):
        if not getattr(given, name) > 0:
            parser.error(f"--{name.replace('_', '-')} must be above 0")
    for name, area in given.area + [("--default-area", given.default_area)]:
        if not 0 <= area <= 63:
            parser.error(f"{name}: area {area} is not within 0 to 63")
    if given.margin < 0:
        parser.error("--margin must be 0 or more")
    if given.shift and not all(0 <= part < PARTS for part in given.shift):
        parser.error("--shift takes two numbers from 0 to 15, in sixteenths of a cell")
    given.filter = given.to_cells or given.to_metres or given.inside
    if given.filter and not given.frame:
        parser.error("--to-cells, --to-metres and --inside need the frame of the level: --frame FILE, as --frame FILE wrote it with the OBJ file")
    if not given.filter and not given.file:
        parser.error("an OBJ file is needed, or - for standard input")
    return given


def add_level(group):
    add = group.add_argument
    add("file", nargs="?", help="the OBJ file, or - for standard input")
    add("--scale", type=float, default=1.0, help="what the file's numbers are multiplied by (default %(default)s)")
    add("--up", choices="yz", default="y", help="the axis that is up (default %(default)s)")
    add("--cell-size", type=float, default=0.3, help="side of a cell (default %(default)s)")
    add("--cell-height", type=float, default=0.2, help="a height unit (default %(default)s)")
    add("--slope", type=float, default=45.0, help="the steepest walkable slope in degrees (default %(default)s)")
    add("--both-sides", action="store_true", help="a triangle's back is walkable too, for models that are not wound one way")
    add("--area", type=named_number, action="append", default=[], metavar="NAME=AREA", help="the area of a material, object or group")
    add("--default-area", type=int, default=63, metavar="AREA", help="the area of what no --area names (default %(default)s)")
    add("--cost", type=named_number, action="append", default=[], metavar="AREA=COST", help="what a step over an area costs, 1 to 1000")
    add("--crop", type=float, nargs=4, metavar=("X", "Z", "X", "Z"), help="take only what lies between two corners; with --up z, x y x y")
    add("--crop-heights", type=float, nargs=2, metavar=("LOW", "HIGH"), help="take only what lies between two heights")
    told = "(default: what leaves the least length of walls on lines between columns)"
    add("--shift", type=int, nargs=2, metavar=("DX", "DZ"), help=f"move the model by so many sixteenths of a cell, 0 to 15 {told}")
    told = "so that floors at its rim are no ledges; 0: none (default %(default)s)"
    add("--margin", type=int, default=1, metavar="COLUMNS", help=f"columns round the model, with a wall in them, {told}")


def add_agent(group):
    add = group.add_argument
    add("--agent-height", type=float, default=2.0, help="(default %(default)s)")
    add("--agent-climb", type=float, default=0.9, help="the highest step (default %(default)s)")
    add("--agent-radius", type=float, default=0.6, help="(default %(default)s)")
    add("--clear", action="store_true", help="agents keep their radius from obstacles too")
    told = "how far outlines may stray, in cells; above 0.7 tiles with narrow places become strips (default %(default)s)"
    add("--error", type=float, default=0.7, help=told)
    add("--tile", type=int, default=48, help="columns a tile's side, 4 to 128 (default %(default)s)")
    add("--mesh", choices=("contours", "strips"), default="contours", help="(default %(default)s)")
    add("--limit", type=int, default=64, help="how many obstacles may be alive at once, 1 to 1024 (default %(default)s)")


def add_frame(group):
    add = group.add_argument
    told = "how the file's numbers and navd's belong together; with one of the options below: read it"
    add("--frame", metavar="FILE", help=f"write the frame as JSON: {told}")
    told = "with places of the file (`path X Y Z X Y Z`), into those of navd"
    add("--to-cells", action="store_true", help=f"turn script lines on standard input, {told}")
    add("--to-metres", action="store_true", help="turn what navd answers, on standard input, into the file's numbers")
    told = "leave areas only to what can be reached from this place, or one of several"
    add("--inside", type=float, nargs=3, action="append", metavar=("X", "Y", "Z"), help=f"in what navd raster wrote, on standard input, {told}")


def agent_numbers(given):
    """The agent's height, climb and radius, in height units and cells; a floor is a unit thick, which the height makes up for."""
    exact = math.ceil(given.agent_height / given.cell_height - 1e-9)
    height = max(1, exact - 1)
    climb = math.floor(given.agent_climb / given.cell_height + 1e-9)
    radius = math.ceil(given.agent_radius / given.cell_size - 1e-9)
    least_height, least_size = given.agent_height / 256, given.agent_radius / 15
    for what, value, low, high, way in (
        ("--agent-height", exact, 1, 256, f"--cell-height {rounded_up(least_height)} would fit"),
        ("--agent-climb", climb, 0, min(254, height - 1), f"a climb is below the height of the agent, {height} units"),
        ("--agent-radius", radius, 0, 15, f"--cell-size {rounded_up(least_size) if least_size > 0 else 1} would fit"),
    ):
        if not low <= value <= high:
            unit = "cells" if what == "--agent-radius" else "height units"
            raise Trouble(f"{what} is {value} {unit} and must be {low} to {high}: {way}")
    units = f"{exact} units of {short(given.cell_height)}; the text says {height}, since a floor is one unit thick"
    tell(f"the agent's height of {short(given.agent_height)} is {units}")
    return height, climb, radius


def header(size, agent, given):
    """The lines of the triangle text before its triangles."""
    error = round(100 * given.error * given.error)
    least_tile = max(4, 2 * agent[2] * given.clear)
    for what, value, low, high in (("--error", error, 0, 10000), ("--tile", given.tile, least_tile, 128), ("--limit", given.limit, 1, 1024)):
        if not low <= value <= high:
            raise Trouble(f"{what}{', squared, in hundredths,' * (what == '--error')} is {value} and must be {low} to {high}")
    lines = [f"nav {1 + given.clear}", f"size {size[0]} {size[1]}", f"tile {given.tile}", "agent {} {} {}".format(*agent), f"error {error}"]
    lines += [f"mesh {given.mesh}", f"limit {given.limit}"] + ["clear 1"] * given.clear
    costs = {}
    for area, cost in given.cost:
        if not area.isdigit() or not 1 <= int(area) <= 63 or not 1 <= cost <= 1000:
            raise Trouble(f"--cost {area}={cost}: areas are 1 to 63 and costs 1 to 1000")
        costs[int(area)] = cost
    return lines + [f"cost {area} {cost}" for area, cost in sorted(costs.items())]


def box_of(given):
    """The crop as pairs of a low and a high end along x, height and z."""
    a, b, c, d = given.crop or (-math.inf, -math.inf, math.inf, math.inf)
    low, high = given.crop_heights or (-math.inf, math.inf)
    places = ((a, low, b), (c, high, d)) if given.up == "y" else ((a, b, low), (c, d, high))
    corners = [turned([part * given.scale for part in place], given.up) for place in places]
    return [(min(pair), max(pair)) for pair in zip(*corners)]


def read_model(given):
    """The triangles of the file, what of them the crop leaves."""
    try:
        with sys.stdin if given.file == "-" else open(given.file, encoding="utf-8", errors="replace") as file:
            model = read(file)
    except OSError as error:
        raise Trouble(f"{given.file}: {error.strerror}") from error
    found, unused = triangles(model, given)
    known = ", ".join(sorted({word for _, *names in model.faces for word in names if word})[:20]) or "no names"
    for name in unused:
        tell(f"no face is of {name!r}, which --area names; the file has {known}")
    low, high = extremes(found)
    if given.crop or given.crop_heights:
        found = cropped(found, box_of(given))
        if not found:
            raise Trouble(f"nothing of the model lies in what --crop leaves: {reach(low, high, given)}")
    return found


def reach(low, high, given):
    """From where to where the model reaches, in the file's numbers."""
    places = [[part / given.scale for part in turned_back(point, given.up)] for point in (low, high)]
    return "the model reaches from " + ", ".join(f"{name} {short(min(pair))} to {short(max(pair))}" for name, pair in zip("xyz", zip(*places)))


def extremes(found):
    """The least and the greatest x, height and z."""
    return [[pick(corner[axis] for three, _ in found for corner in three) for axis in range(3)] for pick in (min, max)]


def measured(found, low, given):
    """The triangles in whole sixteenths of a cell and height units from a corner on."""
    wide, high = given.cell_size / PARTS, given.cell_height
    cell = lambda point: (round((point[0] - low[0]) / wide), round((point[1] - low[1]) / high), round((point[2] - low[2]) / wide))
    return [(tuple(cell(corner) for corner in three), area) for three, area in found]


def shift_of(cells, climb, low, given):
    """How many sixteenths of a cell the model is moved along x and z, with what that leaves on lines between columns told."""
    both = walls.upright([three for three, _ in cells])
    left = [walls.lengths(found, climb) for found in both]
    least = [found.index(min(found)) for found in left]
    shift = given.shift or least
    for axis, name in enumerate(("x", "z" if given.up == "y" else "y")):
        lengths = [count * given.cell_size for count in left[axis]]
        at = shift[axis]
        why = "as --shift says" if given.shift else f"unmoved {short(lengths[0])}"
        tell(f"moved along {name} by {at}/16 of a cell: the length of walls on lines between columns is {short(lengths[at])} ({why})")
        if lengths[at]:
            place = low[2 * axis] + walls.longest(both[axis], climb, at) * given.cell_size / PARTS
            sign = -1 if (given.up, axis) == ("z", 1) else 1
            better = f"--shift {least[0]} {least[1]} would leave {short(lengths[least[axis]])}"
            way = better if lengths[least[axis]] < lengths[at] else "another --cell-size may leave none"
            longest = f"{name} {short(sign * place / given.scale)}"
            tell(f"WARNING: navd raster lets these walls vanish, and paths lead through them; the longest stands at {longest}; {way}")
    return list(shift)


def fence(size, margin, top):
    """Walls round the model in the middle of its margin's innermost columns, as triangles without area."""
    inner = PARTS * (margin - 1) + PARTS // 2
    x, z = (PARTS * part - inner for part in size)
    corners = [(inner, inner), (x, inner), (x, z), (inner, z)]
    found = []
    for (x0, z0), (x1, z1) in zip(corners, corners[1:] + corners[:1]):
        low, high = [(x0, 0, z0), (x1, 0, z1)], [(x0, top, z0), (x1, top, z1)]
        found += [((low[0], low[1], high[0]), 0), ((low[1], high[1], high[0]), 0)]
    return found


def placed(cells, shift, given):
    """The triangles as they stand in the field, and the field's columns."""
    move = [PARTS * given.margin + part for part in shift]
    cells = [(tuple((x + move[0], y, z + move[1]) for x, y, z in three), area) for three, area in cells]
    ends = [max(corner[axis] for three, _ in cells for corner in three) for axis in (0, 2)]
    return cells, [max(1, -(-end // PARTS)) + given.margin for end in ends]


def check_sizes(frame, count, height, found, given):
    """Trouble, with a way out, where the level is too large for navd."""
    if max(frame.size) > MOST_COLUMNS:
        raise Trouble(ways_out(frame.size, frame))
    if height > MOST_HEIGHT:
        fits = rounded_up(height * given.cell_height / MOST_HEIGHT)
        raise Trouble(f"the model is {height} height units high, and may be {MOST_HEIGHT}: --cell-height {fits} would fit")
    if count > MOST_TRIANGLES:
        raise Trouble(f"{count} triangles are more than {MOST_TRIANGLES}: {smaller_crop(frame, found)}")


def smaller_crop(frame, found):
    """The words of a crop round the middle that leaves few enough triangles."""
    low, high = extremes(found)
    boxes = [[pick(corner[axis] for corner in three) for pick in (min, max) for axis in (0, 2)] for three, _ in found]
    middle = [(low[axis] + high[axis]) / 2 for axis in (0, 2)]
    share = 1.0
    while share > 0.01:
        share *= 0.9
        half = [(high[axis] - low[axis]) / 2 * share for axis in (0, 2)]
        # A cut triangle becomes up to three.
        hits = sum(3 - 2 * (all(at - side <= a and b <= at + side for a, b, at, side in zip(box, box[2:], middle, half)))
            for box in boxes if all(b >= at - side and a <= at + side for a, b, at, side in zip(box, box[2:], middle, half)))
        if hits <= MOST_TRIANGLES - 8:
            ends = [frame.place((middle[0] + sign * half[0], 0, middle[1] + sign * half[1])) for sign in (-1, 1)]
            level = sorted(end[0] for end in ends), sorted(end[2 if frame.up == "y" else 1] for end in ends)
            return "--crop " + " ".join(short(round(pair[at], 3)) for at in (0, 1) for pair in level) + " would fit, the middle of the model"
    return "leave out what nobody walks on or into"


def convert(given):
    """The triangle text of the file."""
    found = read_model(given)
    agent = agent_numbers(given)
    low = extremes(found)[0]
    cells = measured(found, low, given)
    shift = shift_of(cells, agent[1], low, given)
    cells, size = placed(cells, shift, given)
    corner = [low[0] - (given.margin + shift[0] / PARTS) * given.cell_size, low[1], low[2] - (given.margin + shift[1] / PARTS) * given.cell_size]
    frame = Frame(given.up, given.scale, given.cell_size, given.cell_height, shift, given.margin, corner, size, given.agent_height)
    tell(frame.told())
    if given.frame:
        write_frame(frame, given.frame)
    top = max(corner[1] for three, _ in cells for corner in three)
    walkable = sum(area != 0 for _, area in cells)
    if given.margin:
        cells = cells + fence(size, given.margin, min(MOST_HEIGHT, top + agent[1] + agent[0]))
    check_sizes(frame, len(cells), top, found, given)
    rows = ["tri " + " ".join(str(part) for corner in three for part in corner) + f" {area}" for three, area in cells]
    sys.stdout.write("\n".join(header(size, agent, given) + rows + ["end"]) + "\n")
    tell(f"{len(cells)} triangles, {walkable} of them walkable, over {size[0]} by {size[1]} columns")
    doubt(walkable, size, agent, given)


def doubt(walkable, size, agent, given):
    """Warns of what looks like another axis, another way of winding, or another scale."""
    if not walkable:
        other = "z" if given.up == "y" else "y"
        wound = "does it wind its faces the other way (--both-sides)"
        tell(f"WARNING: nothing is walkable: is {other} up in the file (--up {other}), {wound}, or is every area 0?")
    if min(size) - 2 * given.margin <= 2 * agent[2] + 2:
        wide = f"{agent[2]} cells of {short(given.cell_size)} to each side"
        tell(f"WARNING: the model is hardly wider than the agent, {wide}: --scale is what the file's numbers are multiplied by")


def kept_inside(frame, given):
    field = Field(sys.stdin.read().splitlines())
    starts = [field.start(spot(place, frame), frame) for place in given.inside]
    found = field.reached(starts)
    lost = field.keep(found)
    sys.stdout.write("\n".join(field.lines()) + "\n")
    tell(f"{len(found)} spans are reached from there and stay walkable; {lost} others are walkable no more")


def turn_lines(change, frame):
    """Writes each line of standard input as it is changed."""
    for number, line in enumerate(sys.stdin, 1):
        try:
            print(change(line.rstrip("\n"), frame), flush=True)
        except Trouble as trouble:
            raise Trouble(f"line {number}: {line.strip()[:80]!r}: {trouble}") from trouble


def main():
    given = arguments()
    try:
        if not given.filter:
            convert(given)
            return
        frame = read_frame(given.frame)
        if given.inside:
            kept_inside(frame, given)
        else:
            turn_lines(to_cells if given.to_cells else to_metres, frame)
    except Trouble as trouble:
        sys.exit(f"obj2tri: {trouble}")


if __name__ == "__main__":
    main()
