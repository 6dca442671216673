#!/usr/bin/env python3
"""Says in words what is wrong with an input: the line of its fault, what was expected there, and why.

The program navd tells a fault as `fault LINE KIND`. This asks it for the fault of an input, or takes one by --fault, and prints the line
and one sentence, and a way out where the level is too large. A text with `tri` lines is taken for one of `navd raster`. docs/FORMATS.md
has the grammar and the kinds.
"""
import argparse
import os
import subprocess
import sys

from frames import MOST_COLUMNS, read_frame, ways_out
from inputs import HERE, Trouble, read_input

PROGRAM = os.path.join(HERE, "..", "crates", "navd", "out", "navd")

# For each kind its name, and what is wrong with a line of that kind.
KINDS = {
    1: ("Form", "the line has none of the forms that may stand here; its words are separated by one space each, and its numbers spelled without sign and leading zero"),
    2: ("Range", "a number of the line is outside its limits"),
    3: ("Order", "the line does not come after the one before it: areas of `cost` lines rise, and spans stand by Z, then by X, then from the bottom up"),
    4: ("Overlap", "the span begins below the top of the span before it in its column"),
    5: ("Climb", "the climb, the second number, is not below the height, the first"),
    6: ("TooMany", "2000000 spans stand before this line, as many as a field may have"),
    7: ("Unfinished", "the text ends inside this line or before the line `script`: each line, also the last, ends with a line feed, and a script stands behind the field"),
    8: ("Line", "the line has none of the forms of a script line; its words are separated by one space each, and its numbers spelled without sign and leading zero"),
    9: ("Lane", "the lane or the worker of the line is not below its count in the line `script`"),
    10: ("BeforeAdd", "the line takes away what the lane's J-th `add` line added, and fewer than J such lines of this lane stand before it"),
    11: ("TooManyLines", "as many lines as a script may have stand before this one: 300000 behind `script`, or, for `live`, 262144 that add or take away"),
    12: ("TooManyJumps", "256 `jump` lines stand before this one, as many as a script may have"),
}
# The kind that texts of triangles have in place of TooMany.
TRIANGLE_KINDS = {13: ("TooManyTriangles", "100000 triangles stand before this line, as many as a triangle text may have")}
LARGER = "larger cells, or a part of the level, would fit (--cell-size and --crop of tools/obj2tri.py)"

# The forms of lines, with their limits.
FORMS = {
    "nav": "nav 1 or nav 2",
    "size": "size WIDTH DEPTH, each 1 to 1024",
    "tile": "tile SIDE, 4 to 128",
    "agent": "agent HEIGHT CLIMB RADIUS, HEIGHT 1 to 255, CLIMB 0 to 254 and below HEIGHT, RADIUS 0 to 15",
    "error": "error E, 0 to 10000",
    "mesh": "mesh strips or mesh contours",
    "limit": "limit LIVE, 1 to 1024",
    "clear": "clear V, 0 or 1, and 1 only where the side of a tile is at least twice the radius",
    "cost": "cost AREA COST, AREA 1 to 63 and above the one before, COST 1 to 1000",
    "span": "span X Z BOTTOM TOP AREA, X and Z in the field, BOTTOM below TOP, TOP at most 8191, AREA 0 to 63",
    "tri": "tri X Y Z X Y Z X Y Z AREA, X and Z at most 16384 (sixteenths of a cell), Y at most 8190, AREA 0 to 63",
    "end": "end",
    "script": "script LANES WORKERS, LANES 1 to 16, WORKERS 1 to 8",
    "lane": "lane I, I below LANES",
    "add": "add block X0 X1 Y0 Y1 Z0 Z1 or add cylinder CX CZ R Y0 Y1, with area A, 1 to 63, behind add where it sets an area; X and Z at most 1023, Y at most 8191, CX and CZ at most 2048, R at most 1023, no range backwards",
    "remove": "remove N",
    "drop": "drop J, J at least 1",
    "floor": "floor X Z, each at most 1023",
    "path": "path X Z Y X Z Y, X and Z at most 16384 (sixteenths of a cell), Y at most 8191",
    "ray": "ray X Z Y X Z, X and Z at most 16384 (sixteenths of a cell), Y at most 8191",
    "settle": "settle",
    "aim": "aim",
    "publish": "publish",
    "claim": "claim W, W below WORKERS",
    "back": "back W, W below WORKERS",
    "submit": "submit W, W below WORKERS",
    "jump": "jump X Z Y X Z Y COST, X and Z at most 16384 (sixteenths of a cell), Y at most 8191, COST 1 to 1000000",
    "hop": "hop X Z Y X Z Y, X and Z at most 16384 (sixteenths of a cell), Y at most 8191",
    "send": "send X Z Y X Z Y, X and Z at most 16384 (sixteenths of a cell), Y at most 8191",
    "march": "march L, 1 to 65535 (sixteenths of a cell)",
}
# What may follow the lines of a field, by their first words; behind `script` the lines of a script follow.
AFTER = {
    None: ["nav"],
    "nav": ["size"],
    "size": ["tile"],
    "tile": ["agent"],
    "agent": ["error"],
    "error": ["mesh"],
    "mesh": ["limit"],
    "limit": ["cost", "span", "end"],
    "clear": ["cost", "span", "end"],
    "cost": ["cost", "span", "end"],
    "span": ["span", "end"],
    "end": ["script"],
}
# What follows in a triangle text: triangles stand in the place of spans, and nothing behind `end`.
AFTER_TRIANGLES = {word: [form if form != "span" else "tri" for form in forms] for word, forms in AFTER.items() if word not in ("span", "end")}
AFTER_TRIANGLES["tri"] = ["tri", "end"]
PLAYED = ["lane", "add", "remove", "drop", "floor", "path", "ray", "settle", "aim", "publish", "claim", "back", "submit", "jump", "hop"]
LIVED = [word for word in PLAYED if word not in ("aim", "publish", "claim", "back", "submit", "jump", "hop")] + ["send", "march"]


def first_word(line):
    return line.split(b" ")[0].decode("ascii", "replace")


def expected(lines, number, way):
    """The forms that may stand in a line, given the lines before it."""
    before = first_word(lines[number - 2]) if 2 <= number <= len(lines) + 1 else None
    if number > 1 and any(line.startswith(b"script ") for line in lines[: number - 1]):
        return LIVED if way == "live" else PLAYED
    if before == "limit" and lines[0] == b"nav 2":
        return ["clear"]
    return (AFTER_TRIANGLES if way == "raster" else AFTER).get(before, [])


def spelled(lines, number):
    """The line as it stands, with what cannot be seen made visible."""
    if number > len(lines):
        return "(the text ends before this line)"
    line = lines[number - 1]
    text = line.decode("ascii", "backslashreplace") if len(line) <= 200 else line[:200].decode("ascii", "backslashreplace") + " .."
    return repr(text)[1:-1] if text else "(an empty line)"


def explain(lines, number, kind, way="play", frame=None):
    """The words for a fault, one line each."""
    kinds = {**KINDS, **TRIANGLE_KINDS}
    if kind not in kinds:
        raise Trouble(f"there is no kind of fault {kind}; the kinds are 1 to {max(kinds)}")
    name, why = kinds[kind]
    words = [f"line {number}: {spelled(lines, number)}", f"kind {kind}, {name}: {why}."]
    due = expected(lines, number, way)
    here = first_word(lines[number - 1]) if number <= len(lines) else ""
    forms = [here] if kind not in (1, 7, 8) and here in FORMS else due
    if forms:
        words.append("expected here: " + "; or ".join(FORMS[form] for form in forms))
    return words + way_out(lines, number, kind, here, frame)


def way_out(lines, number, kind, here, frame):
    """What makes a level fit that is too large, in one line; none where it is not."""
    if kind == 2 and here == "size":
        size = [int(word) for word in lines[number - 1].split(b" ")[1:] if word.isdigit()]
        return [f"a way out: {ways_out(size, frame)}"] if len(size) == 2 and max(size) > MOST_COLUMNS else []
    return [f"a way out: {LARGER}"] if kind in (6, 13) else []


def told(navd, way, data):
    """The fault that navd tells of an input, as its line and its kind; None where it tells none."""
    if not os.access(navd, os.X_OK):
        raise Trouble(f"there is no program {os.path.relpath(navd)}: build it by `cd crates/navd && rt run -- play < stdin`, name it by --program, or give --fault")
    ran = subprocess.run([navd, way], input=data, capture_output=True)
    first = ran.stdout.split(b"\n")[0].decode("ascii", "replace")
    if first == "fault too long":
        raise Trouble("the input has more than 67108864 bytes")
    if first == "fault too many spans":
        raise Trouble(f"the triangles give more than 2000000 spans; {LARGER}")
    if first.startswith("fault "):
        return tuple(int(word) for word in first.split(" ")[1:])
    if ran.returncode != 0:
        raise Trouble(f"navd ended with status {ran.returncode} and tells no fault")
    return None


def way_of(words, lines):
    """The word of navd that the input is for."""
    is_raster = words.raster or any(line.startswith(b"tri ") for line in lines)
    return "live" if words.live else "raster" if is_raster else "play"


def arguments():
    parser = argparse.ArgumentParser(description=__doc__, formatter_class=argparse.RawDescriptionHelpFormatter)
    parser.add_argument("input", help="an input of navd")
    parser.add_argument("--fault", type=int, nargs=2, metavar=("LINE", "KIND"), help="explain this fault of the input, and ask no program")
    parser.add_argument("--live", action="store_true", help="take the input as one of `navd live`, not of `navd play`")
    parser.add_argument("--raster", action="store_true", help="take the input as one of `navd raster`, as is done where it has a `tri` line")
    parser.add_argument("--frame", metavar="FILE", help="the frame that tools/obj2tri.py --frame wrote: a way out is told in the numbers of the level's file")
    parser.add_argument("--program", metavar="FILE", help="the built program navd (default crates/navd/out/navd)")
    return parser.parse_args()


def main():
    words = arguments()
    try:
        lines = read_input(words.input)
        frame = read_frame(words.frame) if words.frame else None
        way = way_of(words, lines)
        if words.fault:
            fault = tuple(words.fault)
            if not 1 <= fault[0] <= len(lines) + 1:
                raise Trouble(f"the input has {len(lines)} lines, and none is number {fault[0]}")
        else:
            with open(words.input, "rb") as file:
                navd = words.program or os.environ.get("NAVD") or PROGRAM
                fault = told(navd, way, file.read())
        if fault is None:
            print("the input is in the grammar: navd tells no fault")
        else:
            print("\n".join(explain(lines, *fault, way, frame)))
    except Trouble as trouble:
        sys.exit(f"explain.py: {trouble}")


if __name__ == "__main__":
    main()
