"""Turns script lines with places of a level's file into those of navd, and navd's answers back.

A place is the three numbers that the file would have for it. Words that are no places, counts, costs and names, stay as they are, and so
do lines of other kinds.
"""
import math

from frames import MOST_COLUMNS, MOST_FLOOR, NOTHING, PARTS, short
from inputs import Trouble

# The forms of lines with places, as they are written for --to-cells.
FORMS = {
    "path": "path X Y Z X Y Z",
    "hop": "hop X Y Z X Y Z",
    "send": "send X Y Z X Y Z",
    "ray": "ray X Y Z X Y Z",
    "jump": "jump X Y Z X Y Z COST",
    "floor": "floor X Y Z",
    "march": "march LENGTH",
    "block": "add block X Y Z X Y Z, two corners",
    "cylinder": "add cylinder X Y Z RADIUS HEIGHT, X Y Z the middle of its foot",
}


def to_cells(line, frame):
    """A script line whose places are those of the file, as navd reads it."""
    words = line.split()
    if words[:1] == ["add"]:
        return add_line(words[1:], frame)
    word = words[0] if words else ""
    if word not in FORMS:
        return " ".join(words)
    numbers = given(words[1:], word)
    if word == "march":
        return f"march {max(1, round(numbers[0] * frame.scale / frame.cell_size * PARTS))}"
    first = spot(numbers[:3], frame)
    if word == "floor":
        return f"floor {first[0] // PARTS} {first[1] // PARTS}"
    second = spot(numbers[3:6], frame)
    ends = first + (second[:2] if word == "ray" else second)
    return " ".join([word, *map(str, ends), *words[7:]])


def given(words, word):
    """The numbers of a line, as many as its form has."""
    form = FORMS[word]
    count = sum(name.isupper() for name in form.split(",")[0].split())
    try:
        numbers = [float(text) for text in words]
    except ValueError:
        numbers = []
    if len(numbers) != count or not all(map(math.isfinite, numbers)):
        raise Trouble(f"a line was due of the form {form}")
    return numbers


def spot(place, frame):
    """A place of the file as X and Z in sixteenths of a cell and the floor that lies there."""
    x, z, height = (round(part) for part in frame.sixteenths(place))
    for part, columns in ((x, frame.size[0]), (z, frame.size[1])):
        if not 0 <= part <= columns * PARTS:
            raise Trouble(f"the place {spelled(place)} lies outside the field, {extent(frame)}")
    if not 0 <= height + 1 <= MOST_FLOOR:
        raise Trouble(f"the place {spelled(place)} lies {'below' if height < 0 else 'above'} all heights, {extent(frame)}")
    return [x, z, height + 1]


def spelled(place):
    return " ".join(map(short, place))


def extent(frame):
    """Which places of the file the field has."""
    low, high = frame.flat(0, 0), frame.flat(*(PARTS * part for part in frame.size))
    names = "xz" if frame.up == "y" else "xy"
    level = ", ".join(f"{name} {short(min(a, b))} to {short(max(a, b))}" for name, a, b in zip(names, low, high))
    return f"which has {level} and heights from {short(frame.height(1))} to {short(frame.height(MOST_FLOOR))}"


def add_line(words, frame):
    """A block or a cylinder; one that stops agents stops those that would touch it with any part of their height."""
    head = ["add"]
    if words[:1] == ["area"] and len(words) > 2:
        head, words = head + words[:2], words[2:]
    if words[:1] not in (["block"], ["cylinder"]):
        raise Trouble(f"an add line was due of the form {FORMS['block']}, or {FORMS['cylinder']}")
    numbers = given(words[1:], words[0])
    stops = len(head) == 1
    shape = block(numbers, stops, frame) if words[0] == "block" else cylinder(numbers, stops, frame)
    return " ".join(head + [words[0], *map(str, shape)])


def block(numbers, stops, frame):
    """The columns that a box shares ground with, and the floors from which an agent touches it."""
    ends = [frame.sixteenths(place) for place in (numbers[:3], numbers[3:])]
    x, z, height = [(min(pair), max(pair)) for pair in zip(*ends)]
    return columns(x, frame.size[0], frame) + floors(*height, stops, frame) + columns(z, frame.size[1], frame)


def columns(ends, size, frame):
    first, last = math.floor(ends[0] / PARTS + NOTHING), math.ceil(ends[1] / PARTS - NOTHING) - 1
    if last < 0 or first >= size:
        raise Trouble(f"the block stands outside the field, {extent(frame)}")
    return [max(0, first), min(max(first, last), MOST_COLUMNS - 1)]


def floors(low, high, stops, frame):
    """The floors that a shape covers, whose foot and head are at such heights in units."""
    if stops:
        low, high = math.floor(low - frame.agent_height / frame.cell_height + NOTHING) + 2, math.ceil(high - NOTHING)
    else:
        low, high = round(low) + 1, round(high) + 1
    if high < 0 or low > MOST_FLOOR:
        raise Trouble("the shape stands below or above all heights of the field")
    return [max(0, low), min(max(low, high), MOST_FLOOR)]


def cylinder(numbers, stops, frame):
    """A cylinder by half cells and cells: it covers the cells whose middles lie in it."""
    x, z, low = frame.sixteenths(numbers[:3])
    radius, height = (part * frame.scale for part in numbers[3:])
    centre = [round(part / (PARTS / 2)) for part in (x, z)]
    if not all(0 <= part <= 2 * MOST_COLUMNS for part in centre):
        raise Trouble(f"the cylinder stands outside the field, {extent(frame)}")
    cells = max(0, math.ceil(radius / frame.cell_size - 0.5 - NOTHING))
    return centre + [cells] + floors(low, low + height / frame.cell_height, stops, frame)


# Where the pairs X and Z stand in the lines of answers, by their first words.
PAIRS = {"link": (3, 5), "turn": (1,), "wall": (2, 4), "walker": (4,)}


def to_metres(line, frame):
    """A line that navd answers, with its places and heights in the numbers of the file."""
    words = line.split(" ")
    if words[0] == "floors" and len(words) >= 3:
        words[3::2] = [short(frame.height(int(floor))) for floor in words[3::2]]
    for at in PAIRS.get(words[0], ()):
        if at + 1 < len(words):
            words[at : at + 2] = map(short, frame.flat(int(words[at]), int(words[at + 1])))
    return " ".join(words)
