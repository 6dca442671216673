"""The frame of a level: how the numbers of its file and those of navd's texts belong together.

A place of the file is its three numbers. Times the scale, and with the axis that is up in the middle, it is a point: x, height, z. The
frame's origin is the point of the corner of column (0, 0) at height 0. Columns are measured from there in cells, places in sixteenths of a
cell, and heights in height units. A floor is one unit thick: what lies at a height is a floor one unit above it, so heights have one added
on the way to navd and taken off on the way back.
"""
import json
import math
from dataclasses import asdict, dataclass

from inputs import Trouble

PARTS, MOST_COLUMNS, MOST_HEIGHT, MOST_FLOOR = 16, 1024, 8190, 8191
# A part of a sixteenth or of a unit that is taken for an error of floating numbers.
NOTHING = 1e-6


@dataclass
class Frame:
    up: str
    scale: float
    cell_size: float
    cell_height: float
    # How far the model is moved along x and z, in sixteenths of a cell, and how many columns stand round it.
    shift: list
    margin: int
    # The point of the field's corner, and the field's columns.
    origin: list
    size: list
    agent_height: float

    def point(self, place):
        """A place of the file as x, height and z."""
        return turned([part * self.scale for part in place], self.up)

    def place(self, point):
        """A point as a place of the file."""
        return tuple(part / self.scale for part in turned_back(point, self.up))

    def sixteenths(self, place):
        """X and Z of a place of the file in sixteenths of a cell, and its height in units, not rounded."""
        x, height, z = (part - low for part, low in zip(self.point(place), self.origin))
        return x / self.cell_size * PARTS, z / self.cell_size * PARTS, height / self.cell_height

    def flat(self, x, z):
        """The two level numbers of the file of X and Z in sixteenths of a cell: its x and z, or x and y where z is up."""
        point = self.origin[0] + x * self.cell_size / PARTS, 0, self.origin[2] + z * self.cell_size / PARTS
        place = self.place(point)
        return (place[0], place[2]) if self.up == "y" else place[:2]

    def height(self, floor):
        """The height in the file of a floor of navd."""
        return (self.origin[1] + (floor - 1) * self.cell_height) / self.scale

    def told(self):
        """The frame in one line."""
        level = "x and z" if self.up == "y" else "x and -y"
        corner = ", ".join(f"{name} {short(part)}" for name, part in zip("xyz", self.place(self.origin)))
        scale = "" if self.scale == 1 else f", its numbers times {short(self.scale)}"
        return (
            f"frame: {self.up} of the file is up{scale}; columns run along {level} in cells of {short(self.cell_size)}, heights in units of "
            f"{short(self.cell_height)}; moved by {self.shift[0]} and {self.shift[1]} sixteenths of a cell, a margin of {self.margin}; "
            f"the corner of column 0 0 at height 0 is {corner}"
        )


def turned(place, up):
    """A place of the file as x, height and z."""
    x, y, z = place
    return (x, y, z) if up == "y" else (x, z, -y)


def turned_back(point, up):
    """A point as its three numbers in the order of the file."""
    x, height, z = point
    return (x, height, z) if up == "y" else (x, -z, height)


def short(number):
    """A number in six digits at most behind the point, with no zeros at its end."""
    text = f"{number:.6f}".rstrip("0").rstrip(".")
    return "0" if text in ("", "-0") else text


def write_frame(frame, path):
    try:
        with open(path, "w", encoding="ascii") as file:
            json.dump(asdict(frame), file, indent=1)
            file.write("\n")
    except OSError as error:
        raise Trouble(f"{path} cannot be written: {error.strerror}") from error


def read_frame(path):
    try:
        with open(path, encoding="ascii") as file:
            return Frame(**json.load(file))
    except OSError as error:
        raise Trouble(f"{path} cannot be read: {error.strerror}") from error
    except (ValueError, TypeError) as error:
        raise Trouble(f"{path} is no frame that obj2tri.py --frame wrote") from error


def ways_out(size, frame=None):
    """How a field of so many columns, which is too wide, can be made to fit: a cell size, and a crop."""
    most = f"the field is {size[0]} by {size[1]} columns, and may be {MOST_COLUMNS} by {MOST_COLUMNS}"
    room = MOST_COLUMNS - 1 - (2 * frame.margin if frame else 0)
    inner = [part - 1 - 2 * frame.margin for part in size] if frame else size
    factor = max(inner) / room
    if frame is None:
        part = f"a part of {room} columns a side (--cell-size and --crop of tools/obj2tri.py)"
        return f"{most}: cells {rounded_up(factor)} times as large would fit, and so would {part}"
    crop = f"--crop {crop_of(size, frame, room)}, the middle of the model"
    fits = f"--cell-size {rounded_up(factor * frame.cell_size)} would fit, and so would {crop}"
    return f"{most}: {fits}; --scale says what the file's numbers are multiplied by"


def crop_of(size, frame, room):
    """The words of a crop round the middle of the field that leaves so many columns of it at most."""
    sides = [min(part, room) / 2 for part in size]
    middle = [part / 2 for part in size]
    ends = [frame.flat(*(PARTS * (at + sign * side) for at, side in zip(middle, sides))) for sign in (-1, 1)]
    low, high = ([take(pair) for pair in zip(*ends)] for take in (min, max))
    # Rounded to the inside.
    return " ".join(short(math.ceil(part * 1000) / 1000) for part in low) + " " + " ".join(short(math.floor(part * 1000) / 1000) for part in high)


def rounded_up(number):
    """A number in four digits, not below it."""
    step = 10.0 ** (math.floor(math.log10(number)) - 3)
    return f"{math.ceil(number / step - NOTHING) * step:.10g}"
