"""What the engine tells of an input: the play text and the scenes of its published versions, by the program `navd_scene`.

Nothing of the engine is worked out here: polygons, cells, links, tiles and obstacles are those of the scene text, and paths and
walls those of the play text. docs/FORMATS.md states both.
"""
import os
import subprocess
from concurrent.futures import ThreadPoolExecutor
from dataclasses import dataclass, field

from inputs import HERE, Trouble, read_input

PROGRAM = os.path.join(HERE, "..", "crates", "navd_scene", "out", "navd_scene")
# Script lines that are answered by a question's answer, and those that are answered by nothing.
QUESTIONS = ("path", "ray", "floor", "hop")
SILENT = ("lane", "jump")


@dataclass
class Polygon:
    area: int
    low: int
    high: int
    corners: list


@dataclass
class Tile:
    number: int
    x0: int
    x1: int
    z0: int
    z1: int
    cells: list = field(default_factory=list)
    polygons: list = field(default_factory=list)
    # The lines of the tile's mesh as they stand in the scene, by which two versions of it are compared.
    lines: list = field(default_factory=list)


@dataclass
class Link:
    start: tuple
    edge: int
    end: tuple
    left: tuple
    right: tuple


@dataclass
class Obstacle:
    number: int
    # `block` or `cylinder`, the area that it sets or None, and the numbers that a script spells.
    kind: str
    area: object
    numbers: list


@dataclass
class Scene:
    length: int
    width: int
    depth: int
    polygon_count: int
    link_count: int
    obstacles: list
    tiles: list
    # The lines of the links, which are many: `links` reads them.
    link_lines: list

    def links(self):
        return [parse_link(row.split(" ")) for row in self.link_lines]


@dataclass
class Said:
    """A script line with its number in the input, the published length after it, and what it was answered."""

    number: int
    words: list
    length: int
    answer: list


def program(given):
    """The path of the program, or trouble that says how to build it."""
    path = given or os.environ.get("NAVD_SCENE") or PROGRAM
    if not os.access(path, os.X_OK):
        raise Trouble(f"there is no program {os.path.relpath(path)}: build it by `cd crates/navd_scene && rt run < stdin`, or name it by --program")
    return path


def run(path, data):
    """The lines that the program writes of an input."""
    ran = subprocess.run([path], input=data, capture_output=True)
    text = ran.stdout.decode("ascii", "replace")
    if ran.returncode == 1:
        raise Trouble(f"the input is not in the grammar: {text.strip()} (tools/explain.py says what that means)")
    if ran.returncode != 0:
        raise Trouble(f"{os.path.basename(path)} ended with status {ran.returncode}: {text.strip() or 'nothing was written'}")
    return text.split("\n")[:-1]


def script_start(lines):
    """The place of the line `script`, from 0."""
    for place, line in enumerate(lines):
        if line.startswith(b"script "):
            return place
    raise Trouble("the input has no line `script`")


def answers(lines, start, out):
    """Each script line with what it was answered, and how many lines of the output that are."""
    said, place, length = [], 0, 0
    for number, line in enumerate(lines[start + 1 :], start + 2):
        words = line.decode("ascii").split(" ")
        count = 0 if words[0] in SILENT else 1
        if words[0] in ("path", "hop") and out[place].startswith(f"{words[0]} "):
            first = out[place].split(" ")
            count += int(first[5]) + int(first[6])
        answer = [row.split(" ") for row in out[place : place + count]]
        place += count
        if answer and answer[0][0] in ("settled", "published"):
            length = int(answer[0][1])
        said.append(Said(number, words, length, answer))
    return said, place


def parse_scene(rows):
    """The scene that lines of a scene text tell."""
    head = rows[0].split(" ")
    if head[0] != "scene":
        raise Trouble(f"a scene begins with a line `scene`, not with {rows[0]!r}")
    scene = Scene(*map(int, head[1:6]), [], [], [])
    tile = None
    for row in rows[1:]:
        word, _, rest = row.partition(" ")
        if word == "cell":
            tile.cells.append(tuple(map(int, rest.split(" "))))
        elif word == "poly":
            numbers = [int(number) for number in rest.split(" ")]
            tile.polygons.append(Polygon(*numbers[:3], list(zip(numbers[3::2], numbers[4::2]))))
        elif word == "link":
            scene.link_lines.append(row)
            leaves, _, _, enters, _ = rest.split(" ", 4)
            # A link over a border belongs to no tile alone.
            if leaves != enters:
                continue
        elif word == "mesh":
            tile = scene.tiles[int(rest)]
        elif word == "tile":
            number, x0, z0, x1, z1 = map(int, rest.split(" "))
            scene.tiles.append(Tile(number, x0, x1, z0, z1))
        elif word == "entry":
            tell_entry(scene, rest.split(" "))
        else:
            raise Trouble(f"a scene has no line {row!r}")
        if tile is not None:
            tile.lines.append(row)
    check_counts(scene)
    return scene


def tell_entry(scene, words):
    """E LANE add SHAPE added, or E LANE remove N removed; entries that changed nothing end with other words."""
    if words[-1] == "added":
        scene.obstacles.append(parse_obstacle(int(words[0]), words[3:-1]))
    elif words[-1] == "removed":
        scene.obstacles = [obstacle for obstacle in scene.obstacles if obstacle.number != int(words[3])]


def check_counts(scene):
    """The counts of the first line are those of the lines that follow."""
    polygons = sum(len(tile.polygons) for tile in scene.tiles)
    if (polygons, len(scene.link_lines)) != (scene.polygon_count, scene.link_count):
        raise Trouble(f"the scene tells of {scene.polygon_count} polygons and {scene.link_count} links, and has {polygons} and {len(scene.link_lines)}")


def parse_link(words):
    numbers = [int(word) for word in words[1:]]
    return Link((numbers[0], numbers[1]), numbers[2], (numbers[3], numbers[4]), tuple(numbers[5:7]), tuple(numbers[7:9]))


def parse_obstacle(number, words):
    """A shape as a script spells it: [area A] KIND NUMBER .."""
    area = None
    if words[0] == "area":
        area, words = int(words[1]), words[2:]
    return Obstacle(number, words[0], area, [int(word) for word in words[1:]])


class Play:
    """An input that was played: its script lines with their answers, and the scene of each published length."""

    def __init__(self, path, given_program=None):
        self.program = program(given_program)
        self.lines = read_input(path)
        out = run(self.program, self.join(self.lines))
        self.start = script_start(self.lines)
        self.said, count = answers(self.lines, self.start, out)
        if not out[count].startswith("done "):
            raise Trouble(f"a line `done` was due behind the answers, not {out[count]!r}")
        self.last = parse_scene(out[count + 1 :])
        self.scenes = {self.last.length: self.last}

    @staticmethod
    def join(lines):
        return b"".join(line + b"\n" for line in lines)

    def lengths(self):
        """The published lengths, in order, each with how many lines of the input come to it."""
        found = {0: self.start + 1}
        for line in self.said:
            found.setdefault(line.length, line.number)
        return found

    def scene(self, length):
        """The scene as published for so many entries: that of the input cut behind the line that published it."""
        if length not in self.scenes:
            count = self.lengths().get(length)
            if count is None:
                published = ", ".join(map(str, self.lengths()))
                raise Trouble(f"no mesh was published for {length} entries; the published lengths are {published}")
            out = run(self.program, self.join(self.lines[:count]))
            scene = parse_scene(out[next(i for i, row in enumerate(out) if row.startswith("scene ")) :])
            if scene.length != length:
                raise Trouble(f"the scene of length {scene.length} came where that of {length} was due")
            self.scenes[length] = scene
        return self.scenes[length]

    def all_scenes(self, jobs=4):
        """The scenes of all published lengths, in order."""
        lengths = list(self.lengths())
        with ThreadPoolExecutor(jobs) as pool:
            return list(pool.map(self.scene, lengths))

    def questions(self, length=None):
        """The lines `path`, `hop` and `ray` that were answered as published for so many entries, or for any."""
        return [line for line in self.said if line.words[0] in ("path", "hop", "ray") and length in (None, line.length)]

    def jumps(self):
        """The jumps that are declared, each as its two points, in sixteenths of a cell."""
        numbers = [[int(word) for word in line.words[1:]] for line in self.said if line.words[0] == "jump"]
        return [(tuple(n[0:2]), tuple(n[3:5])) for n in numbers]
