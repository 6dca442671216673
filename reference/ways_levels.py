"""Random levels whose ways and lines are asked: the level's text, the mesh that a view shows of it, its obstacles, and places in it: for `ways_check.py` and
`lines_check.py`."""
import random
import tempfile
from pathlib import Path

from library import TOP, level_text, script
from ways_mesh import Mesh

rules = {}


class Level:
    """A level's text, what its head says, its obstacles by their numbers, and the view that is asked."""

    def __init__(self, navd, text, level, view, counts):
        self.navd, self.text, self.level, self.view, self.counts, self.obstacles = navd, text, level, view, counts, {}
        head = [line.split() for line in text.splitlines() if not line.startswith("span ")]
        numbers = {words[0]: [int(word) for word in words[1:]] for words in head if words[0] in ("size", "tile", "agent", "limit")}
        self.costs = {int(words[1]): int(words[2]) for words in head if words[0] == "cost"}
        self.width, self.depth = numbers["size"]
        self.tiles = -(-self.width // numbers["tile"][0]) * -(-self.depth // numbers["tile"][0])
        self.climb, self.limit = numbers["agent"][1], numbers["limit"][0]

    def look(self):
        self.view.look(self.level)
        self.mesh = Mesh(self.view, self.tiles, self.climb, self.costs)

    def second(self):
        """What `play_check.py` makes of the text, with the mesh under the obstacles that are there."""
        with tempfile.TemporaryDirectory() as folder:
            given, told = Path(folder) / "in", Path(folder) / "out"
            given.write_text(self.text + "script 1 1\n")
            told.write_text("done 0 0\n")
            names, _ = script(TOP / "reference" / "play_check.py", given, told)
        names["published"] = {number: (*shape, area or None) for number, (shape, area) in self.obstacles.items()}
        return names

    def compare(self):
        """The mesh that is shown is that of the second program."""
        polygons, links = self.second()["mesh_now"]()
        mesh = self.mesh
        assert {name: (list(map(tuple, face.corners)), face.area, face.low, face.high) for name, face in mesh.faces.items()} == {
            name: (list(map(tuple, corners)), *rest) for name, (corners, *rest) in polygons.items()}, "the mesh has other polygons"
        assert mesh.listed == {(mesh.number[start], edge, mesh.number[end], left, right)
                               for start, leave in links.items() for edge, end, left, right in leave}, "the mesh has other links"
        self.counts["meshes"] += 1

    def change(self, kept):
        """Adds obstacles, many of them on ways that are kept, and removes some, and publishes."""
        for _ in range(random.randrange(1, 4)):
            if len(self.obstacles) == self.limit or self.obstacles and random.randrange(2):
                number = random.choice(list(self.obstacles))
                self.level.remove(number)
                del self.obstacles[number]
                continue
            (kind, n), area = shape = random_shape(self, kept)
            if kind == "block":
                self.obstacles[self.level.add_block(self.navd.Block(n[0:2], n[2:4], n[4:6]), area)] = shape
            else:
                self.obstacles[self.level.add_cylinder(self.navd.Cylinder(*n[:3], n[3:]), area)] = shape
        self.level.settle()

    def is_taut(self, start, links, goal, turns):
        told = [(turn.at, "LR"[turn.is_right], turn.link) for turn in turns]
        if not rules:
            rules.update(self.second())
        return rules["is_taut"]((start.x, start.z), [link[3:] for link in links], (goal.x, goal.z), told) is None


def random_shape(level, kept):
    x, z = random.randrange(level.width), random.randrange(level.depth)
    portals = [link.left for path, *_ in kept for link in path.links]
    if portals and random.randrange(3):
        x, z = (max(0, n // 16 - random.randrange(3)) for n in random.choice(portals))
    low, area = random.choice([0, 5, 20]), random.choice([0, 0, 5, 63])
    if random.randrange(2):
        return ("block", [x, min(1023, x + random.randrange(6)), low, low + 60, z, min(1023, z + random.randrange(6))]), area
    return ("cylinder", [2 * x, 2 * z, random.randrange(3), low, low + 60]), area


def random_place(level):
    """Mostly a place that a polygon holds, or one on its edge."""
    if not level.mesh.names or random.randrange(8) == 0:
        return level.navd.Place(random.randrange(-20, 16 * level.width + 20), random.randrange(-20, 16 * level.depth + 20), random.choice([10, 10, 40]))
    at = random.randrange(len(level.mesh.names))
    weights = [random.choice([0, 0, 1, 2]) for _ in level.mesh.corners[at]]
    weights[random.randrange(len(weights))] += 1
    x, z = (sum(weight * corner[axis] for weight, corner in zip(weights, level.mesh.corners[at])) // sum(weights) for axis in (0, 1))
    return level.navd.Place(x, z, random.randint(*level.mesh.floors[at]))


def random_text(seed):
    """The field text of a level of some kind; what is drawn behind it follows from the seed too."""
    random.seed(seed)
    kind, mesh, clear = random.choice(["rough", "smooth"]), random.choice(["strips", "contours"]), random.randrange(2)
    side, error = random.choice([8, 12, 16, 24, 32]), random.choice([0, 49, 169])
    return level_text(side, 0, seed, mesh, error, 0, kind, "areas", "none", clear)
