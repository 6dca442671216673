"""Random grounds with kinds of agents, and random obstacles, for `kinds_check.py`; each kind as a level of its own, by `second.py`: its text and its mesh.

Shapes stand as in `solids.py`: blocks and cylinders as in `play_check.py`.
"""
import math
import random
from dataclasses import astuple, dataclass, replace

from library import level_text
from places_levels import Columns
from second import names_of


@dataclass(frozen=True)
class Agent:
    """The numbers of a kind, as the library is told them."""
    height: int
    climb: int
    radius: int
    clear: int
    tile: int

    def normal(self):
        """The numbers, by which a kind is like another: any `clear` but 0 says the same."""
        return (*astuple(self)[:3], self.clear != 0, self.tile)


@dataclass(frozen=True)
class Ground:
    """What kinds share: the numbers, the spans as (x, z, bottom, top, area), and 64 costs by area, or none."""
    width: int
    depth: int
    error: int
    contours: int
    limit: int
    spans: tuple
    costs: tuple

    def takes(self, columns, spans):
        """Whether the columns x0 to x1 and z0 to z1 lie in the ground and may get these spans, which stand in order."""
        x0, x1, z0, z1 = columns
        return (x0 <= x1 < self.width and z0 <= z1 < self.depth
                and all(x0 <= x <= x1 and z0 <= z <= z1 and bottom < top <= 8191 and area <= 63 for x, z, bottom, top, area in spans)
                and all((a[1], a[0]) < (b[1], b[0]) or a[:2] == b[:2] and a[3] <= b[2] for a, b in zip(spans, spans[1:])))

    def changed(self, columns, spans):
        """The ground with these spans in the columns in place of those that stand there."""
        x0, x1, z0, z1 = columns
        kept = [span for span in self.spans if not (x0 <= span[0] <= x1 and z0 <= span[1] <= z1)]
        return replace(self, spans=tuple(sorted([*kept, *spans], key=lambda span: (span[1], span[0], span[2]))))

    def text(self, agent):
        """The field text of a level of one kind."""
        form = 2 if agent.clear else 1
        out = [f"nav {form}", f"size {self.width} {self.depth}", f"tile {agent.tile}", f"agent {agent.height} {agent.climb} {agent.radius}",
               f"error {self.error}", f"mesh {'contours' if self.contours else 'strips'}", f"limit {self.limit}"] + ["clear 1"] * (form - 1)
        out += [f"cost {area} {cost}" for area, cost in enumerate(self.costs) if area and cost != 1]
        return "\n".join(out + ["span {} {} {} {} {}".format(*span) for span in self.spans] + ["end\n"])


class Kind:
    """A level of one kind by the second program."""

    def __init__(self, ground, agent):
        self.agent, self.text = agent, ground.text(agent)
        self.names, self.touched = names_of(self.text), {}
        self.tiles = self.names["tile_count"]

    def touching(self, shapes, tile):
        """The shapes of some, by their numbers, that touch a tile, in order."""
        found = []
        for _, shape in sorted(shapes.items()):
            if (shape, tile) not in self.touched:
                self.touched[shape, tile] = self.names["touches"](shape, tile)
            found += [shape] * self.touched[shape, tile]
        return tuple(found)

    def cells_of(self, tile):
        """The cells of which the meshes of a tile are made: those that are kept, by their places, with the neighbours that are kept; and where agents keep
        their radius from obstacles too, all round it, with all their neighbours."""
        names = self.names
        place_of, kept, cells = names["place_of"], names["kept_at"], names["cells"]
        x0, x1, z0, z1 = names["window"](tile)

        def told(cell, among):
            return tuple(cell[:3]), tuple(by is not None and (place_of[id(by)] if place_of[id(by)] in among else None) for by in cell[3])

        own = {place: told(cell, kept) for place, cell in kept.items() if x0 <= place[0] <= x1 and z0 <= place[1] <= z1}
        if not names["clear"]:
            return own, None
        margin, every = names["margin"], place_of.values()
        every = set(every)
        return own, {place_of[id(cell)]: told(cell, every) for (x, z), column in cells.items() for cell in column
                     if x0 - margin <= x <= x1 + margin and z0 - margin <= z <= z1 + margin}

    def publish(self, shapes, length):
        """The mesh under these shapes, of so many entries."""
        self.names.update(published=dict(shapes), published_length=length)
        self.polygons, self.links = self.names["mesh_now"]()

    def shown(self):
        """What a view has to show: for each tile its polygons, in order, and all links."""
        faces = [[] for _ in range(self.tiles)]
        for (tile, index), (corners, *rest) in sorted(self.polygons.items()):
            assert index == len(faces[tile])
            faces[tile].append((list(map(tuple, corners)), *rest))
        return faces, sorted((name, *link) for name, leave in self.links.items() for link in leave)


def random_agent(field, others):
    """A kind: like another, or but for one number, or of its own."""
    if others and random.randrange(3) == 0:
        numbers = list(astuple(random.choice(others)))
        if random.randrange(3):
            place = random.randrange(5)
            numbers[place] = astuple(random_agent(field, []))[place]
    else:
        numbers = [random.choice([*[field.height] * 4, field.height + 1, random.randrange(1, 14)]), random.choice([*[field.climb] * 4, *range(5)]),
                   random.choice([0, 0, 0, 1, 1, 2]), random.choice([0, 0, 1, 1, 7]), random.choice([4, 5, 7, 12, 128])]
    height, climb, radius, clear, tile = numbers
    return Agent(height, min(climb, height - 1), radius, clear, tile)


def random_ground():
    """A ground and its kinds."""
    limit, error, contours = random.choice([1, 3, 8, 1024]), random.choice([0, 49, 169, 169, 600]), random.choice([0, 1, 1, 2])
    costs = tuple(random.choice([1, 1, 1, 2, 7, 1000]) for _ in range(64)) if random.randrange(3) == 0 else ()
    field = Columns(random.randrange(8, 22), random.randrange(8, 18))
    width, depth = field.width, field.depth
    if random.randrange(8):
        spans = tuple((x, z, *span) for z in range(depth) for x in range(width) for span in field.spans(x, z))
    else:
        width, field.height, field.climb = random.randrange(10, 20), 10, 3
        depth = width - 3
        text = level_text(width, 0, random.randrange(10**6), "strips", 0, 0, random.choice(["rough", "smooth"]))
        spans = tuple(tuple(map(int, line.split()[1:])) for line in text.splitlines() if line.startswith("span "))
    agents = []
    for _ in range(random.choice([1, 2, 2, 2, 3, 3, 4])):
        agents.append(random_agent(field, agents))
    return Ground(width, depth, error, contours, limit, spans, costs), agents


def random_corners(x, z):
    """The corners of a base round a point, strictly convex and counterclockwise: a thin wall, a turned box, or any."""
    orient = lambda a, b, c: (b[0] - a[0]) * (c[1] - a[1]) - (b[1] - a[1]) * (c[0] - a[0])
    while True:
        kind = random.randrange(3)
        if kind < 2:
            angle, long, thick = random.random() * math.tau, random.choice([10, 40, 120, 300]), random.choice([1, 2, 8, 16, 40])
            cos, sin = math.cos(angle), math.sin(angle)
            points = [(round(x + u * cos - v * sin), round(z + u * sin + v * cos)) for u, v in ((-long, 0), (long, 0), (long, thick), (-long, thick))]
        else:
            points = [(x + random.randrange(-50, 51), z + random.randrange(-50, 51)) for _ in range(random.choice([3, 4, 5, 6]))]
            points.sort(key=lambda p: math.atan2(p[1] - z, p[0] - x))
        count = len(points)
        if all(orient(points[i - 1], points[i], points[j]) > 0 for i in range(count) for j in range(count) if j not in (i, (i - 1) % count)):
            return tuple(points)


def random_shape(ground):
    """A block, a cylinder, a prism or a disc, most of them over the ground."""
    low = random.choice([0, 30, 40, 44])
    heights = low, low + random.choice([0, 12, 100])
    area = random.choice([None, None, None, 1, 5, 62])
    x, z = random.randrange(-2, ground.width + 2), random.randrange(-2, ground.depth + 2)
    point = random.randrange(-30, 16 * ground.width + 30), random.randrange(-30, 16 * ground.depth + 30)
    if random.randrange(8) == 0:
        point = tuple(round(at / 8) * 8 for at in point)
    kind = random.choice(["block", "cylinder", "prism", "prism", "disc"])
    if kind == "block":
        x, z = max(0, x), max(0, z)
        return kind, (x, x + random.randrange(6), *heights, z, z + random.randrange(6)), area
    if kind == "cylinder":
        return kind, (max(0, 2 * x + random.randrange(2)), max(0, 2 * z + random.randrange(2)), random.randrange(4), *heights), area
    if kind == "disc":
        return kind, (*point, random.choice([1, 7, 8, 9, 16, random.randrange(1, 70)]), *heights), area
    return kind, (random_corners(*point), *heights), area
