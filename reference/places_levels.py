"""Random levels, and random points and places of them, for `places_check.py` and the files beside it."""
import random

FAR = 65536
ALL = 2**64 - 1


class Columns:
    """A random field: a ground with steps, slopes, holes, pillars and slanting ends, a deck over some of it with a ramp, and areas in patches."""

    def __init__(self, width, depth):
        self.width, self.depth = width, depth
        self.height, self.climb = random.choice([4, 6, 9]), random.choice([0, 1, 2, 3, 2, 3])
        self.lift = self.height + random.choice([2, 3, 8])
        self.deck = self.box(4) if random.randrange(3) else None
        # steeper than half the climb a slope is all ledges
        self.step = self.climb // 2
        self.slope = random.choice([(0, 0), (0, 0), (self.step, 0), (0, self.step), (-self.step, 0), (self.step, self.step)])
        self.patches = [(self.box(), random.choice([1, 5, 20, 62])) for _ in range(random.choice([0, 0, 1, 2]))]
        self.rough, self.holes = random.choice([0, 0, 20, 6]), random.choice([0, 60, 25])
        self.end = [random.choice([0, 0, 1, 2, -1]), random.choice([0, 1, 2]), random.randrange(8, 40)]

    def box(self, least=1):
        """The first and last of so many columns at least, and of as many rows."""
        ends = []
        for side in (self.width, self.depth):
            first = random.randrange(side - least + 1)
            ends += [first, random.randrange(first + least - 1, side)]
        return ends

    def area(self, x, z):
        if self.end[0] * x + self.end[1] * z > self.end[2]:
            return 0
        return ([63] + [area for (x0, x1, z0, z1), area in self.patches if x0 <= x <= x1 and z0 <= z <= z1])[-1]

    def ground(self, x, z):
        """The height of the ground, with a bump here and there."""
        bump = random.randrange(self.climb + 2) if self.rough and random.randrange(self.rough) == 0 else 0
        return 40 + sum(way * at for way, at in zip(self.slope, (x, z))) + bump

    def spans(self, x, z):
        """The spans of a column: bottom, top and area of each."""
        if self.holes and random.randrange(self.holes) == 0:
            return [(0, 60, 0)] if random.randrange(2) else []
        ground, area, deck = self.ground(x, z), self.area(x, z), 40 + self.lift
        if self.deck is None:
            return [(0, ground, area)]
        x0, x1, z0, z1 = self.deck
        if x < x0 and z <= (z0 + z1) // 2:
            # a ramp leads up to the deck from the left
            return [(0, max(ground, deck - max(1, self.step) * (x0 - x)), area)]
        is_under = x0 <= x <= x1 and z0 <= z <= z1 and ground < deck - 1
        return [(0, ground, area)] + [(deck - 1, deck, 63)] * is_under


def random_text():
    """A random field text: small as a rule, one in eight up to 24 columns wide."""
    most = 24 if random.randrange(8) == 0 else 14
    field, clear = Columns(random.randrange(6, most + 1), random.randrange(6, 15)), random.randrange(3) == 0
    radius = 1 if clear else random.choice([0, 0, 0, 1])
    out = [f"nav {1 + clear}", f"size {field.width} {field.depth}", f"tile {random.choice([4, 5, 7, 12])}",
           f"agent {field.height} {field.climb} {radius}", f"error {random.choice([0, 49, 169, 169, 600])}",
           f"mesh {random.choice(['strips', 'contours', 'contours'])}", "limit 8"] + ["clear 1"] * clear
    out += [f"cost {area} {random.choice([1, 2, 7, 1000])}" for area in (1, 5, 20, 62, 63) if random.randrange(6) == 0]
    for z in range(field.depth):
        for x in range(field.width):
            out += [f"span {x} {z} {bottom} {top} {area}" for bottom, top, area in field.spans(x, z)]
    return "\n".join(out) + "\nend\n"


def random_areas():
    """Open areas, bit a for area a: all, or all but those of most of the ground, or some."""
    return random.choice([*[ALL] * 6, ALL & ~(1 << 63), 1 << 5 | 1 << 20, random.randrange(2**64)])


def random_point(ground):
    """A point: mostly a held one, a corner, or one over the field; else one beside it, or far away."""
    kind = random.randrange(10)
    if kind < 4 and ground.faces:
        over = random.choice(list(ground.faces.values())).over
        if over:
            x, zs = random.choice(list(random.choice(list(over.values())).items()))
            return x, random.choice(zs)
    if kind < 6 and ground.faces:
        x, z = random.choice(random.choice(list(ground.faces.values())).corners)
        return 16 * x + random.choice([-1, 0, 0, 1]), 16 * z + random.choice([-1, 0, 0, 1])
    if kind < 9:
        return random.randrange(-20, 16 * ground.width + 20), random.randrange(-20, 16 * ground.depth + 20)
    return random.choice([-FAR, 0, 70, FAR]), random.choice([-FAR, 0, 70, FAR])


def random_near(ground):
    """A question for a nearest place."""
    x, z = random_point(ground)
    floors = [face.low for face in ground.faces.values()] + [face.high for face in ground.faces.values()] or [40]
    y = random.choice([*[random.choice(floors)] * 5, *[random.randrange(25, 90)] * 4, random.choice([0, 8191, 2**32 - 1])])
    y = max(0, min(2**32 - 1, y + random.choice([0, 0, -1, 1, -3, 5])))
    reach = random.choice([0, 1, 5, 16, 40, 64, 64, 120, 262143])
    down, up = (random.choice([0, 1, 4, 12, 28, 28, 60, 60, 16383]) for _ in range(2))
    return {"x": x, "z": z, "y": y, "reach": reach, "down": down, "up": up, "weight": random.choice([0, 1, 2, 4, 8, 64, 65535]), "areas": random_areas()}


def point_near(point, most):
    """A point so far away at most in x and in z."""
    return tuple(max(-FAR, min(FAR, at + random.randint(-most, most))) for at in point)


def random_place(ground, names=None):
    """A place of one of some polygons, or of any: the name of the polygon, a point that it holds and a floor there. One in eight times it is none: on
    another floor, beside the polygon, or of a polygon that is not there."""
    if not ground.faces:
        return (random.choice([0, 2**32 - 1]), 0), (40, 40), 40
    name = random.choice(names or list(ground.faces))
    face = ground.faces[name]
    x, (first, last) = random.choice(list(face.rows.items()))
    point = x, random.choice([first, last, random.randint(first, last)])
    if random.randrange(4) == 0:
        point = random.choice(face.around)
    if face.beside and random.randrange(4) == 0:
        point = random.choice(face.beside)
    floor = random.choice(sorted(face.floors(point)))
    if random.randrange(8):
        return name, point, floor
    return random.choice([(name, point, max(0, floor + random.choice([-1, 1, 12]))), (name, point_near(point, 16), floor),
                          (random.choice(list(ground.faces)), point, floor), ((name[0], 2**32 - 1), point, floor)])
