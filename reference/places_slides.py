"""Slides from a place toward a point, by trying, for `places_check.py`. A slide looks at the polygons to which open links lead whose portals touch the
disc that has the way from its start to its target as its diameter. It ends at a point that one of them holds, no farther from the start than the target
is, than which no such point is nearer to the target.
"""
import math
import random
from fractions import Fraction

from places_levels import point_near, random_areas, random_place, random_point


def square(a, b):
    return (a[0] - b[0]) ** 2 + (a[1] - b[1]) ** 2


def from_segment(a, b, p):
    """The square of the distance of a point from a segment, as a numerator and a denominator: from an end of it 1 is that, and else the square of its
    length."""
    dx, dz = b[0] - a[0], b[1] - a[1]
    reached = dx * (p[0] - a[0]) + dz * (p[1] - a[1])
    if reached <= 0:
        return square(a, p), 1
    if reached >= dx * dx + dz * dz:
        return square(b, p), 1
    return (dx * (p[1] - a[1]) - dz * (p[0] - a[0])) ** 2, dx * dx + dz * dz


def touches_disc(start, to, left, right):
    """Whether a portal comes within half the way of the way's middle."""
    middle = [Fraction(a + b, 2) for a, b in zip(start, to)]
    num, den = from_segment(right, left, middle)
    return Fraction(num) / den <= Fraction(square(start, to), 4)


def sees_ends(start, to, left, right):
    """The same by points of the portal: from one of them the ends of the way are seen at a right angle or a wider one. A product is least at an end, or
    where the portal's line is nearest to the way's middle."""
    def product(part):
        p = [Fraction(a) + part * (b - a) for a, b in zip(right, left)]
        return sum((a - at) * (b - at) for a, b, at in zip(start, to, p))
    way = [b - a for a, b in zip(right, left)]
    along = sum(w * (Fraction(a + b, 2) - at) for w, a, b, at in zip(way, start, to, right))
    nearest = max(Fraction(0), min(Fraction(1), along / sum(w * w for w in way)))
    return min(product(part) for part in (Fraction(0), Fraction(1), nearest)) <= 0


def looked_at(ground, first, start, to, areas):
    """The polygons that a slide looks at."""
    seen, left = {first}, [first]
    while left:
        for _, end, *portal in ground.links[left.pop()]:
            if end not in seen and ground.is_open(end, areas) and touches_disc(start, to, *portal):
                seen.add(end)
                left.append(end)
    return seen


def least_square(ground, names, start, to):
    """How near to the target a slide can come that looks at some polygons: row by row of each, the points of the row in the disc round the start."""
    reach, best = square(start, to), None
    for name in names:
        for x, (first, last) in ground.faces[name].rows.items():
            room = reach - (x - start[0]) ** 2
            if room < 0:
                continue
            first, last = max(first, start[1] - math.isqrt(room)), min(last, start[1] + math.isqrt(room))
            if first <= last:
                far = square((x, min(max(to[1], first), last)), to)
                best = far if best is None else min(best, far)
    return best


def least_by_all(ground, names, start, to):
    """The same by all whole points of the polygons' boxes."""
    held = [p for name in names for face in [ground.faces[name]]
            for p in ((x, z) for x in range(16 * min(x for x, _ in face.corners), 16 * max(x for x, _ in face.corners) + 1)
                      for z in range(16 * min(z for _, z in face.corners), 16 * max(z for _, z in face.corners) + 1)) if face.holds(p)]
    return min(square(p, to) for p in held if square(start, p) <= square(start, to))


def check_slide(ground, place, to, areas, told):
    """That a place is where a slide ends, or none where the start is no place of the mesh. Its kind."""
    if not ground.is_place(*place):
        assert told is None, f"{told} from what is no place"
        return "no start"
    assert told is not None, "there is a start"
    (first, start, _), (end, at, floor) = place, told
    names = looked_at(ground, first, start, to, areas)
    assert end in names, f"{end} is not looked at"
    assert ground.faces[end].holds(at), f"{end} does not hold {at}"
    assert floor == ground.height(end, at), f"the floor at {at} in {end} is {ground.height(end, at)}"
    assert square(start, at) <= square(start, to), f"{at} is farther from the start than the target"
    due = least_square(ground, names, start, to)
    assert square(at, to) == due, f"the square of the distance that is left is {square(at, to)}, and {due} the least"
    return "at its target" if due == 0 else "in its polygon" if end == first else "in another polygon"


class Slides:
    """Asks for slides, and compares; it counts by kind."""

    def __init__(self, calls, ground, counts):
        self.calls, self.ground, self.counts = calls, ground, counts

    def ask(self, place, to, areas):
        told = self.calls.slide(place, to, areas)
        try:
            kind = check_slide(self.ground, place, to, areas, told)
        except AssertionError as wrong:
            raise AssertionError(f"slide from {place} to {to}, areas {areas}: {told} is told, and {wrong}") from wrong
        self.counts["slide", kind] += 1
        if random.randrange(300) == 0 and kind != "no start":
            self.two_forms(place[0], place[1], to, areas)
        return told

    def two_forms(self, first, start, to, areas):
        names = looked_at(self.ground, first, start, to, areas)
        for _, _, *portal in sum(map(self.ground.links.get, names), []):
            assert touches_disc(start, to, *portal) == sees_ends(start, to, *portal), f"two forms of a disc from {start} to {to} at {portal}"
        two = [least(self.ground, names, start, to) for least in (least_square, least_by_all)]
        assert two[0] == two[1], f"two forms of the least squares from {start} to {to}: {two}"

    def target(self, start):
        """Mostly within a step of a cell or so; seldom the start itself, or anywhere."""
        kind = random.randrange(12)
        if kind == 0:
            return start
        return random_point(self.ground) if kind == 1 else point_near(start, random.choice([3, 8, 16, 16, 48, 160]))

    def all(self, count):
        for _ in range(count):
            place = random_place(self.ground)
            while place is not None:
                place = self.ask(place, self.target(place[1]), random_areas())
                # now and then it goes on from where it came to
                place = place if random.randrange(3) == 0 else None
