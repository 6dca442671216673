"""Walls around a place, by trying, for `places_check.py`. A wall is a part of a polygon's edge, as long as it can be, that no portal of an open link
covers. The polygons around a place within a distance are those to which open links lead whose portals come within it. A wall is reached where its
polygon is around within the wall's own distance, so that no portal on the way to it is farther than the wall.
"""
import heapq
import random
from fractions import Fraction

from places_levels import random_areas, random_place
from places_slides import from_segment
from ways_mesh import orient


def along(u, v, p):
    return (v[0] - u[0]) * (p[0] - u[0]) + (v[1] - u[1]) * (p[1] - u[1])


def edges_of(face):
    return list(zip(face.around, face.around[1:] + face.around[:1]))


def portals_of(ground, name, areas):
    """By edge of a polygon the portals of its open links."""
    portals = [[] for _ in ground.faces[name].around]
    for edge, end, left, right in ground.links[name]:
        if ground.is_open(end, areas):
            portals[edge].append((left, right))
    return portals


def walls_of(ground, name, areas):
    """The walls of a polygon, by edge and along it: of each the edge and its two ends. Each pair is tried of a beginning, which is that of the edge or the
    left end of a portal, and an end, which is that of the edge or the right end of one."""
    found = []
    for edge, ((u, v), portals) in enumerate(zip(edges_of(ground.faces[name]), portals_of(ground, name, areas))):
        for a in {u} | {left for left, _ in portals}:
            for b in {v} | {right for _, right in portals}:
                lies = orient(u, v, a) == 0 == orient(u, v, b) and 0 <= along(u, v, a) < along(u, v, b) <= along(u, v, v)
                if lies and not any(along(u, v, right) < along(u, v, b) and along(u, v, a) < along(u, v, left) for left, right in portals):
                    found.append((edge, along(u, v, a), a, b))
    return [(edge, a, b) for edge, _, a, b in sorted(found)]


def walls_by_pieces(ground, name, areas):
    """The same by the pieces between all points of an edge at which something ends: those that no portal covers, joined."""
    found = []
    for edge, ((u, v), portals) in enumerate(zip(edges_of(ground.faces[name]), portals_of(ground, name, areas))):
        ends = sorted({u, v} | {end for portal in portals for end in portal}, key=lambda p: along(u, v, p))
        open_end = None
        for a, b in zip(ends, ends[1:]):
            if any(along(u, v, right) <= along(u, v, a) and along(u, v, b) <= along(u, v, left) for left, right in portals):
                open_end = None
                continue
            if open_end == a:
                found[-1] = edge, found[-1][1], b
            else:
                found.append((edge, a, b))
            open_end = b
    return found


def entries(ground, place, areas):
    """By polygon the least squared distance within which it is around a place: that of the farthest portal on the way whose farthest is nearest."""
    found, queue = {}, [(Fraction(0), place[0])]
    while queue:
        far, name = heapq.heappop(queue)
        if name not in found:
            found[name] = far
            for _, end, left, right in ground.links[name]:
                if ground.is_open(end, areas):
                    heapq.heappush(queue, (max(far, Fraction(*from_segment(right, left, place[1]))), end))
    return found


def around(ground, place, areas, far):
    """The polygons around a place within a squared distance, in rounds over all links until nothing is added."""
    seen, before = {place[0]}, 0
    while len(seen) != before:
        before = len(seen)
        seen |= {end for name in seen for _, end, left, right in ground.links[name]
                 if ground.is_open(end, areas) and Fraction(*from_segment(right, left, place[1])) <= far}
    return seen


def walls_within(ground, place, areas, far):
    """The walls of the polygons around a place within a squared distance that are no farther: of each the polygon, its edge, its two ends, and the square
    of its distance; by polygon, by edge and along it."""
    found = [(name, edge, a, b, from_segment(a, b, place[1])) for name, entry in sorted(entries(ground, place, areas).items()) if entry <= far
             for edge, a, b in walls_of(ground, name, areas)]
    return [wall for wall in found if Fraction(*wall[4]) <= far]


def nearest_walls(ground, place, areas, reach):
    """The walls that are reached within the reach than which none is nearer."""
    entry = entries(ground, place, areas)
    reached = [wall for wall in walls_within(ground, place, areas, reach * reach) if entry[wall[0]] <= Fraction(*wall[4])]
    least = min((Fraction(*wall[4]) for wall in reached), default=None)
    return [wall for wall in reached if Fraction(*wall[4]) == least]


class Walls:
    """Asks for the nearest wall and for all walls in reach, and compares; it counts by kind."""

    def __init__(self, calls, ground, counts):
        self.calls, self.ground, self.counts = calls, ground, counts

    def nearest(self, place, reach, areas):
        """Of walls that are equally near any may be told."""
        told = self.calls.nearest_wall(place, reach, areas)
        due = nearest_walls(self.ground, place, areas, reach) or ["no wall"] if self.ground.is_place(*place) else ["no start"]
        assert told in due, f"nearest wall from {place} in reach {reach}, areas {areas}: {told} is told, and {due} are right"
        self.counts["nearest wall", told if isinstance(told, str) else "own" if told[0] == place[0] else "of another polygon"] += 1

    def all_around(self, place, reach, areas):
        told = self.calls.walls(place, reach, areas)
        due = walls_within(self.ground, place, areas, reach * reach) if self.ground.is_place(*place) else "no start"
        assert told == due, f"walls from {place} in reach {reach}, areas {areas}: {told} is told, and {due} is right"
        self.counts["walls", "no start" if due == "no start" else "some" if due else "none"] += 1

    def two_forms(self, place, reach, areas):
        for name in self.ground.faces:
            assert walls_of(self.ground, name, areas) == walls_by_pieces(self.ground, name, areas), f"two forms of the walls of {name}"
        entry = entries(self.ground, place, areas)
        for far in [reach * reach, *entry.values()]:
            own = {name for name in entry if entry[name] <= far}
            assert own == around(self.ground, place, areas, far), f"two forms of what is around {place} within {far}"

    def all(self, count):
        for number in range(count):
            place, reach, areas = random_place(self.ground), random.choice([0, 1, 8, 16, 30, 64, 160, 2000, 262143]), random_areas()
            self.nearest(place, reach, areas)
            self.all_around(place, random.choice([reach, 8, 40]), areas)
            if number == 0 and random.randrange(10) == 0 and place[0] in self.ground.faces:
                self.two_forms(place, reach, areas)
