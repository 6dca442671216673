"""Ways between places and rays from places, by trying, for `places_check.py`. A way is a cheapest allowed walk from the polygon of the one place to that of
the other, with a taut line through its portals, and its corners are the two places and the line's turns, each as a place of the polygon that its link
enters. A ray goes from the place's polygon straight on from polygon to polygon. A polygon of another storey that holds the same point is no start.
"""
import heapq
import random
from fractions import Fraction

from places_levels import ALL, random_areas, random_near, random_place, random_point
from ways_mesh import NEVER, distance, orient


def middle(face):
    """The middle of a polygon's box, in sixteenths."""
    return tuple(8 * (min(values) + max(values)) for values in zip(*face.corners))


def weight(ground, start, end, costs):
    """What a link costs: the distance of the polygons' middles, rounded up and at least 1, times the cost of the area that is entered."""
    return max(1, distance(middle(ground.faces[start]), middle(ground.faces[end]))) * costs[ground.faces[end].area]


def steps_from(ground, areas, costs):
    """By polygon the polygons that one allowed link enters, and at which cost."""
    return {start: {end: weight(ground, start, end, costs) for _, end, _, _ in links if ground.is_open(end, areas)} for start, links in ground.links.items()}


def least_costs(steps, first):
    """The least costs of allowed walks from a polygon, in rounds over the steps of all polygons whose cost fell, until none does."""
    least, fell = {first: 0}, {first}
    while fell:
        falls = set()
        for at in fell:
            for to, cost in steps[at].items():
                if least[at] + cost < least.get(to, NEVER):
                    least[to] = least[at] + cost
                    falls.add(to)
        fell = falls
    return least


def costs_by_queue(steps, first):
    """The same by a queue."""
    least, queue = {}, [(0, first)]
    while queue:
        cost, at = heapq.heappop(queue)
        if at not in least:
            least[at] = cost
            for to, more in steps[at].items():
                heapq.heappush(queue, (cost + more, to))
    return least


def check_walk(ground, links, first, last, areas):
    """That links are an allowed walk from one polygon to another."""
    for start, edge, end, left, right in links:
        assert start == first and (edge, end, left, right) in ground.links[start], f"{(start, edge, end, left, right)} is no link of {first}"
        assert ground.is_open(end, areas), f"{end} may not be entered"
        first = end
    assert first == last, f"the links lead to {first}"


def turns_of(links, inner):
    """The turns whose places are the inner corners: of each the point, the end of a portal that it is, and that portal's number."""
    turns = []
    for name, at, _ in inner:
        own = [(number, portal.index(at)) for number, (_, _, end, *portal) in enumerate(links) if end == name and at in portal]
        assert own, f"{at} in {name} is at no portal"
        # a cheapest walk enters a polygon once
        turns.append((at, "LR"[own[0][1]], own[0][0]))
    return turns


def check_corners(ground, links, corners, start, goal):
    """That corners are the two places and those of a taut line between them."""
    assert corners[0] == start and corners[-1] == goal, "the corners begin or end elsewhere"
    for name, at, floor in corners[1:-1]:
        assert ground.is_place(name, at, floor) and floor == ground.height(name, at), f"the corner at {at} in {name} has the height {ground.height(name, at)}"
    wrong = ground.names["is_taut"](start[1], [link[3:] for link in links], goal[1], turns_of(links, corners[1:-1]))
    assert wrong is None, f"the line is not taut: {wrong}"


def ray_from(ground, first, start, goal):
    """How the ray ends that begins in a polygon: the polygon that it reaches, or the edge at which there is a wall, and how far that is."""
    at, visited = first, []
    while True:
        visited.append(at)
        edges = list(zip(ground.faces[at].around, ground.faces[at].around[1:] + ground.faces[at].around[:1]))
        exits = {edge: Fraction(orient(*ends, start), orient(*ends, start) - orient(*ends, goal)) for edge, ends in enumerate(edges)
                 if orient(*ends, goal) < 0}
        if not exits:
            return "reached", at
        least = [edge for edge in exits if exits[edge] == min(exits.values())]
        onward = [(edge, to, right, left) for edge, to, left, right in ground.links[at]
                  if edge in least and to not in visited and orient(start, goal, left) >= 0 >= orient(start, goal, right)]
        if not onward:
            ends, num = edges[least[0]], orient(*edges[least[0]], start)
            return ("wall", *ends, num, num - orient(*ends, goal))
        at = min(onward)[1]


def meets(ground, steps, first):
    """How many polygons a search may meet: the first, and what a link enters from one that is reached."""
    return len({first} | {end for at in least_costs(steps, first) for _, end, _, _ in ground.links[at]})


class Ways:
    """Asks for ways and rays, and compares; it counts by kind."""

    def __init__(self, calls, ground, counts):
        self.calls, self.ground, self.counts, self.steps = calls, ground, counts, {}

    def least(self, first, areas, costs):
        key = areas, tuple(costs)
        if key not in self.steps:
            self.steps[key] = steps_from(self.ground, areas, costs)
        found = least_costs(self.steps[key], first)
        if random.randrange(50) == 0:
            assert found == costs_by_queue(self.steps[key], first), f"two forms of the least costs from {first}"
        return found, self.steps[key]

    def way(self, start, goal, areas=ALL, costs=(), most_cost=NEVER, most_polygons=NEVER, subject="way"):
        told = self.calls.way(start, goal, areas, costs, most_cost, most_polygons)
        try:
            kind = self.check(told, start, goal, areas, costs or self.ground.costs, most_cost, most_polygons)
        except AssertionError as wrong:
            limits = most_cost, most_polygons
            raise AssertionError(f"way from {start} to {goal}, areas {areas}, costs {costs}, limits {limits}: {told} is told, and {wrong}") from wrong
        self.counts[subject, kind] += 1

    def near(self, start, goal, areas):
        """A way between the places nearest to two points is one between those that the second program finds."""
        told = self.calls.way_near(start, goal, areas, (), NEVER, NEVER)
        ends = [self.ground.nearest(asked) for asked in (start, goal)]
        words = f"way from the nearest place of {start} to that of {goal}, areas {areas}: {told} is told"
        if None in ends:
            assert told == ("no start" if ends[0] is None else "no goal"), words
            kind = told
        else:
            assert told not in ("no start", "no goal"), f"{words}, and the places are {ends}"
            try:
                kind = self.check(told, *ends, areas, self.ground.costs, NEVER, NEVER)
            except AssertionError as wrong:
                raise AssertionError(f"{words}, and {wrong}") from wrong
        self.counts["way between nearest places", kind] += 1

    def check(self, told, start, goal, areas, costs, most_cost, most_polygons):
        """That an answer is right; its kind."""
        ground = self.ground
        for kind, place in (("no start", start), ("no goal", goal)):
            if not ground.is_place(*place):
                assert told == kind, f"{place} is no place"
                return kind
        assert told not in ("no start", "no goal"), "both are places"
        least, steps = self.least(start[0], areas, costs)
        due = least.get(goal[0], NEVER)
        if told == "no path":
            assert due == NEVER, f"a way costs {due}"
            return told
        if told[0] == "limit":
            seen = told[1]
            assert most_cost < NEVER or most_polygons <= 8000000, "there is no limit"
            assert seen <= due, f"a way costs {due}"
            assert most_cost < seen or most_polygons <= meets(ground, steps, start[0]), "no limit was met"
            return "limit"
        _, cost, links, corners = told
        check_walk(ground, links, start[0], goal[0], areas)
        assert cost == sum(steps[link[0]][link[2]] for link in links) == due, f"a cheapest way costs {due}"
        assert cost <= most_cost and len(links) <= most_polygons, "it is beyond the limits"
        check_corners(ground, links, corners, start, goal)
        return "found" if links else "in one polygon"

    def ray(self, start, to):
        told = self.calls.ray(start, to)
        due = ray_from(self.ground, start[0], start[1], to) if self.ground.is_place(*start) else "no start"
        assert told == due, f"ray from {start} to {to}: {told} is told, and {due} is right"
        self.counts["ray", due if due == "no start" else due[0]] += 1

    def storeys(self, start):
        """Of the places over one another at a point each has ways and rays of its own polygon alone."""
        over = [(name, start[1], floor) for name, face in self.ground.faces.items() if face.holds(start[1]) for floor in face.floors(start[1])]
        for one in over:
            for other in over:
                if abs(one[2] - other[2]) > self.ground.climb:
                    self.way(one, other, subject="way to another storey at its start")

    def all(self, count):
        for _ in range(count):
            start = random_place(self.ground)
            # a goal anywhere, or where ways lead
            names = self.least(start[0], ALL, self.ground.costs)[0] if start[0] in self.ground.faces and random.randrange(3) else self.ground.faces
            goal = random_place(self.ground, list(names))
            costs = random.choice([(), (), tuple(random.randrange(1, 1001) for _ in range(64)), (10,) * 64])
            limits = [random.choice([*[NEVER] * 3, random.randrange(300)]), random.choice([*[NEVER] * 3, random.randrange(12)])]
            self.way(start, goal, random_areas(), costs, *limits)
            self.ray(start, random.choice([goal[1], random_point(self.ground)]))
            self.near(random_near(self.ground), random_near(self.ground), random_areas())
            if self.ground.is_place(*start):
                self.storeys(start)
