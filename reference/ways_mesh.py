"""The mesh that a view shows, as the library draws it, and what can be read off it by looking at all polygons and links: for `ways_check.py`.

Polygons are numbered by tile and place; a link is a tuple of the polygon that it leaves, its edge, the polygon that it enters, and the left and the
right end of its portal. Points are pairs, in sixteenths of a cell.
"""
import math

NEVER = 2**64 - 1


def orient(a, b, c):
    return (b[0] - a[0]) * (c[1] - a[1]) - (b[1] - a[1]) * (c[0] - a[0])


def distance(a, b):
    """Rounded up."""
    square = (a[0] - b[0]) ** 2 + (a[1] - b[1]) ** 2
    length = math.isqrt(square)
    return length + (length * length < square)


def leg(a, b):
    return max(abs(a[0] - b[0]), abs(a[1] - b[1]))


class Filter:
    """Open areas, bit a for area a, and 64 costs by area, or none for the level's own."""

    def __init__(self, areas, costs):
        self.areas, self.costs = areas, costs


class Mesh:
    def __init__(self, view, tiles, climb, own_costs):
        """What a view shows in its tiles; areas that the level gives no cost have the cost 1."""
        self.climb, self.own_costs = climb, [own_costs.get(area, 1) for area in range(64)]
        self.faces = {(tile, place): face for tile in range(tiles) for place, face in enumerate(view.polygons(tile))}
        self.names = list(self.faces)
        self.number = {name: number for number, name in enumerate(self.names)}
        self.corners = [[(16 * x, 16 * z) for x, z in face.corners] for face in self.faces.values()]
        self.area = [face.area for face in self.faces.values()]
        self.floors = [(face.low, face.high) for face in self.faces.values()]
        self.box = [(min(x for x, _ in own), max(x for x, _ in own), min(z for _, z in own), max(z for _, z in own)) for own in self.corners]
        self.rooms = [(*box, low - climb, high + climb, at) for at, (box, (low, high)) in enumerate(zip(self.box, self.floors))]
        self.middle = [((x0 + x1) // 2, (z0 + z1) // 2) for x0, x1, z0, z1 in self.box]
        self.leave = [[] for _ in self.names]
        for tile in range(tiles):
            for link in view.inner_links(tile) + view.border_links(tile):
                it = self.link(link)
                self.leave[it[0]].append(it)
        self.listed = {link for links in self.leave for link in links}
        self.length = {}
        for start, _, end, _, _ in self.listed:
            self.length[start, end] = max(1, distance(self.middle[start], self.middle[end]))
        self.asked, self.held = {}, {}

    def polygon(self, name):
        """The number of a polygon, or None where there is none of that name."""
        return self.number.get((name.tile, name.index))

    def link(self, link):
        return self.polygon(link.start), link.edge, self.polygon(link.end), link.left, link.right

    # == Places ==

    def holds(self, at, p):
        x0, x1, z0, z1 = self.box[at]
        if not (x0 <= p[0] <= x1 and z0 <= p[1] <= z1):
            return False
        own = self.corners[at]
        return all(orient(own[i - 1], own[i], p) >= 0 for i in range(len(own)))

    def gap(self, at, y):
        low, high = self.floors[at]
        return max(low - y, y - high, 0)

    def holders(self, place):
        """The polygons that hold a place in its storey."""
        x, z, y = place.x, place.z, place.y
        return [at for x0, x1, z0, z1, low, high, at in self.rooms if x0 <= x <= x1 and z0 <= z <= z1 and low <= y <= high and self.holds(at, (x, z))]

    def locate(self, place):
        return min(((self.gap(at, place.y), at) for at in self.holders(place)), default=(None, None))[1]

    def from_box(self, at, p):
        """The square of the distance of a polygon's box from a point."""
        x0, x1, z0, z1 = self.box[at]
        return max(x0 - p[0], p[0] - x1, 0) ** 2 + max(z0 - p[1], p[1] - z1, 0) ** 2

    def along(self, at, x):
        """The first and the last z that a polygon holds at an x, or None: each edge bounds them by one division."""
        low, high = self.box[at][2:]
        own = self.corners[at]
        for i, (ux, uz) in enumerate(own):
            wx, wz = own[(i + 1) % len(own)]
            wide, rise = wx - ux, (wz - uz) * (x - ux)
            if wide > 0:
                low = max(low, uz - -rise // wide)
            elif wide < 0:
                high = min(high, uz + -rise // -wide)
            elif rise > 0:
                return None
        return (low, high) if low <= high else None

    def nearest(self, at, p):
        """The point that a polygon holds which is nearest to a point, of equally near ones the least by x, then z; behind the square of its distance."""
        if (at, p) not in self.held:
            x0, x1 = self.box[at][:2]
            best = NEVER, None
            for x in sorted(range(x0, x1 + 1), key=lambda x: abs(x - p[0])):
                if (x - p[0]) ** 2 > best[0]:
                    break
                ends = self.along(at, x)
                if ends:
                    z = min(max(p[1], ends[0]), ends[1])
                    best = min(best, ((x - p[0]) ** 2 + (z - p[1]) ** 2, (x, z)))
            self.held[at, p] = best
        return self.held[at, p]

    def nearest_by_all(self, at, p):
        """The same by all points of the box."""
        x0, x1, z0, z1 = self.box[at]
        return min(((x - p[0]) ** 2 + (z - p[1]) ** 2, (x, z)) for x in range(x0, x1 + 1) for z in range(z0, z1 + 1) if self.holds(at, (x, z)))

    # == Walks ==

    def is_open(self, at, by):
        return by.areas >> self.area[at] & 1 == 1

    def enters(self, link, by):
        """Whether it is a link of the mesh that enters a polygon of an open area."""
        return link in self.listed and self.is_open(link[2], by)

    def weight(self, start, end, by):
        """The distance of the middles, rounded up and at least 1, times the cost of the area that is entered."""
        return self.length[start, end] * (by.costs or self.own_costs)[self.area[end]]

    def least_cost(self, by):
        """Of an open area; 1000 where none is open."""
        return min([1000] + [(by.costs or self.own_costs)[area] for area in range(1, 64) if by.areas >> area & 1])

    def cost_of(self, links, by):
        return sum(self.weight(link[0], link[2], by) for link in links)

    def leads(self, first, links, by):
        """Where an allowed walk from a polygon leads, or None where links are none."""
        for link in links:
            if link[0] != first or not self.enters(link, by):
                return None
            first = link[2]
        return first

    def steps(self, by, back):
        """What is reached from each polygon by one allowed link, or by one turned round, and at which cost."""
        key = by, back
        if key not in self.asked:
            steps = [[] for _ in self.names]
            for start, end in self.length:
                if self.is_open(end, by):
                    steps[end if back else start].append((start if back else end, self.weight(start, end, by)))
            self.asked[key] = steps, {}
        return self.asked[key]

    def least(self, first, by, back=False):
        """The least costs of allowed walks from a polygon, or with `back` to it, in rounds: over the links of all polygons whose cost fell, until none
        does."""
        steps, known = self.steps(by, back)
        if first not in known:
            least, fell = {first: 0}, {first}
            while fell:
                falls = set()
                for at in fell:
                    for to, weight in steps[at]:
                        if least[at] + weight < least.get(to, NEVER):
                            least[to] = least[at] + weight
                            falls.add(to)
                fell = falls
            known[first] = least
        return known[first]

    def meets(self, first, by):
        """How many polygons a search may meet: the first, and what a link leaves to from one that is reached."""
        return len({first} | {link[2] for at in self.least(first, by) for link in self.leave[at]})

    # == Kept paths ==

    def beginning(self, path, links, place):
        """The polygon in which a kept path begins, or None."""
        begins = [at for at in self.holders(place) if not links or any(link[3:] == links[0][3:] for link in self.leave[at])]
        named = self.polygon(path.first)
        return named if named in begins else min(((self.gap(at, place.y), at) for at in begins), default=(None, None))[1]

    def lead(self, first, links, by):
        """The links as which kept ones lead on from a polygon."""
        led = []
        for kept in links:
            on = [link for link in self.leave[first] if link[3:] == kept[3:] and self.is_open(link[2], by)]
            if not on:
                break
            assert len(on) == 1, "two links of a polygon lead through one portal"
            led.append(on[0])
            first = on[0][2]
        return led

    def rest(self, links, cut, goal, by):
        """The most of the last kept links, behind the one that leads on no more, which as they are lead to a polygon that holds the goal."""
        if not links or not self.enters(links[-1], by) or links[-1][2] not in self.holders(goal):
            return []
        at = len(links)
        while at - 1 > cut and self.enters(links[at - 1], by) and (at == len(links) or links[at - 1][2] == links[at][0]):
            at -= 1
        return links[at:]

    def part(self, polygons, start, toward, most):
        """How far a straight way leads through polygons, in at most so many steps along its longer axis: the point, and the place of the first that
        holds it; None where it does not lead a step."""
        n = leg(start, toward)
        for gone in range(most, 0, -1):
            near = [sorted({(n * a + gone * (b - a)) // n, -((n * a + gone * (b - a)) // -n)}) for a, b in zip(start, toward)]
            for p in ((x, z) for x in near[0] for z in near[1]):
                for place, at in enumerate(polygons):
                    if at is not None and self.holds(at, p):
                        return p, place
        return None
