"""The mesh of one tile by outlines, and by strips, read from the rules of docs/MESH.md part by part, for the second program `play_check.py`.
Dictionaries, lists and exact fractions; it shares nothing with `navd`, and is slow.

A place is (x, z, level) and names a cell; a corner is (x, z) in whole cells; directions are 0 to 3 for x - 1, z + 1, x + 1, z - 1.
A built tile is its polygons, its inner links, its rim and its homes:
  polygons   a list of (corners counterclockwise, area, least floor, greatest floor)
  links      a list of (polygon, edge, polygon entered, left end, right end), the ends in sixteenths of a cell
  rim        for (place, side), where that cell has a kept neighbour across that side: (polygon, edge)
  homes      for each polygon the places of the cells that it stands for: those of its region, or of its strip
"""
from fractions import Fraction


def orient(a, b, c):
    """Above 0 where c lies to the left of the way from a to b."""
    return (b[0] - a[0]) * (c[1] - a[1]) - (b[1] - a[1]) * (c[0] - a[0])


def square(a, b):
    """The square of the distance of two points."""
    return (a[0] - b[0]) ** 2 + (a[1] - b[1]) ** 2


def sixteenths(corner):
    return 16 * corner[0], 16 * corner[1]


class Tile:
    """The free cells of a tile: `cells` has floor and area by place, `window` is (x0, x1, z0, z1), ends included, and near(place, dir) is the
    place of the kept cell, free or not, in this tile or another, to which the cell is connected, or None."""

    def __init__(self, window, cells, near):
        self.window, self.cells, self.near = window, cells, near
        self.strips = self.find_strips()
        self.strip_of = {place: i for i, strip in enumerate(self.strips) for place in strip}
        self.regions = self.find_regions()
        self.region_of = {place: i for i, region in enumerate(self.regions) for strip in region for place in strip}

    def free(self, place, dir):
        """The free cell of this tile to which a cell is connected, or None."""
        to = self.near(place, dir)
        return to if to in self.cells else None

    def crosses(self, place, dir):
        """Whether a cell is connected to a kept cell of another tile."""
        to = self.near(place, dir)
        x0, x1, z0, z1 = self.window
        return to is not None and not (x0 <= to[0] <= x1 and z0 <= to[1] <= z1)

    def find_strips(self):
        """The maximal runs of cells of one area in one row, each connected to the next, in the order of their first cells."""
        after = {}
        for place in self.cells:
            to = self.free(place, 2)
            if to is not None and self.cells[to][1] == self.cells[place][1]:
                after[place] = to
        strips = []
        for first in sorted(set(self.cells) - set(after.values()), key=lambda place: (place[1], place[0], place[2])):
            strip = [first]
            while strip[-1] in after:
                strip.append(after[strip[-1]])
            strips.append(strip)
        return strips

    def touched(self, strip, dir):
        """The numbers of the strips that a strip touches in a direction."""
        return {self.strip_of[self.free(place, dir)] for place in strip if self.free(place, dir) is not None}

    def joined(self, s):
        """The number of the strip of the next row that strip s joins, or None."""
        low = self.strips[s]
        above = self.touched(low, 1)
        if len(above) != 1:
            return None
        t = min(above)
        high = self.strips[t]
        if self.touched(high, 3) != {s} or self.cells[low[0]][1] != self.cells[high[0]][1]:
            return None
        over = {place[0]: place for place in high}
        return t if all(self.near(place, 1) == over[place[0]] for place in low if place[0] in over) else None

    def find_regions(self):
        """The maximal chains of joined strips, by their first strips."""
        above = {s: self.joined(s) for s in range(len(self.strips))}
        regions = []
        for s in range(len(self.strips)):
            if s not in above.values():
                chain = [s]
                while above[chain[-1]] is not None:
                    chain.append(above[chain[-1]])
                regions.append([self.strips[i] for i in chain])
        return regions

    def floors(self, places):
        """The area of some cells, and their least and greatest floor."""
        floors = [self.cells[place][0] for place in places]
        return self.cells[places[0]][1], min(floors), max(floors)

    def contour(self, region):
        """The rim of a region, once round from the least corner: a list of (beginning, end, code, (cell, direction))."""
        rim = {}
        for place in (place for strip in self.regions[region] for place in strip):
            x, z, _ = place
            ends = {3: ((x, z), (x + 1, z)), 2: ((x + 1, z), (x + 1, z + 1)), 1: ((x + 1, z + 1), (x, z + 1)), 0: ((x, z + 1), (x, z))}
            for dir in range(4):
                to = self.free(place, dir)
                if to is not None and self.region_of[to] == region:
                    continue
                code = ("side", dir) if self.crosses(place, dir) else ("wall",) if to is None else ("region", self.region_of[to])
                assert ends[dir][0] not in rim, "two edges begin at one corner"
                rim[ends[dir][0]] = ends[dir] + (code, (place, dir))
        walk = [rim[min(rim)]]
        while walk[-1][1] != walk[0][0]:
            walk.append(rim[walk[-1][1]])
        assert len(walk) == len(rim), "the rim is not one ring"
        return walk


def deviation(a, b, p):
    """The square of the distance of p from the segment from a to b."""
    along = (p[0] - a[0]) * (b[0] - a[0]) + (p[1] - a[1]) * (b[1] - a[1])
    if along <= 0:
        return Fraction(square(a, p))
    if along >= square(a, b):
        return Fraction(square(b, p))
    return Fraction(orient(a, b, p) ** 2, square(a, b))


def kept_of_run(points, error):
    """The places of the inner corners that are kept of a run, which is walked from its first point."""
    kept, halves = [], [(0, len(points) - 1)]
    while halves:
        low, high = halves.pop()
        far = [(deviation(points[low], points[high], points[i]), -i) for i in range(low + 1, high)]
        if far and 100 * max(far)[0] > error:
            most = -max(far)[1]
            kept.append(most)
            halves += [(low, most), (most, high)]
    return kept


def outline(contour, error):
    """The places of the contour's corners that are kept, rising, or None where fewer than three are."""
    count, points = len(contour), [edge[0] for edge in contour]
    first = [i for i in range(count) if contour[i - 1][2] != contour[i][2]]
    if not first:
        first = sorted([points.index(min(points)), points.index(max(points))])
    kept = set(first)
    for start, end in zip(first, first[1:] + [first[0] + count]):
        run = [i % count for i in range(start, end + 1)]
        if points[run[0]] > points[run[-1]]:
            run.reverse()
        kept |= {run[i] for i in kept_of_run([points[i] for i in run], error)}
    return sorted(kept) if len(kept) >= 3 else None


def triangles(corners):
    """The triangles that the ears of an outline give, as lists of three places; or None where there is no ear left."""
    rest, found = list(range(len(corners))), []

    def around(i):
        return rest[i - 1], rest[i], rest[(i + 1) % len(rest)]

    def is_ear(i):
        a, b, c = (corners[place] for place in around(i))
        return orient(a, b, c) > 0 and not any(
            orient(a, b, p) >= 0 and orient(b, c, p) >= 0 and orient(c, a, p) >= 0 for p in (corners[j] for j in rest) if p not in (a, b, c))

    while len(rest) > 3:
        ears = [(square(corners[around(i)[0]], corners[around(i)[2]]), i) for i in range(len(rest)) if is_ear(i)]
        if not ears:
            return None
        at = min(ears)[1]
        found.append(list(around(at)))
        del rest[at]
    return found + [rest] if orient(*(corners[place] for place in rest)) > 0 else None


def is_strictly_convex(points):
    count = len(points)
    return all(orient(points[i], points[(i + 1) % count], points[j]) > 0
               for i in range(count) for j in range(count) if j not in (i, (i + 1) % count))


def turned(piece, edge):
    """A piece from the end of an edge on, without the edge's beginning."""
    return piece[edge + 1:] + piece[:edge]


def pieces(corners, found):
    """The triangles, united over their longest shared edges while that is allowed."""
    found = list(found)
    while True:
        best = None
        for p, one in enumerate(found):
            for q in range(p + 1, len(found)):
                two = found[q]
                if len(one) + len(two) > 8:
                    continue
                for e in range(len(one)):
                    i, j = one[e], one[(e + 1) % len(one)]
                    for f in range(len(two)):
                        if (two[f], two[(f + 1) % len(two)]) != (j, i):
                            continue
                        union, key = turned(one, e) + turned(two, f), (-square(corners[i], corners[j]), p, q, e)
                        if is_strictly_convex([corners[place] for place in union]) and (best is None or key < best[0]):
                            best = key, union
        if best is None:
            return found
        (_, p, q, _), union = best
        found[p] = union
        del found[q]


def facing(door, doors):
    """The door that a door faces, or None. A door is (polygon, edge, region, places, ends, code or None)."""
    _, _, region, (i, j), (u, v), code = door
    for other in doors.get((v, u), []):
        same_places = other[2] == region and other[3] == (j, i)
        named = code == ("region", other[2]) and other[5] == ("region", region)
        if other is not door and (same_places or named):
            return other
    return None


def build_by_outlines(tile, error):
    """The built tile by outlines, or None where a contour is flat or an outline cannot be cut."""
    polygons, homes, doors, rim_edges = [], [], [], []
    for region, strips in enumerate(tile.regions):
        places = [place for strip in strips for place in strip]
        contour = tile.contour(region)
        kept = outline(contour, error)
        corners = kept and [contour[i][0] for i in kept]
        cut = kept and triangles(corners)
        if not cut:
            return None
        for piece in pieces(corners, cut):
            for edge, i in enumerate(piece):
                j = piece[(edge + 1) % len(piece)]
                code = contour[kept[i]][2] if j == (i + 1) % len(corners) else None
                doors.append((len(polygons), edge, region, (i, j), (corners[i], corners[j]), code))
            polygons.append(([corners[i] for i in piece],) + tile.floors(places))
            homes.append(places)
        for at, (_, _, code, (place, dir)) in enumerate(contour):
            if code[0] == "side":
                before = [n for n, i in enumerate(kept) if i <= at]
                n = before[-1] if before else len(kept) - 1
                rim_edges.append((region, n, (n + 1) % len(kept), place, dir))
    by_ends, by_places = {}, {}
    for door in doors:
        by_ends.setdefault(door[4], []).append(door)
        by_places[(door[2],) + door[3]] = door
    links = []
    for door in doors:
        other = facing(door, by_ends)
        if other is not None:
            links.append((door[0], door[1], other[0], sixteenths(door[4][1]), sixteenths(door[4][0])))
    rim = {(place, dir): by_places[region, i, j][:2] for region, i, j, place, dir in rim_edges}
    return polygons, links, rim, homes


def runs_of(positions):
    """Splits {position: value} into its maximal runs of successive positions of one value: a list of (first, end, value)."""
    runs = []
    for at in sorted(positions):
        if runs and runs[-1][1] == at and runs[-1][2] == positions[at]:
            runs[-1] = (runs[-1][0], at + 1, positions[at])
        else:
            runs.append((at, at + 1, positions[at]))
    return runs


def portal(dir, line, first, end):
    """The left and the right end, in sixteenths, of a portal toward a direction: on that row or column of corners, from first to end."""
    low, high = ((16 * line, 16 * first), (16 * line, 16 * end)) if dir in (0, 2) else ((16 * first, 16 * line), (16 * end, 16 * line))
    return (low, high) if dir in (0, 1) else (high, low)


def build_by_strips(tile):
    """The built tile with one rectangle a strip."""
    polygons, links, rim = [], [], {}
    for number, strip in enumerate(tile.strips):
        (x0, z, _), x1 = strip[0], strip[-1][0]
        polygons.append(([(x0, z), (x1 + 1, z), (x1 + 1, z + 1), (x0, z + 1)],) + tile.floors(strip))
        for dir in range(4):
            line = [x0, z + 1, x1 + 1, z][dir]
            entered = {}
            for place in [strip[:1], strip, strip[-1:], strip][dir]:
                to = tile.free(place, dir)
                if to is not None:
                    entered[place[1] if dir in (0, 2) else place[0]] = tile.strip_of[to]
                elif tile.crosses(place, dir):
                    rim[place, dir] = (number, 3 - dir)
            for first, end, to in runs_of(entered):
                links.append((number, 3 - dir, to) + portal(dir, line, first, end))
    return polygons, links, rim, tile.strips


def build(window, cells, near, error):
    """The built tile: by outlines where `error` is a number and they can be had, else by strips."""
    tile = Tile(window, cells, near)
    by_outlines = None if error is None else build_by_outlines(tile, error)
    return build_by_strips(tile) if by_outlines is None else by_outlines
