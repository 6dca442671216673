"""The mesh of a small level by the second program, with the cells of each polygon, and what can be read off it about places by trying: for
`places_check.py` and the files beside it.

A polygon is named by its tile and its place there. A place is the name of a polygon, a point in sixteenths of a cell, and a floor.
"""
import random
from functools import cached_property

from second import names_of
from ways_mesh import orient


def sixteenths(corners):
    return [(16 * x, 16 * z) for x, z in corners]


def holds(around, point):
    """Whether a polygon, by its corners in sixteenths, holds a point: it lies to the right of no edge."""
    return all(orient(a, b, point) >= 0 for a, b in zip(around, around[1:] + around[:1]))


def rows_by_all(around):
    """By x the least and the greatest z of the whole points that a polygon holds: each point of its box is tried."""
    (left, right), (low, high) = ((min(values), max(values)) for values in zip(*around))
    held = {x: [z for z in range(low, high + 1) if holds(around, (x, z))] for x in range(left, right + 1)}
    return {x: (zs[0], zs[-1]) for x, zs in held.items() if zs}


def rows_of(around):
    """The same by one division an edge."""
    (left, right), (low, high) = ((min(values), max(values)) for values in zip(*around))
    rows = {}
    for x in range(left, right + 1):
        first, last = low, high
        for (ax, az), (bx, bz) in zip(around, around[1:] + around[:1]):
            rise = (bz - az) * (x - ax)
            if bx > ax:
                first = max(first, az - -rise // (bx - ax))
            elif bx < ax:
                last = min(last, az + -rise // (ax - bx))
            elif rise > 0:
                last = first - 1
        if first <= last:
            rows[x] = first, last
    return rows


class Face:
    """A polygon: its corners, counterclockwise in whole cells and in sixteenths, its area, least and greatest floor, and the columns and floors of its
    cells."""

    def __init__(self, polygon, cells):
        self.corners, self.area, self.low, self.high = polygon
        self.cells, self.around, self.columns = cells, sixteenths(self.corners), {}
        for x, z, floor in cells:
            self.columns.setdefault((x, z), []).append(floor)

    @cached_property
    def rows(self):
        """The rows of points that it holds."""
        rows = rows_of(self.around)
        if random.randrange(50) == 0 and len(rows) < 300:
            assert rows == rows_by_all(self.around), f"two forms of the rows of {self.corners}"
        return rows

    @cached_property
    def over(self):
        """By floor the points that it holds over its cells of that floor: by x the rising zs."""
        over = {}
        for x, z, floor in self.cells:
            for px in range(16 * x, 16 * x + 17):
                if px in self.rows:
                    zs = range(max(16 * z, self.rows[px][0]), min(16 * z + 16, self.rows[px][1]) + 1)
                    if zs:
                        over.setdefault(floor, {}).setdefault(px, set()).update(zs)
        return {floor: {x: sorted(zs) for x, zs in sorted(points.items())} for floor, points in over.items()}

    @cached_property
    def beside(self):
        """Points that it holds in columns in which it has no cell, but for those on the columns' sides."""
        xs, zs = (range(min(at), max(at)) for at in zip(*self.corners))
        return [point for point in ((16 * x + 8 + i, 16 * z + 8 - i) for x in xs for z in zs if (x, z) not in self.columns for i in (-7, 0, 3))
                if self.holds(point)]

    def holds(self, point):
        return holds(self.around, point)

    def below(self, point):
        """The floors of the cells below a point."""
        columns = {(x, z) for x in {point[0] // 16, (point[0] - 1) // 16} for z in {point[1] // 16, (point[1] - 1) // 16}}
        return {floor for column in columns for floor in self.columns.get(column, [])}

    def floors(self, point):
        """The floors of the cells of which none is nearer to a point."""
        below = self.below(point)
        if below and random.randrange(20):
            return below
        def gap(x, z):
            return sum(max(0, 16 * at - p, p - 16 * (at + 1)) ** 2 for at, p in zip((x, z), point))
        least = min(gap(x, z) for x, z, _ in self.cells)
        nearest = {floor for x, z, floor in self.cells if gap(x, z) == least}
        assert not below or nearest == below, f"two forms of the floors at {point}"
        return nearest


class Ground:
    """A level by the second program: the faces by name, and by the name of the polygon that they leave the links: the edge, the polygon that is entered,
    and the left and the right end of the portal."""

    def __init__(self, text):
        self.names, self.kept = names_of(text), {}
        self.climb, self.width, self.depth, costs = (self.names[name] for name in ("climb", "width", "depth", "costs"))
        self.costs = [costs.get(area, 1) for area in range(64)]

    def publish(self, obstacles):
        """The mesh under these obstacles."""
        self.names["published"] = dict(obstacles)
        self.faces = {}
        for tile, free in enumerate(self.names["free_now"]()):
            key = tile, frozenset(free.items())
            if key not in self.kept:
                polygons, _, _, homes = self.names["built"](tile, free)
                self.kept[key] = [Face(polygon, [(x, z, free[x, z, level][0]) for x, z, level in home]) for polygon, home in zip(polygons, homes)]
            self.faces.update({(tile, index): face for index, face in enumerate(self.kept[key])})
        self.links = self.names["mesh_now"]()[1]

    def shown(self):
        """What a view has to show: the polygons by name, and all links in order."""
        return ({name: (face.corners, face.area, face.low, face.high) for name, face in self.faces.items()},
                sorted((name, *link) for name, leave in self.links.items() for link in leave))

    def is_open(self, name, areas):
        return areas >> self.faces[name].area & 1 == 1

    def nearest(self, asked):
        """The nearest place of those in reach that stand: its polygon, point and floor."""
        best = None
        across, along = ([(at - asked[axis]) ** 2 for at in range(16 * side + 1)] for axis, side in (("x", self.width), ("z", self.depth)))
        for name, face in self.faces.items():
            if not self.is_open(name, asked["areas"]):
                continue
            for floor, points in face.over.items():
                if floor + asked["down"] < asked["y"] or asked["y"] + asked["up"] < floor:
                    continue
                square, x = min((across[x] + min(map(along.__getitem__, zs)), x) for x, zs in points.items())
                z = next(z for z in points[x] if across[x] + along[z] == square)
                if square <= asked["reach"] ** 2:
                    off = abs(floor - asked["y"])
                    measure = square + (asked["weight"] * max(0, off - self.climb)) ** 2
                    if best is None or (measure, off, name, (x, z), floor) < best:
                        best = measure, off, name, (x, z), floor
        return best and best[2:]

    def height(self, name, point):
        """The highest floor at a point of a polygon; None where that does not hold the point."""
        face = self.faces.get(name)
        return max(face.floors(point)) if face and face.holds(point) else None

    def is_place(self, name, point, floor):
        face = self.faces.get(name)
        return face is not None and face.holds(point) and floor in face.floors(point)

    def cells_of(self, areas):
        """The cells of some areas, tile by tile, storey by storey and row by row: the tile, the cells of the storey, and the cell."""
        told, before = [], None
        for (tile, _), face in self.faces.items():
            storey = tile, face.cells
            if storey != before and areas >> face.area & 1:
                told += [(*storey, cell) for cell in sorted(face.cells, key=lambda cell: (cell[1], cell[0]))]
            before = storey
        return told

    def drawn(self, cells, draw):
        """The place that a number draws of some cells, or why there is none: `nowhere` where there are no cells, `cut` where no polygon of the storey
        holds the cell's middle."""
        if not cells:
            return "nowhere"
        tile, storey, (x, z, floor) = cells[draw * len(cells) // 2**64]
        middle = 16 * x + 8, 16 * z + 8
        over = [name for name, face in self.faces.items() if name[0] == tile and face.cells == storey and face.holds(middle)]
        return (min(over), middle, floor) if over else "cut"
