"""Prisms and discs for the second program: which columns they cover, each in two forms, the rectangle of columns that holds these, and which tiles they
touch. Shapes stand as in `play_check.py`: a kind, its numbers, and the area that is set, or None for what stops agents. The numbers of a prism are its
corners, counterclockwise, and its least and greatest floor; those of a disc its centre along x and z, its radius, and these floors. All but floors is in
sixteenths of a cell.
"""
from fractions import Fraction
from functools import lru_cache

from contours import orient


def ends_of(shape):
    """The least and the greatest number of a prism or a disc along x, and along z."""
    kind, numbers, _ = shape
    if kind == "disc":
        return [(at - numbers[2], at + numbers[2]) for at in numbers[:2]]
    return [(min(along), max(along)) for along in zip(*numbers[0])]


def bounds(shape):
    """The first and the last column that has a part in the box of a shape, along x and along z; to touch the box is none."""
    return tuple((low // 16, -(-high // 16) - 1) for low, high in ends_of(shape))


def edges(corners):
    return zip(corners, corners[1:] + corners[:1])


def square(x, z):
    """The corners of a column."""
    return [(16 * x + i, 16 * z + j) for i in (0, 16) for j in (0, 16)]


@lru_cache(maxsize=1 << 17)
def is_over(shape, x, z):
    """Whether a column is covered. What stops covers each with which it shares area: no line along a side of the one has the other beside it. What sets an
    area covers those whose middles it holds."""
    (x0, x1), (z0, z1) = bounds(shape)
    kind, numbers, area = shape
    if not (x0 <= x <= x1 and z0 <= z <= z1):
        return False
    middle = 16 * x + 8, 16 * z + 8
    if kind == "disc":
        cx, cz, r = numbers[:3]
        at = middle if area else tuple(min(max(c, 16 * column), 16 * column + 16) for c, column in ((cx, x), (cz, z)))
        off = (at[0] - cx) ** 2 + (at[1] - cz) ** 2
        return off <= r * r if area else off < r * r
    if area:
        return all(orient(a, b, middle) >= 0 for a, b in edges(numbers[0]))
    return all(max(orient(a, b, corner) for corner in square(x, z)) > 0 for a, b in edges(numbers[0]))


def cut(points, axis, line, sign):
    """The part of a convex polygon on one side of a line along an axis."""
    kept = []
    for a, b in edges(points):
        off_a, off_b = sign * (a[axis] - line), sign * (b[axis] - line)
        if off_a >= 0:
            kept.append(a)
        if off_a * off_b < 0:
            part = Fraction(off_a, off_a - off_b)
            kept.append(tuple(p + part * (q - p) for p, q in zip(a, b)))
    return kept


def area_of(points):
    """Twice the area of a polygon."""
    return sum(a[0] * b[1] - a[1] * b[0] for a, b in edges(points))


def is_over_by_parts(shape, x, z):
    """The same by the part of a prism that lies in the column, or by the height of the prism over the middle; and by all points of the column for a disc."""
    kind, numbers, area = shape
    middle = 16 * x + 8, 16 * z + 8
    if kind == "disc":
        points = [middle] if area else [(16 * x + i, 16 * z + j) for i in range(17) for j in range(17)]
        off = min((px - numbers[0]) ** 2 + (pz - numbers[1]) ** 2 for px, pz in points)
        return off <= numbers[2] ** 2 if area else off < numbers[2] ** 2
    points = list(numbers[0])
    if not area:
        for axis, column in ((0, x), (1, z)):
            points = cut(cut(points, axis, 16 * column, 1), axis, 16 * column + 16, -1)
        return area_of(points) > 0
    line = cut(cut(points, 0, middle[0], 1), 0, middle[0], -1)
    heights = [point[1] for point in line]
    return bool(line) and min(heights) <= middle[1] <= max(heights)


def covers(shape, x, z, floor):
    """Whether a prism or a disc covers a cell."""
    return shape[1][-2] <= floor <= shape[1][-1] and is_over(shape, x, z)


def touches(shape, window, margin):
    """Whether the bounds of a shape, widened by the columns that agents keep from obstacles, have a column in common with a window: x0, x1, z0, z1."""
    return all(low - margin <= last and first <= high + margin for (low, high), (first, last) in zip(bounds(shape), (window[:2], window[2:])))
