"""Upright walls that lie on lines between columns.

navd raster lets a triangle vanish that stands on a line between columns, since no point of it lies inside a column. So a model is moved by some
sixteenths of a cell, and here is found by how many. Triangles are given in whole sixteenths, units and sixteenths.
"""
from frames import PARTS


def upright(triangles):
    """For x and for z, the upright walls across that axis: by their place on it and the column along them, the least and the greatest height."""
    walls = ({}, {})
    for three in triangles:
        heights = [corner[1] for corner in three]
        for axis, along in ((0, 2), (2, 0)):
            places = {corner[axis] for corner in three}
            ends = [corner[along] for corner in three]
            if len(places) == 1 and min(ends) < max(ends):
                for column in range(min(ends) // PARTS, -(-max(ends) // PARTS)):
                    key = min(places), column
                    low, high = walls[axis // 2].get(key, (heights[0], heights[0]))
                    walls[axis // 2][key] = min(low, *heights), max(high, *heights)
    return walls


def lengths(walls, climb):
    """For each shift along an axis, how many cells of walls it leaves on lines; what is no higher than a step is no wall."""
    found = [0] * PARTS
    for (place, _), (low, high) in walls.items():
        if high - low > climb:
            found[-place % PARTS] += 1
    return found


def longest(walls, climb, shift):
    """The place on the axis, from where walls are measured, of the longest wall that a shift leaves on a line."""
    found = {}
    for (place, _), (low, high) in walls.items():
        if high - low > climb and (place + shift) % PARTS == 0:
            found[place] = found.get(place, 0) + 1
    return max(found, key=found.get)
