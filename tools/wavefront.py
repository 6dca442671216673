"""Reads a Wavefront OBJ file as triangles with areas."""
import math
from dataclasses import dataclass

from frames import turned
from inputs import Trouble


@dataclass
class Model:
    """The vertices of a file; its faces, each a list of vertex numbers from 0 with the names of its material and of its group."""

    vertices: list
    faces: list


def logical_lines(lines):
    """Each line with its number, without what stands behind a #; lines that end with a backslash go on in the next one."""
    carried = ""
    for number, text in enumerate(lines, 1):
        text = carried + text.split("#", 1)[0].strip()
        carried = text[:-1] + " " if text.endswith("\\") else ""
        if not carried:
            yield number, text


def read(lines):
    """The model that the lines of a file tell."""
    model, material, group = Model([], []), "", ""
    for number, text in logical_lines(lines):
        word, _, rest = text.partition(" ")
        if word == "v":
            model.vertices.append(vertex(number, text, rest.split()))
        elif word == "usemtl":
            material = rest.strip()
        elif word in ("o", "g"):
            group = rest.strip()
        elif word == "f":
            model.faces.append((face(number, text, rest.split(), len(model.vertices)), material, group))
    if not model.faces:
        raise Trouble("the file has no face: an OBJ file has lines `v X Y Z` and `f A B C`")
    return model


def vertex(number, text, words):
    try:
        place = tuple(map(float, words[:3]))
    except ValueError:
        place = ()
    if len(place) < 3 or not all(map(math.isfinite, place)):
        raise Trouble(f"line {number}: a vertex needs three numbers: {text[:60]!r}")
    return place


def face(number, text, words, count):
    try:
        corners = [int(word.split("/")[0]) for word in words]
    except ValueError as error:
        raise Trouble(f"line {number}: a face needs numbers of vertices: {text[:60]!r}") from error
    corners = [at - 1 if at > 0 else count + at for at in corners]
    if len(corners) < 3:
        raise Trouble(f"line {number}: a face has fewer than three corners")
    if not all(0 <= at < count for at in corners):
        raise Trouble(f"line {number}: a face names a vertex that is not there: there are {count} so far")
    return corners


def triangles(model, given):
    """Each triangle as its three points, x, height and z, and its area; steep ones and backs have area 0."""
    areas, unused = dict(given.area), {name for name, _ in given.area}
    points = [turned([part * given.scale for part in place], given.up) for place in model.vertices]
    found = []
    for corners, material, group in model.faces:
        name = material if material in areas else group
        unused.discard(name)
        area = areas.get(name, given.default_area)
        for b, c in zip(corners[1:], corners[2:]):
            three = (points[corners[0]], points[b], points[c])
            found.append((three, area if is_walkable(*three, given) else 0))
    return found, sorted(unused)


def is_walkable(a, b, c, given):
    u, v = [[q - p for p, q in zip(a, other)] for other in (b, c)]
    normal = (u[1] * v[2] - u[2] * v[1], u[2] * v[0] - u[0] * v[2], u[0] * v[1] - u[1] * v[0])
    length = math.sqrt(sum(part * part for part in normal))
    up = abs(normal[1]) if given.both_sides else normal[1]
    return length > 0 and up >= length * math.cos(math.radians(given.slope)) - 1e-9 * length and up > 0


def cropped(found, box):
    """What lies in a box: each triangle is cut to it, by pairs of a low and a high end along x, height and z."""
    kept = []
    for three, area in found:
        corners = list(three)
        for axis, (low, high) in enumerate(box):
            corners = cut(cut(corners, axis, low, 1), axis, -high, -1)
        kept += [((corners[0], b, c), area) for b, c in zip(corners[1:], corners[2:])]
    return kept


def cut(corners, axis, low, sign):
    """The part of a polygon whose coordinate, times the sign, is not below a number."""
    above = [sign * corner[axis] - low for corner in corners]
    if all(part >= 0 for part in above):
        return corners
    kept = []
    for at, (corner, part) in enumerate(zip(corners, above)):
        before, other = corners[at - 1], above[at - 1]
        if (part < 0) != (other < 0):
            share = other / (other - part)
            kept.append(tuple(p + (q - p) * share for p, q in zip(before, corner)))
        if part >= 0:
            kept.append(corner)
    return kept if len(kept) >= 3 else []
