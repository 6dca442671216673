#!/usr/bin/env python3
"""Writes a house of two storeys with its yard as a Wavefront OBJ: rooms with doors, two stairs, a balcony with a ramp, trees, rocks and a pond; some
20000 triangles. Lengths are metres, y is up.     usage: examples/building.py > building.obj

    tools/obj2tri.py --area water=2 --area stairs=3 --cost 2=10 --cost 3=2 building.obj > building.tri
"""
import math

vertices, numbers, lines = [], {}, []


def vertex(x, y, z):
    place = (round(x, 3), round(y, 3), round(z, 3))
    if place not in numbers:
        vertices.append(place)
        numbers[place] = len(vertices)
    return numbers[place]


def face(*corners):
    """A face whose front is the side from which its corners run against the clock."""
    lines.append("f " + " ".join(str(vertex(*corner)) for corner in corners))


def part(name, material):
    lines.extend([f"o {name}", f"usemtl {material}"])


def quad(a, b, c, d):
    face(a, b, c)
    face(a, c, d)


def top(x0, x1, z0, z1, y):
    quad((x0, y(x0, z0), z0), (x0, y(x0, z1), z1), (x1, y(x1, z1), z1), (x1, y(x1, z0), z0))


def box(x0, x1, y0, y1, z0, z1):
    at = lambda x, y, z: ((x0, x1)[x], (y0, y1)[y], (z0, z1)[z])
    for corners in ("010 011 111 110", "000 100 101 001", "000 001 011 010", "100 110 111 101", "000 010 110 100", "001 101 111 011"):
        quad(*(at(*map(int, corner)) for corner in corners.split()))


def grid(x0, x1, z0, z1, nx, nz, y, keep=lambda x, z: True):
    for k in range(nz):
        for i in range(nx):
            xa, xb = x0 + (x1 - x0) * i / nx, x0 + (x1 - x0) * (i + 1) / nx
            za, zb = z0 + (z1 - z0) * k / nz, z0 + (z1 - z0) * (k + 1) / nz
            if keep((xa + xb) / 2, (za + zb) / 2):
                top(xa, xb, za, zb, y)


def wall(x0, x1, y, z0, z1, doors=()):
    """A wall along its longer side, 2.7 high, with gaps 2.2 high, each from one place to another."""
    along = x1 - x0 > z1 - z0
    put = (lambda a, b, low, high: box(a, b, low, high, z0, z1)) if along else (lambda a, b, low, high: box(x0, x1, low, high, a, b))
    at, end = (x0, x1) if along else (z0, z1)
    for gap, done in doors:
        put(at, gap, y, y + 2.7)
        put(gap, done, y + 2.2, y + 2.7)
        at = done
    put(at, end, y, y + 2.7)


def hill(x, z):
    """The yard: level round the house, hills beyond, and a hollow for the pond."""
    away = max(0.0, max(abs(x - 30) - 16, abs(z - 25) - 12))
    pond = max(0.0, 1 - math.hypot(x - 8, z - 42) / 6)
    return 1.5 + min(1.0, away / 6) * (0.5 * math.sin(x / 4) + 0.4 * math.cos(z / 5)) - 1.2 * pond


def cone(x, z, radius, y0, y1, sides):
    for i in range(sides):
        a, b = 2 * math.pi * i / sides, 2 * math.pi * (i + 1) / sides
        face((x + radius * math.cos(b), y0, z + radius * math.sin(b)), (x + radius * math.cos(a), y0, z + radius * math.sin(a)), (x, y1, z))


def tree(x, z):
    y = hill(x, z)
    for i in range(8):
        a, b = math.pi * i / 4, math.pi * (i + 1) / 4
        quad(*((x + 0.2 * math.cos(t), y + h, z + 0.2 * math.sin(t)) for t, h in ((a, -0.3), (a, 3.0), (b, 3.0), (b, -0.3))))
    for low in (2.2, 3.0, 3.8):
        cone(x, z, 2.2 - low / 3, y + low, y + low + 1.6, 12)


def rock(x, z, size):
    y, rings, sides = hill(x, z), 5, 10
    place = lambda i, k: (x + size * math.sin(math.pi * k / rings) * math.cos(2 * math.pi * i / sides), y + 0.7 * size * math.cos(math.pi * k / rings),
        z + size * math.sin(math.pi * k / rings) * math.sin(2 * math.pi * i / sides))
    for k in range(rings):
        for i in range(sides):
            quad(place(i, k), place(i + 1, k), place(i + 1, k + 1), place(i, k + 1))


def house():
    ground, upper, roof = 1.6, 4.6, 7.6
    part("ground_floor", "floor")
    grid(18, 42, 17, 33, 48, 32, lambda x, z: ground)
    part("upper_floor", "floor")
    hole = lambda x, z: not (19 < x < 21.5 and 19 < z < 26 or 38.5 < x < 41 and 24 < z < 31)
    grid(18, 42, 17, 33, 48, 32, lambda x, z: upper, hole)
    grid(18, 42, 17, 33, 24, 16, lambda x, z: roof)
    part("walls", "wall")
    for y, door in ((ground, [(29, 31)]), (upper, [])):
        wall(18, 42, y, 17, 17.3, door)
        wall(18, 42, y, 32.7, 33, door)
        wall(18, 18.3, y, 17.3, 32.7, [(24, 25.2)] if y == ground else [])
        wall(41.7, 42, y, 17.3, 32.7, [(20, 22)] if y == upper else [])
        wall(26, 26.2, y, 17.3, 32.7, [(19, 20.4), (28, 29.4)])
        wall(34, 34.2, y, 17.3, 32.7, [(20, 21.4), (29, 30.4)])
        wall(26.2, 34, y, 24.9, 25.1, [(28, 29.4)])
    part("stairs", "stairs")
    for step in range(15):
        height = ground + 0.2 * (step + 1)
        box(19, 21.5, height - 0.2, height, 25.5 - step * 0.43, 26 - step * 0.43)
        box(38.5, 41, height - 0.2, height, 24 + step * 0.46, 24.5 + step * 0.46)
    part("balcony", "floor")
    box(42, 46, upper - 0.2, upper, 18, 24)
    part("ramp", "ramp")
    grid(43, 46, 24, 34, 6, 20, lambda x, z: upper - (z - 24) * 0.308)


def yard():
    part("yard", "grass")
    grid(0, 60, 0, 50, 76, 62, hill, lambda x, z: not (18.4 < x < 41.6 and 17.4 < z < 32.6))
    part("pond", "water")
    grid(3, 13, 37, 47, 10, 10, lambda x, z: 1.0, lambda x, z: math.hypot(x - 8, z - 42) < 5)
    part("trees", "wood")
    for i in range(40):
        x, z = (i * 17) % 59 + 0.7, (i * 29) % 49 + 0.6
        if max(abs(x - 30) - 17, abs(z - 25) - 12) > 0:
            tree(x, z)
    part("rocks", "stone")
    for i in range(16):
        x, z = (i * 23 + 5) % 57 + 1.5, (i * 31 + 11) % 47 + 1.5
        if max(abs(x - 30) - 17, abs(z - 25) - 12) > 0:
            rock(x, z, 0.4 + i % 5 * 0.25)


house()
yard()
print("# a house of two storeys with its yard, from examples/building.py")
print("\n".join("v %g %g %g" % place for place in vertices))
print("\n".join(lines))
