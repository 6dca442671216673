#!/usr/bin/env python3
"""A plain second program for `navd play`: works an input out and compares what `navd` wrote for it, line by line. It finds the ground from the
rules, over dictionaries of columns and cells with a queue for the clearance, tests every shape against every cell, measures the clearance
from obstacles among all cells of a tile and round it, and builds tiles by strips or by outlines with `contours.py`. Of a path or a hop walk
it finds the least cost by a search of its own, and tests that the links and jumps are a walk of that cost and that the turns of each stretch
of links are taut, part by part of the rule. It follows a ray from polygon to polygon with reduced fractions and sorted lists. The published
mesh is made from scratch from the shapes that were alive, and the book of tiles that await a build has nothing but lists of shapes. It
shares nothing with `navd`, and is slow.

usage: play_check.py INPUT OUTPUT [SUMMARY]      ends with 1 and says where, at the first line that is wrong
With SUMMARY it also compares what `navd gen` wrote, of which INPUT is the made input, with what it counted.
"""
import heapq
import math
import sys
from fractions import Fraction

import contours

DIRECTIONS = [(-1, 0), (0, 1), (1, 0), (0, -1)]
BELOW_ALL = -10 ** 9
HISTORY_LIMIT = 262144

lines = open(sys.argv[1]).read().split("\n")[:-1]
told = open(sys.argv[2]).read().split("\n")[:-1]
width, depth = map(int, lines[1].split()[1:])
tile_side = int(lines[2].split()[1])
height, climb, radius = map(int, lines[3].split()[1:])
error = int(lines[4].split()[1]) if lines[5] == "mesh contours" else None
limit = int(lines[6].split()[1])
at, costs = 7, {}
clear = lines[0] == "nav 2" and lines[7] == "clear 1"
if lines[0] == "nav 2":
    at = 8
margin = radius if clear else 0
while lines[at].startswith("cost "):
    area, cost = map(int, lines[at].split()[1:])
    costs[area] = cost
    at += 1
columns = {(x, z): [] for x in range(width) for z in range(depth)}
while lines[at] != "end":
    x, z, bottom, top, area = map(int, lines[at].split()[1:])
    columns[x, z].append((bottom, top, area))
    at += 1
lanes, workers = map(int, lines[at + 1].split()[1:])


def ceiling(spans, i):
    return spans[i + 1][0] if i + 1 < len(spans) else 65535


def gaps(spans):
    floors = [BELOW_ALL] + [span[1] for span in spans]
    return [(floor, spans[i][0] if i < len(spans) else 65535) for i, floor in enumerate(floors)]


def fits(low, high):
    return min(low[1], high[1]) - max(low[0], high[0]) >= height


def hung(spans):
    """The areas of a column after low hanging spans took those of the spans below them."""
    areas = [span[2] for span in spans]
    return [spans[i - 1][2] if i > 0 and area == 0 and spans[i][1] - spans[i - 1][1] <= climb else area
            for i, area in enumerate(areas)]


def is_ledge(x, z, own):
    near = [own[0]]
    for dx, dz in DIRECTIONS:
        if (x + dx, z + dz) not in columns:
            return True
        for gap in gaps(columns[x + dx, z + dz]):
            if fits(own, gap):
                if gap[0] < own[0] - climb:
                    return True
                if abs(gap[0] - own[0]) <= climb:
                    near.append(gap[0])
    return max(near) - min(near) > climb


# Cells by column: a list of [floor, ceiling, area, neighbours], from the bottom up.
cells = {}
for (x, z), spans in columns.items():
    cells[x, z] = []
    for i, area in enumerate(hung(spans)):
        own = (spans[i][1], ceiling(spans, i))
        if area and own[1] - own[0] >= height and not is_ledge(x, z, own):
            cells[x, z].append([own[0], own[1], area, [None] * 4])
for (x, z), column in cells.items():
    for cell in column:
        for dir, (dx, dz) in enumerate(DIRECTIONS):
            for other in cells.get((x + dx, z + dz), []):
                if fits(cell, other) and abs(cell[0] - other[0]) <= climb:
                    cell[3][dir] = other



def clearances(those):
    """The clearance of each of these cells among them, by its identity: the least cost of a walk over them from one that has not four
    neighbours among them. A cell to which no such walk leads has none."""
    there = {id(cell) for cell in those}

    def next_of(cell, dir):
        by = cell[3][dir]
        return by if id(by) in there else None

    found = {id(cell): 0 for cell in those if any(next_of(cell, dir) is None for dir in range(4))}
    queue = [(0, id(cell), cell) for cell in those if id(cell) in found]
    heapq.heapify(queue)
    while queue:
        cost, key, cell = heapq.heappop(queue)
        if cost > found[key]:
            continue
        for dir in range(4):
            by = next_of(cell, dir)
            if by is None:
                continue
            for further, to in [(2, by), (3, next_of(by, (dir + 1) % 4)), (3, next_of(by, (dir + 3) % 4))]:
                if to is not None and cost + further < found.get(id(to), 10 ** 9):
                    found[id(to)] = cost + further
                    heapq.heappush(queue, (cost + further, id(to), to))
    return found


def well_clear(those):
    """The identities of these cells whose clearance among them is at least twice the radius."""
    found = clearances(those)
    return {id(cell) for cell in those if found.get(id(cell), 10 ** 9) >= 2 * radius}


far_from_walls = well_clear([cell for column in cells.values() for cell in column])
kept = {(x, z): [cell for cell in column if id(cell) in far_from_walls] for (x, z), column in cells.items()}
place_of = {id(cell): (x, z, level) for (x, z), column in cells.items() for level, cell in enumerate(column)}
kept_at = {place_of[id(cell)]: cell for column in kept.values() for cell in column}

# The history, what is alive after it, and what is alive after the entries up to the target and after the published ones.
history, alive, lane = [], {}, 0
target_length, target = 0, {}
published_length, published = 0, {}
# The list of shapes that each tile was built with, the tiles that are claimed, and the tile and its list that each worker holds.
tile_count = -(-width // tile_side) * -(-depth // tile_side)
stored, claimed, held = [[] for _ in range(tile_count)], set(), [None] * workers
adds = [[] for _ in range(lanes)]
jumps = []
free_kept, mesh_kept, built_kept = None, None, {}
said = 0
counts = {"path": 0, "nopath": 0, "nostart": 0, "nogoal": 0, "cost": 0}


def fail(place, why):
    print(f"line {place + 1} of the output is wrong: {why}")
    sys.exit(1)


def expect(wanted):
    """The next line of the output is this one."""
    global said
    if said >= len(told) or told[said] != wanted:
        fail(said, f"`{wanted}` is wanted")
    said += 1


def tile_of(x, z):
    return z // tile_side * -(-width // tile_side) + x // tile_side


def window(tile):
    """The columns of a tile: x0, x1, z0, z1, ends included."""
    row, column = divmod(tile, -(-width // tile_side))
    x0, z0 = column * tile_side, row * tile_side
    return x0, min(x0 + tile_side, width) - 1, z0, min(z0 + tile_side, depth) - 1


def covers(shape, x, z, floor):
    kind, n, _ = shape
    if kind == "block":
        x0, x1, y0, y1, z0, z1 = n
        return x0 <= x <= x1 and z0 <= z <= z1 and y0 <= floor <= y1
    cx, cz, r, y0, y1 = n
    return (2 * x + 1 - cx) ** 2 + (2 * z + 1 - cz) ** 2 <= (2 * r + 1) ** 2 and y0 <= floor <= y1


def is_blocked(shapes, x, z, floor):
    """Whether a shape that sets no area covers a cell."""
    return any(area is None and covers((kind, n, area), x, z, floor) for kind, n, area in shapes)


def area_under(shapes, x, z, cell):
    """The area of a free cell: what the last area shape that covers it sets, or its own."""
    return ([cell[2]] + [shape[2] for shape in shapes if shape[2] is not None and covers(shape, x, z, cell[0])])[-1]


def touches(shape, tile):
    """Whether the bounds of a shape, widened by the columns that agents keep from obstacles, have a column in common with a tile."""
    x0, x1, z0, z1 = window(tile)
    kind, n, _ = shape
    if kind == "block":
        return n[0] - margin <= x1 and x0 <= n[1] + margin and n[4] - margin <= z1 and z0 <= n[5] + margin
    cx, cz, r = n[:3]
    return (any(abs(2 * x + 1 - cx) <= 2 * r + 1 for x in range(x0 - margin, x1 + margin + 1))
            and any(abs(2 * z + 1 - cz) <= 2 * r + 1 for z in range(z0 - margin, z1 + margin + 1)))


def free_in(tile, shapes):
    """The free cells of a tile under these shapes: the floor and the area of each, by its place. Where agents keep their radius from obstacles
    they are those whose clearance is right among all cells of the tile and as many columns round it that no shape blocks."""
    x0, x1, z0, z1 = window(tile)
    if clear:
        wide = [cell for z in range(z0 - margin, z1 + margin + 1) for x in range(x0 - margin, x1 + margin + 1) for cell in cells.get((x, z), [])]
        right = well_clear([cell for cell in wide if not is_blocked(shapes, *place_of[id(cell)][:2], cell[0])])
    free = {}
    for z in range(z0, z1 + 1):
        for x in range(x0, x1 + 1):
            for cell in kept[x, z]:
                if not is_blocked(shapes, x, z, cell[0]) and (not clear or id(cell) in right):
                    free[place_of[id(cell)]] = cell[0], area_under(shapes, x, z, cell)
    return free


def touching(tile):
    """The touching list of a tile at the target."""
    return [shape for _, shape in sorted(target.items()) if touches(shape, tile)]


def awaited():
    return [tile for tile in range(tile_count) if stored[tile] != touching(tile)]


def publish():
    """Publishes, and says what `publish` answers."""
    global published, published_length
    waiting = awaited()
    if waiting:
        return f"notyet {waiting[0]}"
    if target_length == published_length:
        return f"same {published_length}"
    published, published_length = dict(target), target_length
    return f"published {published_length}"


def aim():
    global target, target_length
    target, target_length = dict(alive), len(history)


def step(word, worker):
    """What a single step of a worker answers."""
    if word == "claim":
        if held[worker] is not None:
            return f"busy {worker}"
        waiting = [tile for tile in awaited() if tile not in claimed]
        if not waiting:
            return f"claim {worker} none"
        claimed.add(waiting[0])
        held[worker] = (waiting[0], touching(waiting[0]))
        return f"claim {worker} tile {waiting[0]}"
    if held[worker] is None:
        return f"idle {worker}"
    (tile, shapes), held[worker] = held[worker], None
    claimed.discard(tile)
    if word == "back":
        return f"back {worker} tile {tile}"
    if tile not in awaited() or shapes != touching(tile):
        return f"submit {worker} stale {tile}"
    stored[tile] = shapes
    return f"submit {worker} taken {tile}"


def request(kind, value):
    if len(history) == HISTORY_LIMIT:
        expect(f"history full {HISTORY_LIMIT}")
        return 0
    number = len(history) + 1
    history.append((lane, kind, value))
    if kind == "add":
        if len(alive) == limit:
            expect(f"entry {number} full {limit}")
            return 0
        alive[number] = value
        expect(f"entry {number} added")
        return number
    if value in alive:
        del alive[value]
        expect(f"entry {number} removed")
    else:
        expect(f"entry {number} dead {value}")
    return 0


def near(place, dir):
    """The place of the kept cell that a kept cell is connected to, or None."""
    by = kept_at[place][3][dir]
    return None if by is None or place_of[id(by)] not in kept_at else place_of[id(by)]


def built(tile, free):
    """The built tile, which is made once for the same free cells."""
    key = tile, frozenset(free.items())
    if key not in built_kept:
        built_kept[key] = contours.build(window(tile), free, near, error)
    return built_kept[key]


def published_mesh():
    """The polygons under the published shapes, by tile and place, and the links that leave each of them: edge, polygon entered, left end,
    right end. Over borders a link goes where two tiles have a connected pair of free cells on their rims."""
    free = free_now()
    polygons, links, rims = {}, {}, {}
    for tile in range(tile_count):
        made, inner, rim, _ = built(tile, free[tile])
        for i, polygon in enumerate(made):
            polygons[tile, i] = polygon
            links[tile, i] = []
        for i, edge, to, left, right in inner:
            links[tile, i].append((edge, (tile, to), left, right))
        for (place, side), (i, edge) in rim.items():
            rims[place, side] = (tile, i), edge
    over = {}
    for (place, side), (name, edge) in rims.items():
        beyond = rims.get((near(place, side), (side + 2) % 4))
        if beyond is not None:
            positions = over.setdefault((name, edge, side), {})
            at = place[1] if side in (0, 2) else place[0]
            assert at not in positions, "one edge has two cells at one position"
            positions[at] = beyond
    for (name, edge, side), positions in over.items():
        x0, x1, z0, z1 = window(name[0])
        for first, end, (to, _) in contours.runs_of(positions):
            links[name].append((edge, to) + contours.portal(side, [x0, z1 + 1, x1 + 1, z0][side], first, end))
    return polygons, links


def holds(corners, point):
    scaled = [(16 * x, 16 * z) for x, z in corners]
    return all(orient(u, v, point) >= 0 for u, v in zip(scaled, scaled[1:] + scaled[:1]))


def locate(mesh, x, z, y):
    best = None
    for name, (corners, _, low, high) in mesh[0].items():
        gap = max(low - y, y - high, 0)
        if gap <= climb and (best is None or (gap, name) < best) and holds(corners, (x, z)):
            best = (gap, name)
    return best and best[1]


def middle(corners):
    """The middle of a polygon's box, in sixteenths."""
    return tuple(8 * (min(values) + max(values)) for values in zip(*corners))


def weight(mesh, a, b):
    d = contours.square(middle(mesh[0][a][0]), middle(mesh[0][b][0]))
    root = math.isqrt(d)
    return max(1, root if root * root == d else root + 1) * costs.get(mesh[0][b][1], 1)


def least_cost(mesh, start, goal, leaps):
    best, queue = {start: 0}, [(0, start)]
    while queue:
        cost, at = heapq.heappop(queue)
        if at == goal:
            return cost
        if cost > best[at]:
            continue
        for to, step in [(to, weight(mesh, at, to)) for _, to, _, _ in mesh[1][at]] + [leap[1:] for leap in leaps.get(at, [])]:
            if cost + step < best.get(to, 10 ** 15):
                best[to] = cost + step
                heapq.heappush(queue, (cost + step, to))
    return None


def leaps_now(mesh):
    """The jumps that are joined, by the polygon that they leave: number, polygon entered, cost."""
    leaps = {}
    for number, (*ends, cost) in enumerate(jumps):
        start, landing = locate(mesh, *ends[:3]), locate(mesh, *ends[3:])
        if start is not None and landing is not None:
            leaps.setdefault(start, []).append((number, landing, cost))
    return leaps


def orient(a, b, c):
    return (b[0] - a[0]) * (c[1] - a[1]) - (b[1] - a[1]) * (c[0] - a[0])


def dot(a, b, c, d):
    return (b[0] - a[0]) * (d[0] - c[0]) + (b[1] - a[1]) * (d[1] - c[1])


def is_fold(a, b):
    return (orient(*a, b[0]) == 0 and orient(*a, b[1]) == 0 and dot(a[1], a[0], b[1], b[0]) < 0
            and dot(a[0], b[0], a[1], a[0]) < 0 and dot(a[1], b[1], a[0], a[1]) < 0)


def is_taut(start, portals, goal, turns):
    """The rule of taut lines, part by part; a turn is a point, a side and a portal's place."""
    stops = [(start, -1)] + [(at, place) for at, _, place in turns] + [(goal, len(portals))]
    for at, side, place in turns:
        if not 0 <= place < len(portals) or at != portals[place]["LR".index(side)]:
            return "an end"
    for one, two in zip(turns, turns[1:]):
        if one[2] > two[2] or one[1:] == two[1:]:
            return "order"
    if len({turn[1:] for turn in turns}) < len(turns):
        return "an end named twice"
    for (p, i), (q, j) in zip(stops, stops[1:]):
        on_line = []
        for left, right in portals[i + 1:j]:
            if orient(p, q, left) < 0 or orient(p, q, right) > 0 or orient(right, left, p) < 0 or orient(right, left, q) > 0:
                return "not through"
            if p == q and dot(left, p, right, p) > 0:
                return "beside"
            if p != q and orient(p, q, left) == 0 == orient(p, q, right):
                far = [dot(p, end, p, q) for end in (left, right)]
                if max(far) < 0 or min(far) > dot(p, q, p, q) or any(min(before) > max(far) for before in on_line):
                    return "not reached"
                on_line.append(far)
    at = 1
    while at < len(stops) - 1:
        end = at
        while stops[end][0] == stops[at][0] and end < len(stops) - 1:
            end += 1
        if stops[end][0] != stops[at][0] and stops[at - 1][0] != stops[at][0]:
            b, c = stops[at - 1][0], stops[at][0]
            bend = turns[at - 1:end - 1]
            held = any(place + 1 < len(portals) and is_fold(portals[place], portals[place + 1]) for _, _, place in bend)
            for side, sign, other in (("L", 1, 1), ("R", -1, 0)):
                named = [portals[place][other] for _, own, place in bend if own == side]
                if named:
                    held = held or any(sign * orient(b, c, e) > 0 or (orient(b, c, e) == 0 and dot(c, b, c, e) < 0) for e in named + [stops[end][0]])
            if not held:
                return "not held"
        at = end
    return None


def check_walk(words, leaps):
    """Checks the answer to a path line, or to a hop line with these leaps: whether there is a walk and at which cost, each of its steps, and the
    turns of each of its stretches, the runs of links between jumps."""
    global said
    mesh = mesh_now()
    x1, z1, y1, x2, z2, y2 = map(int, words[1:])
    start, goal = locate(mesh, x1, z1, y1), locate(mesh, x2, z2, y2)
    cost = None if start is None or goal is None else least_cost(mesh, start, goal, leaps)
    for name, is_so in (("nostart", start is None), ("nogoal", goal is None), ("nopath", cost is None)):
        if is_so:
            counts[name] += words[0] == "path"
            return expect(f"{name} {published_length}")
    if words[0] == "path":
        counts["path"] += 1
        counts["cost"] += cost
    head = told[said].split(" ") if said < len(told) else []
    if len(head) != 7 or not head[5].isdigit() or not head[6].isdigit():
        fail(said, f"a {words[0]} of cost {cost} is wanted")
    steps, bends = int(head[5]), int(head[6])
    expect(f"{words[0]} {published_length} {cost} {start[0]} {start[1]} {steps} {bends}")
    at = said
    here, spent, stretches = start, 0, [((x1, z1), [], at)]
    for i in range(at, at + steps):
        kind, *n = told[i].split(" ")
        n = list(map(int, n))
        if kind == "link":
            link = ((n[0], n[1]), (n[2], n[3]), (n[4], n[5]))
            if link not in [known[1:] for known in mesh[1][here]]:
                fail(i, "no link of the polygon")
            spent += weight(mesh, here, link[0])
            here = link[0]
            stretches[-1][1].append(link[1:])
        else:
            leap = [leap for leap in leaps.get(here, []) if leap[:2] == (n[0], (n[1], n[2]))]
            if kind != "jump" or not leap:
                fail(i, "no link, and no jump from the polygon")
            spent += leap[0][2]
            here = leap[0][1]
            stretches.append((tuple(jumps[n[0]][3:5]), [], i + 1))
    if here != goal or spent != cost:
        fail(at, f"the steps cost {spent} and end at {here}")
    turns = []
    for i in range(at + steps, at + steps + bends):
        kind, x, z, side, place = told[i].split(" ")
        if kind != "turn":
            fail(i, "no turn")
        turns.append(((int(x), int(z)), side, int(place)))
    ends = [tuple(jumps[int(told[first - 1].split(" ")[1])][:2]) for _, _, first in stretches[1:]] + [(x2, z2)]
    for (begin, portals, first), end in zip(stretches, ends):
        own = 0
        while own < len(turns) and turns[own][2] < first - at + len(portals):
            own += 1
        wrong = is_taut(begin, portals, end, [(point, side, place - (first - at)) for point, side, place in turns[:own]])
        if wrong:
            fail(at - 1, f"not taut: {wrong}")
        turns = turns[own:]
    if turns:
        fail(at - 1, "a turn at no portal")
    said = at + steps + bends


def check_ray(words):
    """Checks the answer to a ray line."""
    mesh = mesh_now()
    sx, sz, y, gx, gz = map(int, words[1:])
    start, goal = (sx, sz), (gx, gz)
    here = locate(mesh, sx, sz, y)
    if here is None:
        return expect(f"nostart {published_length}")
    visited = []
    while True:
        visited.append(here)
        corners = [(16 * x, 16 * z) for x, z in mesh[0][here][0]]
        edges = list(zip(corners, corners[1:] + corners[:1]))
        exits = {}
        for edge, (u, v) in enumerate(edges):
            if orient(u, v, goal) < 0:
                exits[edge] = Fraction(orient(u, v, start), orient(u, v, start) - orient(u, v, goal))
        if not exits:
            return expect(f"reached {published_length} {here[0]} {here[1]}")
        least = [edge for edge in exits if exits[edge] == min(exits.values())]
        onward = []
        for edge, to, a, b in mesh[1][here]:
            if edge in least and to not in visited and orient(start, goal, a) >= 0 >= orient(start, goal, b):
                onward.append((edge, to, b, a))
        if not onward:
            u, v = edges[min(least)]
            num = orient(u, v, start)
            return expect(f"wall {published_length} {u[0]} {u[1]} {v[0]} {v[1]} {num} {num - orient(u, v, goal)}")
        here = min(onward)[1]


def free_now():
    """The free cells of each tile under the published shapes."""
    global free_kept
    if free_kept is None or free_kept[0] != published:
        shapes = [shape for _, shape in sorted(published.items())]
        free_kept = (dict(published), [free_in(tile, shapes) for tile in range(tile_count)])
    return free_kept[1]


def mesh_now():
    global mesh_kept
    if mesh_kept is None or mesh_kept[0] != published:
        mesh_kept = (dict(published), published_mesh())
    return mesh_kept[1]


for line in lines[at + 2:]:
    words = line.split(" ")
    if words[0] == "lane":
        lane = int(words[1])
    elif words[0] == "add":
        area = int(words.pop(2)) if words[1] == "area" else None
        kind = words[1] if area is None else words.pop(2)
        adds[lane].append(request("add", (kind, list(map(int, words[2:])), area)))
    elif words[0] == "remove":
        request("remove", int(words[1]))
    elif words[0] == "drop":
        request("remove", adds[lane][int(words[1]) - 1])
    elif words[0] == "settle":
        held = [None] * workers
        claimed.clear()
        aim()
        stored = [touching(tile) for tile in range(tile_count)]
        publish()
        expect(f"settled {published_length}")
    elif words[0] == "aim":
        aim()
        expect(f"aim {target_length}")
    elif words[0] == "publish":
        expect(publish())
    elif words[0] in ("claim", "back", "submit"):
        expect(step(words[0], int(words[1])))
    elif words[0] == "floor":
        x, z = int(words[1]), int(words[2])
        free = [it for place, it in sorted(free_now()[tile_of(x, z)].items()) if place[:2] == (x, z)] if (x, z) in kept else []
        expect(f"floors {published_length} {len(free)}" + "".join(f" {floor} {area}" for floor, area in free))
    elif words[0] == "path":
        check_walk(words, {})
    elif words[0] == "jump":
        jumps.append(tuple(map(int, words[1:])))
    elif words[0] == "hop":
        check_walk(words, leaps_now(mesh_now()))
    elif words[0] == "ray":
        check_ray(words)
expect(f"done {published_length} {len(history)}")
if said < len(told):
    fail(said, "nothing is wanted")
if len(sys.argv) > 3:
    summary = open(sys.argv[3]).read().split("\n")[1:]
    polygons, links = mesh_now()
    wanted = [f"input {sum(len(line) + 1 for line in lines)} {len(lines)}", f"history {len(history)} published {published_length}",
              "paths {path} nopath {nopath} nostart {nostart} nogoal {nogoal}".format(**counts), f"cost {counts['cost']}",
              f"mesh {len(polygons)} {sum(map(len, links.values()))}", ""]
    if summary != wanted:
        print(f"the summary is wrong: {summary} instead of {wanted}")
        sys.exit(1)
