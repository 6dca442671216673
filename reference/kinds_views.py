"""What a view shows, and what it answers to random questions: against the second program, by the rules of `play_check.py`, and against a view of another
level. For `kinds_check.py`."""
import random

import navd
from navd import Place


def agree(what, told, due):
    assert told == due, f"{what}: {told} is told, and {due} is right"


def shown(view, tiles):
    """For each tile its polygons, in order, and all links."""
    faces = [[(list(face.corners), face.area, face.low, face.high) for face in view.polygons(tile)] for tile in range(tiles)]
    links = [((it.start.tile, it.start.index), it.edge, (it.end.tile, it.end.index), it.left, it.right)
             for tile in range(tiles) for it in view.inner_links(tile) + view.border_links(tile)]
    return faces, sorted(links)


def no_path(told, length):
    return [f"{ {navd.NO_START: 'nostart', navd.NO_GOAL: 'nogoal', navd.NO_PATH: 'nopath'}[told.status]} {length}"]


def path_lines(told, length):
    """A path as `navd play` writes it."""
    if isinstance(told, navd.NoPath):
        return no_path(told, length)
    links = [f"link {it.end.tile} {it.end.index} {it.left[0]} {it.left[1]} {it.right[0]} {it.right[1]}" for it in told.links]
    turns = [f"turn {turn.at[0]} {turn.at[1]} {'LR'[turn.is_right]} {turn.link}" for turn in told.turns]
    return [f"path {length} {told.cost} {told.first.tile} {told.first.index} {len(links)} {len(turns)}"] + links + turns


def ray_lines(told, length):
    if isinstance(told, navd.NoPath):
        return no_path(told, length)
    if isinstance(told, navd.Reached):
        return [f"reached {length} {told.last.tile} {told.last.index}"]
    return [f"wall {length} {told.a[0]} {told.a[1]} {told.b[0]} {told.b[1]} {told.num} {told.den}"]


def judge(kind, call, words, lines, *rest):
    """Has the second program check lines that answer a question."""
    def fail(place, why):
        raise AssertionError(f"{' '.join(map(str, words))}: {lines} is told, and line {place + 1} is wrong: {why}")
    kind.names.update(told=lines, said=0, fail=fail)
    kind.names[call](words, *rest)
    agree(words, kind.names["said"], len(lines))


def random_place(kind):
    """Mostly a place in a polygon or on its edge, now and then on another floor."""
    if not kind.polygons or random.randrange(8) == 0:
        return Place(random.randrange(-20, 16 * kind.names["width"] + 20), random.randrange(-20, 16 * kind.names["depth"] + 20), random.choice([10, 40, 50]))
    corners, _, low, high = random.choice(list(kind.polygons.values()))
    weights = [random.choice([0, 0, 1, 2]) for _ in corners]
    weights[random.randrange(len(weights))] += 1
    x, z = (sum(16 * weight * corner[axis] for weight, corner in zip(weights, corners)) // sum(weights) for axis in (0, 1))
    return Place(x, z, max(0, random.randint(low, high) + random.choice([0, 0, 0, 2, -9])))


def ask(view, alone, kind, counts):
    """Asks a view of a kind, and one of the level that was opened for it alone, for floors, paths and rays."""
    names, length = kind.names, kind.names["published_length"]
    for _ in range(4):
        x, z = random.randrange(names["width"] + 1), random.randrange(names["depth"])
        told = view.floors(x, z)
        free = names["free_now"]()[names["tile_of"](x, z)] if x < names["width"] else {}
        agree(f"the floors of {x}, {z}", [(it.y, it.area) for it in told], [it for place, it in sorted(free.items()) if place[:2] == (x, z)])
        agree(f"the floors of {x}, {z} alone", alone.floors(x, z), told)
    for _ in range(2):
        start, goal = random_place(kind), random_place(kind)
        told, other = view.find_path(start, goal), alone.find_path(start, goal)
        judge(kind, "check_walk", ["path", start.x, start.z, start.y, goal.x, goal.z, goal.y], path_lines(told, length), {})
        agree(f"the path from {start} to {goal}", told, other)
        counts["paths: found" if isinstance(told, navd.Path_) else f"paths: {navd.NAMES[told.status]}"] += 1
        goal = random_place(kind)
        ray = view.cast_ray(start, goal)
        judge(kind, "check_ray", ["ray", start.x, start.z, start.y, goal.x, goal.z], ray_lines(ray, length))
        agree(f"the ray from {start} to {goal}", alone.cast_ray(start, goal), ray)
        counts[f"rays: {type(ray).__name__}"] += 1
        ask_places(view, alone, start, goal)
        counts["questions about places"] += 1


def ask_places(view, alone, start, goal):
    """Questions about places, which `places_check.py` tries out for a level: both views answer them alike."""
    draw, reach = random.randrange(2**64), random.choice([0, 40, 200])
    agree(f"the place that {draw} draws", view.random_place(draw), alone.random_place(draw))
    place = view.nearest(start, reach)
    agree(f"the place nearest to {start}", alone.nearest(start, reach), place)
    if place:
        agree(f"a slide from {place}", view.slide(place, goal), alone.slide(place, goal))
        agree(f"the walls round {place}", view.walls(place, reach), alone.walls(place, reach))
