#!/usr/bin/env python3
"""Checks the further questions about ways that the library answers of a view, on random levels of both kinds of meshes, with and without
clearance, under obstacles that stop agents or set areas: ways through a filter and to the nearest place, floods from a place and to it, the nearest of
many goals, walkers that follow their path, and paths that are kept and mended while obstacles come and go. What a question has to be answered is read
off the mesh that the view shows, by the rules of the header: least costs in rounds over links, nearest places by all columns of all polygons, walks
link by link. That mesh itself is compared once in each level with what `play_check.py` works out of the level's text and its obstacles.

usage: reference/ways_check.py LIBRARY [LEVELS [SEED]]     (20 levels, seed 1; LIBRARY is what `make libnavd.so` of hosts/c makes)
"""
import random
import sys
from collections import Counter

from library import host_and_levels, refuser
from ways_levels import Level, random_place, random_text
from ways_mesh import NEVER, Filter, distance, leg

navd, levels, first_seed = host_and_levels(__doc__, 20)
refused = refuser(navd)
counts = Counter()


# == The questions ==


def check_walk(mesh, path, first, by):
    """That links are an allowed walk from a polygon at the cost that is told; these, and the polygon to which they lead."""
    links = [mesh.link(link) for link in path.links]
    last = mesh.leads(first, links, by)
    assert last is not None, "the links are no allowed walk"
    assert mesh.cost_of(links, by) == path.cost, f"the links cost {mesh.cost_of(links, by)}, and {path.cost} is told"
    return links, last


def check_way(level, path, start, goal, first, by):
    """That it is a cheapest allowed walk from a polygon, with a taut line to a point; the polygon to which it leads."""
    mesh = level.mesh
    assert mesh.polygon(path.first) == first, f"it begins in {path.first}"
    links, last = check_walk(mesh, path, first, by)
    assert path.cost == mesh.least(first, by)[last], "a cheaper walk is there"
    assert level.is_taut(start, links, goal, path.turns), "the line is not taut"
    return last


def check_seen(mesh, seen, due, first, by, most_cost, most_polygons):
    """A search was cut no sooner than its limits say, and each walk to the goal costs at least what it saw."""
    assert seen <= due and (most_cost < seen or most_polygons <= mesh.meets(first, by)), f"seen {seen}"


def check_nearest(level, told, start, goal, rise, first, last, by, limits):
    """The way to the nearest place."""
    mesh, end, aim = level.mesh, told.end, (goal.x, goal.z)
    assert (last is None or mesh.least(first, by).get(last) is None) if told.seen == NEVER else True, "a way to the goal is there"
    if told.seen != NEVER:
        check_seen(mesh, told.seen, mesh.least(first, by).get(last, NEVER), first, by, *limits)
    at = check_way(level, told.path, start, end.at, first, by)
    assert mesh.polygon(end.polygon) == at and end.at.y == mesh.floors[at][0], f"it ends in {end}"
    square, point = mesh.nearest(at, aim)
    assert point == (end.at.x, end.at.z), f"the polygon's nearest point is {point}"
    if random.randrange(200) == 0:
        assert mesh.nearest_by_all(at, aim) == (square, point), "the nearest of all points"
    near = square + (rise * mesh.gap(at, goal.y)) ** 2
    heads_for = last is not None and (last == first or mesh.is_open(last, by))
    for other, cost in mesh.least(first, by).items():
        rest = distance(mesh.middle[other], mesh.middle[last]) * mesh.least_cost(by) if heads_for else 0
        apart = (rise * mesh.gap(other, goal.y)) ** 2
        if (told.seen == NEVER or cost + rest < told.seen) and mesh.from_box(other, aim) + apart <= near:
            other_near = mesh.nearest(other, aim)[0] + apart
            assert (near, told.path.cost) <= (other_near, cost), f"a point of {mesh.names[other]} is nearer, or as near and costs less"


def ask_plan(level, start, goal, by):
    """Compares a way through a filter, within limits now and then, and to the nearest place now and then. The path that is told, and where it ends."""
    mesh, limits = level.mesh, (random.choice([NEVER, NEVER, random.randrange(2000)]), random.choice([NEVER, NEVER, random.randrange(20)]))
    rise = random.choice([None, None, 0, 16, random.randrange(1025)])
    told = level.view.plan(start, goal, by.areas, by.costs, *limits, rise)
    first, last = mesh.locate(start), mesh.locate(goal)
    due = NEVER if first is None else mesh.least(first, by).get(last, NEVER)
    if first is None:
        assert told == navd.NoPath(navd.NO_START), told
        counts["plans without a start"] += 1
    elif isinstance(told, navd.Path_):
        assert due == told.cost <= limits[0] and len(told.links) <= limits[1], told
        assert check_way(level, told, start, goal, first, by) == last, "it leads elsewhere"
        counts["whole plans"] += 1
        return told, goal
    elif isinstance(told, navd.Partial):
        assert rise is not None and told.path.cost <= limits[0] and len(told.path.links) <= limits[1], told
        check_nearest(level, told, start, goal, rise, first, last, by, limits)
        counts["plans to the nearest place"] += 1
        return told.path, told.end.at
    elif isinstance(told, navd.Limited):
        assert rise is None and last is not None, told
        check_seen(mesh, told.seen, due, first, by, *limits)
        counts["plans that met a limit"] += 1
    else:
        assert rise is None and due == NEVER and told == navd.NoPath(navd.NO_GOAL if last is None else navd.NO_PATH), told
        counts["plans without a goal or a way"] += 1
    return None, None


def ask_flood(level, start, by):
    mesh, most, back = level.mesh, random.choice([0, random.randrange(400), random.randrange(4000), NEVER]), random.randrange(2) == 1
    told, first = level.view.flood(start, most, by.areas, by.costs, back), mesh.locate(start)
    counts["floods back" if back else "floods"] += 1
    if first is None:
        assert told == navd.NoPath(navd.NO_START), told
        return
    due = {at: cost for at, cost in mesh.least(first, by, back).items() if cost <= most}
    at = [mesh.polygon(it.polygon) for it in told]
    assert (at[0], told[0].cost, told[0].via) == (first, 0, 0), told[0]
    assert all(one.cost <= two.cost for one, two in zip(told, told[1:])), "the costs do not rise"
    assert len(told) == len(due) and all(due.get(name) == it.cost for name, it in zip(at, told)), "other polygons, or other costs"
    for place, it in enumerate(told[1:], 1):
        start, end = (at[place], at[it.via]) if back else (at[it.via], at[place])
        assert it.via < place and (start, end) in mesh.length and mesh.is_open(end, by), it
        assert told[it.via].cost + mesh.weight(start, end, by) == it.cost, it


def ask_goals(level, start, goals, by):
    """The nearest of many goals."""
    mesh, most = level.mesh, random.choice([NEVER, NEVER, random.randrange(2000)])
    told, first, lasts = level.view.nearest_goal(start, goals, most, by.areas, by.costs), mesh.locate(start), [mesh.locate(goal) for goal in goals]
    counts["nearest of many goals"] += 1
    due = NEVER if first is None else min([mesh.least(first, by).get(last, NEVER) for last in lasts], default=NEVER)
    if first is None or due == NEVER and not isinstance(told, navd.Limited):
        why = navd.NO_START if first is None else navd.NO_PATH if any(last is not None for last in lasts) else navd.NO_GOAL
        assert told == navd.NoPath(why), told
    elif isinstance(told, navd.Limited):
        assert most < told.seen <= due and any(last is not None for last in lasts), told
    else:
        assert told.cost == due <= most and mesh.polygon(told.first) == first, told
        assert check_walk(mesh, told, first, by)[1] == lasts[told.which] == mesh.polygon(told.last), "the links lead elsewhere"


def ask_check(level, path, start, goal, by):
    """Compares how far a path leads on. What is told."""
    mesh, kept = level.mesh, [level.mesh.link(link) for link in path.links]
    told, first = level.view.check(path, start, goal, by.areas, by.costs), mesh.beginning(path, kept, start)
    if first is None:
        assert told == navd.NoPath(navd.NO_START), told
        counts["checks without a start"] += 1
        return told
    led = mesh.lead(first, kept, by)
    is_whole = len(led) == len(kept) and (led[-1][2] if led else first) in mesh.holders(goal)
    assert type(told) is (navd.Path_ if is_whole else navd.Cut), told
    links, _ = check_walk(mesh, told, first, by)
    assert mesh.polygon(told.first) == first and links == led, "other links lead on"
    assert not is_whole or level.is_taut(start, links, goal, told.turns), "the line is not taut"
    counts["whole checks" if is_whole else "checks that are cut"] += 1
    return told


def ask_repair(level, path, start, goal, by):
    """Compares a path that is mended."""
    mesh, kept = level.mesh, [level.mesh.link(link) for link in path.links]
    keep, join, most = random.choice([NEVER, NEVER, 0, random.randrange(8)]), random.randrange(3) > 0, random.choice([NEVER, NEVER, random.randrange(12)])
    told, first = level.view.repair(path, start, goal, by.areas, by.costs, keep, join, most), mesh.beginning(path, kept, start)
    goal_at = mesh.locate(goal)
    if first is None or goal_at is None:
        assert told == navd.NoPath(navd.NO_START if first is None else navd.NO_GOAL), told
        counts["repairs without a start or a goal"] += 1
        return
    led = mesh.lead(first, kept, by)
    part = led[:keep]
    at = part[-1][2] if part else first
    all_kept = len(part) == len(kept) and at in mesh.holders(goal)
    rest = mesh.rest(kept, len(led), goal, by) if join and not all_kept else []
    to = at if all_kept else rest[0][0] if rest else goal_at
    due = mesh.least(at, by).get(to, NEVER)
    if isinstance(told, navd.Limited):
        assert told.seen <= due and most <= mesh.meets(at, by) and not all_kept, told
        counts["repairs that met a limit"] += 1
        return
    if due == NEVER:
        assert told == navd.NoPath(navd.NO_PATH), told
        counts["repairs without a way"] += 1
        return
    assert isinstance(told, navd.Repaired) and mesh.polygon(told.path.first) == first, told
    links, last = check_walk(mesh, told.path, first, by)
    first_part, bridge, joined = links[:told.kept], links[told.kept:told.kept + told.bridge], links[told.kept + told.bridge:]
    assert first_part == part[:told.kept] and told.kept + told.bridge <= len(links), "other links are kept"
    assert joined == (rest[-len(joined):] if joined else []), "other links are joined"
    assert last == (at if all_kept else rest[-1][2] if rest else goal_at), "it leads elsewhere"
    if bridge:
        one, other = bridge[0][0], bridge[-1][2]
        piece = mesh.cost_of(bridge, by)
        assert mesh.least(at, by)[one] + piece + mesh.least(other, by)[to] == due, "the bridge is no piece of a cheapest walk"
    behind = [{link[0] for link in links} for links in (bridge + joined, joined)]
    assert not {link[0] for link in first_part} & (behind[0] | {last}) and not {link[0] for link in bridge} & (behind[1] | {last}), "a loop is left"
    assert level.is_taut(start, links, goal, told.path.turns), "the line is not taut"
    counts["repairs"] += 1


def due_on_line(mesh, path, start, goal, far, link, ahead):
    """Where a walker on a path is: where the path is cut, the point, its polygon and the links behind it, or that it is nowhere."""
    links = [mesh.link(it) for it in path.links]
    polygons = [mesh.polygon(path.first)] + [it[2] for it in links]
    point, place, left, end = (start.x, start.z), 0, list(path.turns), (goal.x, goal.z)
    while left and leg(point, left[0].at) <= far:
        far -= leg(point, left[0].at)
        point, place = left[0].at, max(place, left.pop(0).link + 1)
    place = max(place, link)
    toward, upto = (left[0].at, max(place, left[0].link)) if left else (end, len(links))
    looks_to = max(upto, min(link + ahead, len(links)))
    for at in range(link, looks_to):
        if links[at] not in mesh.listed or links[at][0] != polygons[at]:
            return "cut", at
    if looks_to == len(links) and (polygons[-1] is None or not mesh.holds(polygons[-1], end)):
        return "cut", looks_to
    if not left and leg(point, end) <= far:
        point, place = end, len(links)
    elif found := mesh.part(polygons[place:upto + 1], point, toward, far):
        point, place = found[0], place + found[1]
    elif polygons[place] is None or not mesh.holds(polygons[place], point):
        return "nowhere", None
    return "there", (point, polygons[place], place)


def ask_follow(level, path, start, goal, far, link, ahead):
    """Compares where a walker is. How many links are behind it, or None where it cannot go on."""
    told = level.view.follow(path, start, goal, far, link, ahead)
    kind, due = due_on_line(level.mesh, path, start, goal, far, link, ahead)
    counts["steps of followers"] += 1
    if kind == "nowhere":
        assert told == navd.NoPath(navd.NO_START), told
    elif kind == "cut":
        assert told == navd.Followed(due, None), told
        counts["of these cut"] += 1
    else:
        (x, z), at, behind = due
        assert told == navd.Followed(behind, navd.MeshPlace(navd.Polygon(*level.mesh.names[at]), navd.Place(x, z, level.mesh.floors[at][0]))), told
        return behind
    return None


def follow(level, path, start, goal):
    """A walker goes along a path that was found in this mesh, and arrives."""
    length, pace, far, link = 0, random.choice([7, 40, 200]), 0, 0
    for one, two in zip([(start.x, start.z)] + [turn.at for turn in path.turns], [turn.at for turn in path.turns] + [(goal.x, goal.z)]):
        length += leg(one, two)
    pace = max(pace, length // 12)
    while True:
        far = min(length, far + random.randrange(1, 2 * pace))
        link = ask_follow(level, path, start, goal, far, random.choice([0, link, link]), random.choice([0, 8, NEVER >> 32]))
        assert link is not None, "a walker does not get on"
        if far == length:
            break
    assert link == len(path.links), "a walker does not arrive"
    counts["followers that arrived"] += 1


# == Levels ==


def random_filters():
    """Some filters for the questions of one mesh."""
    areas = lambda: random.choice([NEVER, NEVER, NEVER & ~(1 << 5), NEVER & ~(1 << 63), random.randrange(2**64)])
    costs = lambda: random.choice([(), tuple(random.randrange(1, 1001) for _ in range(64)), (10,) * 64])
    return [Filter(areas(), costs()) for _ in range(4)]


def refuse(view):
    origin = navd.Place(0, 0)
    refused(view.plan, origin, navd.Place(0, -65537))
    refused(view.plan, origin, origin, NEVER, (), NEVER, NEVER, 1025)
    refused(view.plan, origin, navd.Place(0, 0, 65536), NEVER, (), NEVER, NEVER, 16)
    refused(view.flood, navd.Place(65537, 0), 5)
    refused(view.flood, origin, 5, NEVER, [1] * 63)
    refused(view.flood, origin, 5, NEVER, [1] * 63 + [1001])


def ask_all(level, kept):
    """Questions of the mesh that is shown, and of the paths that were kept from the one before. The paths that are kept from this one."""
    for path, start, goal, by in kept:
        ask_check(level, path, start, goal, by)
        ask_repair(level, path, start, goal, by)
        ask_follow(level, path, start, goal, random.choice([0, random.randrange(600)]), random.randrange(len(path.links) + 1), random.choice([0, 3, NEVER >> 32]))
    kept, filters = [], random_filters()
    for _ in range(16):
        start, goal, by = random_place(level), random_place(level), random.choice(filters)
        path, end = ask_plan(level, start, goal, by)
        if random.randrange(2):
            ask_flood(level, start, by)
        if random.randrange(4) == 0:
            ask_goals(level, start, [random_place(level) for _ in range(random.randrange(6))], by)
        if path is not None and len(kept) < 8 and (len(path.links) > 1 or random.randrange(8) == 0):
            kept.append((path, start, end, by))
        if path is not None and path.links and random.randrange(6) == 0:
            assert ask_check(level, path, start, end, by) == path, "a path does not lead on where it was found"
            follow(level, path, start, end)
    return kept


def run(seed):
    text = random_text(seed)
    with navd.Level(text.encode()) as opened, navd.View() as view:
        level, kept = Level(navd, text, opened, view, counts), []
        compared = random.randrange(6)
        for number in range(6):
            level.look()
            if len(level.mesh.names) < 6 and random.randrange(8):
                return
            if number == compared:
                level.compare()
            kept = ask_all(level, kept)
            refuse(view)
            level.change(kept)


for number in range(first_seed, first_seed + levels):
    try:
        run(number)
    except AssertionError as wrong:
        sys.exit(f"WRONG: level {number}: {wrong}")
for name, count in counts.items():
    print(f"{count:8} {name}")
print(f"over {levels} levels: all as the second program has them")
