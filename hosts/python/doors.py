"""hosts/world/doors.c over navd_world.py: a game's loop in a hall with a wall across it, two doors and a ramp. What it writes is hosts/world/doors.out.

    doors.py            plays the loop
    doors.py more       and then what the loop does not call
    doors.py numpy      the same, with either, and the world is made of numpy's arrays
    doors.py layouts    the sizes of the structs, and where their fields lie, as hosts/world/layouts.c writes them
"""
import math
import re
import sys
import threading
from array import array
from ctypes import Structure, sizeof

import navd_world
from navd import Job
from navd_world import Box, Cylinder, Filter, NoRoute, Prism, World, WorldError, status_name

FRAMES = 40

# A floor of 16 m by 12 m, a ramp of 4 m up to 2 m, a floor up there, and a wall across at 12 m in three pieces of 3 m.
VERTICES = [(0, 0, 0), (0, 0, 12), (16, 0, 0), (16, 0, 12), (20, 2, 0), (20, 2, 12), (24, 2, 0), (24, 2, 12),
            (12, 0, 0), (12, 0, 2), (12, 3, 0), (12, 3, 2), (12, 0, 4), (12, 0, 8), (12, 3, 4), (12, 3, 8),
            (12, 0, 10), (12, 0, 12), (12, 3, 10), (12, 3, 12)]
TRIANGLES = [(first + a, first + b, first + c) for first in (0, 2, 4, 8, 12, 16) for a, b, c in ((0, 1, 2), (2, 1, 3))]
SIZES = {"cell_size": 0.25, "agent_radius": 0.4, "tile_cells": 24}  # what is not said here is Recast's usual
START, GOAL = (2, 0, 3), (22, 2, 9)


def door(z, yaw=0.0):
    return Box((12 - math.sin(yaw), 1.5, z - 1 + math.cos(yaw)), (0.1, 1.5, 1), yaw)


def points(corners, digits=6):
    return "".join(" (" + " ".join(f"{number:.{digits}f}" for number in at) + ")" for at in corners)


def tell_way(snapshot):
    route = snapshot.find_path(START, GOAL)
    print(f"version {snapshot.version}: {'a way' + points(route.corners, 2) if route else route.text}")


def tell_obstacles(world):
    kinds = ("Block", "Cylinder", "Prism", "Disc")
    told = (f" {it.id} of {it.user} {'on' if it.enabled else 'off'} kind {kinds.index(type(it.shape).__name__)} area {it.area}," for it in world.obstacles())
    print("obstacles:" + "".join(told))


def tell_update(world, *max_tiles):
    it = world.update(*max_tiles)
    print(f"built {it.tiles_built} published {it.published:d} pending {it.pending:d} version {it.version}")


def end_of(call):
    """The name of a call's end, where it is not refused that of the answer."""
    try:
        answer = call()
    except WorldError as refused:
        return status_name(refused.status)
    return "NAVD_SAME" if answer is False else "NAVD_OK" if answer else "NAVD_NO_PLACE"


def tell_route(what, call):
    try:
        route = call()
    except WorldError as refused:
        print(f"{what}: {status_name(refused.status)}")
        return
    end = status_name(route.status) if isinstance(route, NoRoute) else "NAVD_PARTIAL" if route.partial else "NAVD_OK"
    print(f"{what}: {end}" + (f" for {route.cost:.6f} in version {route.version}{points(route.corners)}" if route else ""))


def change_obstacles(world):
    round_one = world.add(Cylinder((8, 1, 6), 0.5, 1), 7)
    painted = world.add(Prism([(4, 4), (6, 4), (5, 6)], -0.5, 1, area=5), 8)
    world.set_user(painted, 9)
    tell_obstacles(world)
    tell_update(world)
    world.remove(round_one)
    print(end_of(lambda: world.remove(round_one)), end_of(lambda: world.set_enabled(painted, True)),
          end_of(lambda: world.add(Box((math.nan, 0, 0), (1, 1, 1)))), end_of(lambda: world.add(Box((1, 1, 1), (1, 1, 1), area=64))))
    tell_obstacles(world)
    tell_update(world)
    tell_update(world)


def build_by_jobs(world):
    """The tiles of a change are built in another thread, and shown by the next update."""
    built = []

    def work():
        with Job() as job:
            while job.claim(world.registry) is not None:
                job.build()
                built.append(job.submit(world.registry))

    round_one = world.add(Cylinder((8, 1, 6), 0.5, 1))
    tell_update(world, 0)
    working = threading.Thread(target=work)
    working.start()
    working.join()
    print(f"{len(built)} tiles by jobs")
    tell_update(world, 0)
    world.remove(round_one)
    tell_update(world)


def save_and_restore(world):
    saved = world.save()
    world.remove(2)
    print(f"saved {len(saved)} bytes, less of them {end_of(lambda: world.restore(saved[:-1]))}")
    tell_obstacles(world)
    world.restore(saved)
    tell_obstacles(world)
    tell_update(world)


def ask(snapshot):
    place, height = snapshot.nearest((18, 3, 6), 1, 4), snapshot.height((22, 9, 3))
    print(f"nearest:{points([place])}, height {height:.6f}, off the floor", end_of(lambda: snapshot.nearest((-9, 0, 6), 1, 4)),
          end_of(lambda: snapshot.height((-9, 0, 6))))
    for goal in ((5, 0, 3), (14, 0, 1)):
        hit = snapshot.raycast(START, goal)
        print(f"ray: {'wall' if hit.hit else 'reached'} {hit.fraction:.6f}{points([hit.at, hit.wall_from, hit.wall_to])}")
    dear = array("f", [2] * 64)
    tell_route("twice as dear", lambda: snapshot.find_path(START, (10, 0, 10), Filter(area_costs=dear)))
    tell_route("limited", lambda: snapshot.find_path(START, (10, 0, 10), Filter(area_costs=list(dear), max_cost=3)))
    tell_route("partial", lambda: snapshot.find_path(START, (60, 0, 6), Filter(partial=True, areas=navd_world.all_areas & ~(1 << 5))))
    tell_route("nowhere", lambda: snapshot.find_path((-9, 0, 3), GOAL))
    tell_route("no number", lambda: snapshot.find_path((math.nan, 0, 3), GOAL))
    with snapshot.view.copy() as copy:
        print(f"a view of {copy.shown()[1]} tiles")


def tell_refused(triangles, **sizes):
    try:
        World(VERTICES, triangles, **SIZES, **sizes)
    except WorldError as refused:
        print(f"{status_name(refused.status)}: {refused}")
    except ValueError:
        print("NAVD_OUT_OF_RANGE: vertices and indices come in threes, and areas one for each triangle")


def play_more(world, snapshot):
    it = world.mesh.setting
    print(it.width, it.depth, it.tile, it.height, it.climb, it.radius, "")
    change_obstacles(world)
    build_by_jobs(world)
    save_and_restore(world)
    snapshot.refresh()
    print("NAVD_OK" if snapshot.refresh() else "NAVD_SAME")
    asking = threading.Thread(target=ask, args=(snapshot,))
    asking.start()
    asking.join()
    tell_refused(TRIANGLES, max_slope=91)
    flat = [corner for triangle in TRIANGLES for corner in triangle]
    flat[5] = 99
    tell_refused(flat)
    tell_refused(flat[:-1])
    world.close()
    assert end_of(world.update) == end_of(snapshot.refresh) == "NAVD_EMPTY"
    tell_way(snapshot)  # a snapshot stays good


def in_numpy():
    import numpy
    return numpy.array(VERTICES, numpy.float32), numpy.array(TRIANGLES)


def play(words):
    world = World(*(in_numpy() if "numpy" in words else (VERTICES, TRIANGLES)), **SIZES)
    near, far = world.add(door(3), 1), world.add(door(9), 2)
    snapshot = world.snapshot()
    for frame in range(FRAMES):
        if frame >= 30:
            world.move(near, door(3, (frame - 29) * 0.15))  # the near door swings about its hinge
        if frame in (10, 20):
            world.set_enabled(far, frame == 20)
        world.update(1)
        if snapshot.refresh() or frame == 0:
            print(f"frame {frame:2}, ", end="")
            tell_way(snapshot)
    if "more" in words:
        play_more(world, snapshot)


def tell_layouts():
    for name, struct in sorted(vars(navd_world).items()):
        if isinstance(struct, type) and issubclass(struct, Structure) and struct is not Structure:
            snake = re.sub(r"(?<=[a-z])(?=[A-Z])", "_", name.strip("_")).lower()
            fields = (f" {field} {getattr(struct, field).offset} {sizeof(kind)}" for field, kind in struct._fields_)
            print(f"navd_{snake} {sizeof(struct)}:" + "".join(fields))


if __name__ == "__main__":
    if sys.argv[1:] == ["layouts"]:
        tell_layouts()
    else:
        play(sys.argv[1:])
