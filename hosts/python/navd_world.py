"""Worlds of navd in a game's own numbers, over the calls of include/navd_world.h, by ctypes.

    world = World(vertices, triangles, cell_size=0.25)
    door = world.add(Box((12, 1.5, 3), (0.1, 1.5, 1), yaw=0.3))        # an id that stays
    world.update(4)                                                    # once a frame: builds up to four tiles
    snapshot = world.snapshot()                                        # one for each thread; later snapshot.refresh()
    route = snapshot.find_path((2, 0, 3), (22, 2, 9))
    print(route.corners if route else route.text)

A method is the call of the header with its name, which says what it does and its limits. Lengths are the game's, y is up, angles are in radians. A point is
three numbers, x, y and z. Arrays are lists, array.array or numpy's, flat or in rows: vertices of the shape (n, 3), triangles of the shape (m, 3). Where
they are of float32, triangles of uint32 and areas of uint8, in one piece, they are read in place, and else copied. numpy itself is not needed.

What cannot be done raises a WorldError; a path or a place that is not there is an answer. The library is looked for as navd.py does.

Threads. A World and a Snapshot are in one call at a time each, but World.snapshot and Snapshot.refresh may be called at any time and in any thread.
Other threads of Python run while a call does.
"""
import ctypes
from array import array
from ctypes import POINTER, Structure, byref, c_char, c_char_p, c_double, c_float, c_int, c_size_t, c_uint8, c_uint32, c_uint64, c_void_p
from dataclasses import dataclass
from functools import lru_cache

import navd
from navd import LIMIT, NO_GOAL, NO_PATH, NO_PLACE, NO_START, OK, PARTIAL, SAME, NavdError, all_areas

BAD_STRUCT = 23
BOTH_SIDES, STRIPS, NO_CLEARANCE = 1, 2, 4
ALL_TILES = 2**32 - 1

# == The structs of include/navd_world.h, field for field ==


class _Vec3(Structure):
    _fields_ = [("x", c_float), ("y", c_float), ("z", c_float)]


class _WorldDef(Structure):
    _fields_ = [("size", c_uint32), ("cell_size", c_float), ("cell_height", c_float), ("agent_radius", c_float), ("agent_height", c_float),
                ("agent_climb", c_float), ("max_slope", c_uint32), ("max_error", c_float), ("tile_cells", c_uint32), ("max_obstacles", c_uint32),
                ("flags", c_uint32), ("min", _Vec3), ("max", _Vec3), ("area_costs", POINTER(c_float))]


class _TriangleMesh(Structure):
    _fields_ = [("size", c_uint32), ("vertices", POINTER(c_float)), ("vertex_count", c_size_t), ("indices", POINTER(c_uint32)),
                ("triangle_count", c_size_t), ("areas", POINTER(c_uint8))]


class _Problem(Structure):
    _fields_ = [("size", c_uint32), ("triangle", c_size_t), ("text", c_char * 160)]


class _Shape(Structure):
    _fields_ = [("size", c_uint32), ("kind", c_uint32), ("area", c_uint32), ("center", _Vec3), ("half", _Vec3), ("yaw", c_float),
                ("corners", POINTER(c_float)), ("corner_count", c_uint32), ("min_y", c_float), ("max_y", c_float)]


class _Progress(Structure):
    _fields_ = [("size", c_uint32), ("tiles_built", c_uint32), ("published", c_uint32), ("pending", c_uint32), ("version", c_uint64)]


class _Filter(Structure):
    _fields_ = [("size", c_uint32), ("partial", c_uint32), ("areas", c_uint64), ("area_costs", POINTER(c_float)), ("max_cost", c_double),
                ("max_polygons", c_size_t)]


class _Hit(Structure):
    _fields_ = [("size", c_uint32), ("hit", c_uint32), ("fraction", c_float), ("at", _Vec3), ("wall_from", _Vec3), ("wall_to", _Vec3)]


class _RouteCorner(Structure):
    _fields_ = [("at", _Vec3), ("flags", c_uint32)]


@lru_cache(maxsize=None)
def _library():
    """The library with the calls of include/navd_world.h. A world, a snapshot and a route are addresses."""
    found, held, point = navd._loaded(), c_void_p, POINTER(_Vec3)
    for name, words, result in (
        ("navd_status_text", [c_uint32], c_char_p),
        ("navd_status_name", [c_uint32], c_char_p),
        ("navd_world_create", [POINTER(_WorldDef), POINTER(_TriangleMesh), POINTER(held), POINTER(_Problem)], c_uint32),
        ("navd_world_destroy", [held], None),
        ("navd_world_mesh", [held], POINTER(navd._Mesh)),
        ("navd_world_registry", [held], POINTER(navd._Handle)),
        ("navd_world_add", [held, POINTER(_Shape), c_uint64, POINTER(c_uint64)], c_uint32),
        ("navd_world_move", [held, c_uint64, POINTER(_Shape)], c_uint32),
        ("navd_world_set_enabled", [held, c_uint64, c_int], c_uint32),
        ("navd_world_set_user", [held, c_uint64, c_uint64], c_uint32),
        ("navd_world_remove", [held, c_uint64], c_uint32),
        ("navd_world_obstacles", [held, POINTER(navd._Row), c_size_t, POINTER(c_size_t)], c_uint32),
        ("navd_world_save", [held, POINTER(c_uint8), c_size_t, POINTER(c_size_t)], c_uint32),
        ("navd_world_restore", [held, POINTER(c_uint8), c_size_t], c_uint32),
        ("navd_world_update", [held, c_uint32, POINTER(_Progress)], c_uint32),
        ("navd_snapshot_create", [held, c_uint32, POINTER(held)], c_uint32),
        ("navd_snapshot_refresh", [held, held], c_uint32),
        ("navd_snapshot_version", [held], c_uint64),
        ("navd_snapshot_view", [held], POINTER(navd._Handle)),
        ("navd_snapshot_destroy", [held], None),
        ("navd_snapshot_nearest", [held, POINTER(_Filter), point, c_float, c_float, point], c_uint32),
        ("navd_snapshot_height", [held, point, POINTER(c_float)], c_uint32),
        ("navd_snapshot_raycast", [held, point, point, POINTER(_Hit)], c_uint32),
        ("navd_route_create", [POINTER(held)], c_uint32),
        ("navd_route_destroy", [held], None),
        ("navd_snapshot_find_path", [held, POINTER(_Filter), point, point, held], c_uint32),
        ("navd_route_corners", [held, POINTER(POINTER(_RouteCorner))], c_size_t),
        ("navd_route_cost", [held], c_double),
        ("navd_route_version", [held], c_uint64),
    ):
        call = getattr(found, name)
        call.argtypes, call.restype = words, result
    return found


def status_text(status):
    """A status as a sentence: "no walk joins the two places"."""
    return _library().navd_status_text(status).decode()


def status_name(status):
    """A status by its name in the headers: "NAVD_NO_PATH"."""
    return _library().navd_status_name(status).decode()


class WorldError(NavdError):
    """A call that was refused: the number of its end, why, as a sentence, and the triangle at fault, if one is."""

    def __init__(self, status, text=None, triangle=None):
        super().__init__(OK)
        self.args = (text or status_text(status),)
        self.status, self.triangle = status, triangle


def _done(status, *allowed):
    if status != OK and status not in allowed:
        raise WorldError(status)
    return status


# == Shapes, and answers ==


@dataclass(frozen=True)
class Box:
    """A centre, half the sides, and a yaw from x to z. With the area 0 a shape stops agents, with 1 to 63 it gives that area."""
    center: tuple[float, float, float]
    half: tuple[float, float, float]
    yaw: float = 0.0
    area: int = 0


@dataclass(frozen=True)
class Cylinder:
    """A centre, a radius, and half the height."""
    center: tuple[float, float, float]
    radius: float
    half_height: float
    area: int = 0


@dataclass(frozen=True)
class Prism:
    """(x, z) of 3 to 6 corners, convex, one way round or the other, and heights."""
    corners: list[tuple[float, float]]
    min_y: float
    max_y: float
    area: int = 0


@dataclass(frozen=True)
class Filter:
    """What a question goes by: the areas that may be entered, bit a for area a; what a length costs on each of the 64 areas, for this question, or None for
    the world's costs; the greatest cost and how many polygons are looked at, 0 where there is no limit; and whether the way to the nearest place is told
    where none leads to the goal."""
    areas: int = all_areas
    area_costs: object = None
    max_cost: float = 0.0
    max_polygons: int = 0
    partial: bool = False


@dataclass(frozen=True)
class Progress:
    """How many tiles an update built, whether something new is shown, whether some of what was asked for is not shown yet, and the version."""
    tiles_built: int
    published: bool
    pending: bool
    version: int


@dataclass(frozen=True)
class Route:
    """A way: its corners, (x, y, z) each, from the first to the last, what it costs, the version of the snapshot in which it was found, and whether it leads
    to the nearest place only."""
    corners: list[tuple[float, float, float]]
    cost: float
    version: int
    partial: bool


@dataclass(frozen=True)
class NoRoute:
    """Why there is no way: NO_START, NO_GOAL, NO_PATH, or LIMIT, that none is within the limits of the filter. It counts as false."""
    status: int

    @property
    def text(self):
        return status_text(self.status)

    def __bool__(self):
        return False


@dataclass(frozen=True)
class Hit:
    """Where a straight walk ends: whether at a wall, the fraction of the way up to there, the place, and the ends of the wall, which else are the place."""
    hit: bool
    fraction: float
    at: tuple[float, float, float]
    wall_from: tuple[float, float, float]
    wall_to: tuple[float, float, float]


def _point(at):
    return at.x, at.y, at.z


def _in_place(given, code, kind):
    """The bytes of a buffer that has just such numbers, in one piece, or None."""
    try:
        view = memoryview(given)
    except TypeError:
        return None
    return view.cast("B") if view.c_contiguous and view.format == code and view.itemsize == ctypes.sizeof(kind) and view.nbytes else None


def _array(given, code, kind):
    """An array of numbers in C, for as long as it is kept, and how many there are. Those of another kind, or not in one piece, are copied."""
    if hasattr(given, "astype"):
        told = given.astype({"f": "float32", "I": "uint32", "B": "uint8"}[code], order="C", copy=False)
        if code != "f" and (told != given).any():
            raise OverflowError("an array has a number that is negative, too great, or not whole")
        given = told
    whole = _in_place(given, code, kind)
    if whole is None:
        rows = given.tolist() if hasattr(given, "tolist") else given
        copied = array(code, [number for row in rows for number in (row if hasattr(row, "__iter__") else (row,))])
        if not copied:
            return (kind * 1)(), 0
        whole = memoryview(copied).cast("B")
    count = whole.nbytes // ctypes.sizeof(kind)
    return ((kind * count).from_buffer_copy if whole.readonly else (kind * count).from_buffer)(whole), count


def _rows(given, code, kind, what):
    items, count = _array(given, code, kind)
    if count % 3 or getattr(given, "shape", (3,))[1:] not in ((), (3,)):
        raise ValueError(f"{what} are three numbers each")
    return items, count // 3


def _costs(given):
    """64 numbers, or the address 0 for none."""
    if given is None:
        return None
    items, count = _array(given, "f", c_float)
    if count != 64:
        raise ValueError("costs are 64 numbers")
    return items


def _shape(shape):
    told = _Shape(size=ctypes.sizeof(_Shape), kind=(Box, Cylinder, Prism).index(type(shape)), area=shape.area)
    if isinstance(shape, Prism):
        corners, count = _array(shape.corners, "f", c_float)
        told.corners, told.corner_count, told.min_y, told.max_y = corners, 0 if count % 2 else count // 2, shape.min_y, shape.max_y
    elif isinstance(shape, Cylinder):
        told.center, told.half = _Vec3(*shape.center), _Vec3(shape.radius, shape.half_height, shape.radius)
    else:
        told.center, told.half, told.yaw = _Vec3(*shape.center), _Vec3(*shape.half), shape.yaw
    return told


def _filter(given):
    """A Filter as the library has it, or the address 0 for none."""
    if given is None:
        return None
    return byref(_Filter(ctypes.sizeof(_Filter), given.partial, given.areas, _costs(given.area_costs), given.max_cost, given.max_polygons))


# == Owners ==


class _Owner:
    """What `close`, the end of a `with`, or the garbage collector ends."""
    _at = None

    def __enter__(self):
        return self

    def __exit__(self, *_):
        self.close()

    def __del__(self):
        self.close()

    def _held(self):
        if not self._at:
            raise WorldError(navd.EMPTY)
        return self._at


class _WorldRegistry(navd.Registry):
    """The registry that is in a world, and is closed with it."""

    def __init__(self, handle, world):
        self._calls, self._handle, self._world = navd._library(), handle, world

    def close(self):
        self._handle = navd._Handle()


class World(_Owner):
    """A world of triangles, all of it built, without obstacles. What is shown changes in `update` alone.

    `vertices` are of the shape (n, 3), `triangles` of the shape (m, 3); `areas`, m numbers of 0 to 63, or None for 63 each; `bounds` is two points, (least,
    greatest), or None for as far as the triangles reach; `flags` are BOTH_SIDES, STRIPS, NO_CLEARANCE, added. A WorldError has a sentence that says
    what is wrong."""

    _registry = None

    def __init__(self, vertices, triangles, areas=None, *, cell_size=0.3, cell_height=0.2, agent_radius=0.6, agent_height=2.0, agent_climb=0.9, max_slope=45,
                 max_error=0.7, tile_cells=48, max_obstacles=1024, flags=0, bounds=None, area_costs=None):
        self._calls, made, problem = _library(), c_void_p(), _Problem(size=ctypes.sizeof(_Problem))
        low, high = bounds or ((0, 0, 0), (0, 0, 0))
        told = _WorldDef(ctypes.sizeof(_WorldDef), cell_size, cell_height, agent_radius, agent_height, agent_climb, max_slope, max_error, tile_cells,
                         max_obstacles, flags, _Vec3(*low), _Vec3(*high), _costs(area_costs))
        points, point_count = _rows(vertices, "f", c_float, "vertices")
        corners, count = _rows(triangles, "I", c_uint32, "triangles")
        kinds, kind_count = _array(areas, "B", c_uint8) if areas is not None else (None, count)
        if kind_count != count:
            raise ValueError("areas are one for each triangle")
        mesh = _TriangleMesh(ctypes.sizeof(_TriangleMesh), points, point_count, corners, count, kinds)
        status = self._calls.navd_world_create(byref(told), byref(mesh), byref(made), byref(problem))
        if status:
            raise WorldError(status, problem.text.decode(), problem.triangle if status == navd.FAULTY else None)
        self._at = made

    def close(self):
        """Ends it; snapshots of it stay good."""
        if self._registry:
            self._registry.close()
        if self._at:
            self._calls.navd_world_destroy(self._at)
            self._at = None

    @property
    def mesh(self):
        """What the numbers became, in cells and height units, as navd_mesh has them: `frame`, `slope` and `setting`."""
        return navd._Mesh.from_buffer_copy(self._calls.navd_world_mesh(self._held()).contents)

    @property
    def registry(self):
        """Its navd.Registry, for jobs and what else navd.py has; it ends with the world."""
        if not self._registry:
            self._registry = _WorldRegistry(self._calls.navd_world_registry(self._held()).contents, self)
        return self._registry

    def add(self, shape, user=0):
        """The id of an obstacle, which is on: a Box, a Cylinder or a Prism, with a number of the host's own."""
        told = c_uint64()
        _done(self._calls.navd_world_add(self._held(), byref(_shape(shape)), user, byref(told)))
        return told.value

    def move(self, obstacle, shape):
        """Gives an obstacle another shape."""
        _done(self._calls.navd_world_move(self._held(), obstacle, byref(_shape(shape))))

    def set_enabled(self, obstacle, enabled):
        """Switches an obstacle on or off; whether it was not so before."""
        return _done(self._calls.navd_world_set_enabled(self._held(), obstacle, bool(enabled)), SAME) == OK

    def set_user(self, obstacle, user):
        _done(self._calls.navd_world_set_user(self._held(), obstacle, user))

    def remove(self, obstacle):
        _done(self._calls.navd_world_remove(self._held(), obstacle))

    def obstacles(self):
        """The obstacles by rising ids, as navd.Row: in sixteenths of a cell and height units of navd_world_mesh."""
        rows = navd._all(navd._Row, lambda *room: self._calls.navd_world_obstacles(self._held(), *room))
        return [navd.Row(it.id, it.user, bool(it.enabled), it.solid.area, navd._solid_shape(it.solid)) for it in rows]

    def save(self):
        """The obstacles as bytes: their ids, numbers and shapes, which are on, the last id and the version."""
        return navd._saved(lambda *room: self._calls.navd_world_save(self._held(), *room))

    def restore(self, saved):
        """Puts the obstacles that were saved, of a world of the same cells, in the place of all others; what is shown stays until an update."""
        _done(self._calls.navd_world_restore(self._held(), navd._bytes(saved), len(saved)))

    def update(self, max_tiles=ALL_TILES):
        """Builds at most so many tiles of what was asked for, and shows it once all of it is built: a Progress."""
        told = _Progress(size=ctypes.sizeof(_Progress))
        _done(self._calls.navd_world_update(self._held(), max_tiles, byref(told)))
        return Progress(told.tiles_built, bool(told.published), bool(told.pending), told.version)

    def snapshot(self, agent=0):
        """A Snapshot of what is shown."""
        return Snapshot(self, agent)


class _SnapshotView(navd.View):
    """The view that is in a snapshot, and is closed with it."""

    def __init__(self, handle, snapshot):
        super().__init__()
        self._handle, self._snapshot = handle, snapshot

    def close(self):
        self._handle = navd._Handle()


class Snapshot(_Owner):
    """What a world showed when the snapshot was last refreshed; one for each thread that asks."""
    _route = _view = None

    def __init__(self, world, agent=0):
        self._calls, self._world, at, route = world._calls, world, c_void_p(), c_void_p()
        _done(self._calls.navd_snapshot_create(world._held(), agent, byref(at)))
        self._at = at
        _done(self._calls.navd_route_create(byref(route)))
        self._route = route

    def close(self):
        if self._route:
            self._calls.navd_route_destroy(self._route)
            self._route = None
        if self._view:
            self._view.close()
        if self._at:
            self._calls.navd_snapshot_destroy(self._at)
            self._at = None

    def refresh(self):
        """Takes what the world shows now; whether that is something new."""
        return _done(self._calls.navd_snapshot_refresh(self._held(), self._world._held()), SAME) == OK

    @property
    def version(self):
        return self._calls.navd_snapshot_version(self._held())

    @property
    def view(self):
        """Its navd.View, for all questions of navd.py, in sixteenths of a cell and height units; it ends with the snapshot."""
        if not self._view:
            self._view = _SnapshotView(self._calls.navd_snapshot_view(self._held()).contents, self)
        return self._view

    def find_path(self, start, goal, filter=None):
        """A cheapest way between two points: a Route, or a NoRoute."""
        status = self._calls.navd_snapshot_find_path(self._held(), _filter(filter), byref(_Vec3(*start)), byref(_Vec3(*goal)), self._route)
        if status in (NO_START, NO_GOAL, NO_PATH, LIMIT):
            return NoRoute(status)
        _done(status, PARTIAL)
        corners = POINTER(_RouteCorner)()
        count = self._calls.navd_route_corners(self._route, byref(corners))
        return Route([_point(corners[i].at) for i in range(count)], self._calls.navd_route_cost(self._route), self._calls.navd_route_version(self._route),
                     status == PARTIAL)

    def nearest(self, at, reach, height, filter=None):
        """The nearest place to a point, at most `reach` away in the plane and `height` up or down, or None where there is none."""
        told = _Vec3()
        status = _done(self._calls.navd_snapshot_nearest(self._held(), _filter(filter), byref(_Vec3(*at)), reach, height, byref(told)), NO_PLACE)
        return _point(told) if status == OK else None

    def height(self, at):
        """The height of the floor above or below a point that is nearest to it, or None where there is none."""
        told = c_float()
        return told.value if _done(self._calls.navd_snapshot_height(self._held(), byref(_Vec3(*at)), byref(told)), NO_PLACE) == OK else None

    def raycast(self, start, goal):
        """The Hit of a straight walk from a point toward another one, or a NoRoute where no floor is where it begins."""
        told = _Hit(size=ctypes.sizeof(_Hit))
        status = _done(self._calls.navd_snapshot_raycast(self._held(), byref(_Vec3(*start)), byref(_Vec3(*goal)), byref(told)), NO_START)
        if status == NO_START:
            return NoRoute(status)
        return Hit(bool(told.hit), told.fraction, _point(told.at), _point(told.wall_from), _point(told.wall_to))
