"""A level of navd over its C library, by ctypes.

    with Level(field_text) as level:
        crate = level.add_block(Block(x=(1, 8), y=(0, 100), z=(4, 5)))
        level.settle()
        path = level.find_path(Place(40, 40, 10), Place(40, 120, 10))

include/navd.h says what each call means, its units and limits. A call that cannot do what it is asked for raises a NavdError; a path or a ray
that is not there is an answer. The library is looked for in the environment's NAVD_LIBRARY, and else beside this file as libnavd.so:

    make -C hosts/c libnavd.so
"""
import ctypes
import math
import os
from ctypes import POINTER, Structure, byref, c_float, c_int32, c_int64, c_size_t, c_uint8, c_uint32, c_uint64, c_void_p
from dataclasses import dataclass
from pathlib import Path

OK, NO_MEMORY, EMPTY, FAULTY, OUT_OF_RANGE, TOO_MANY, DEAD, HISTORY_FULL, NOT_YET, SAME, NO_START, NO_GOAL, NO_PATH, WALL, NO_ROOM, \
    STALE, FOREIGN, BUSY, TOO_MANY_SPANS, PARTIAL, LIMIT, CUT, NO_PLACE = range(23)
NO_OBSTACLE = 24
NOT_SAVED = 25
ABOUT = 26
OVERLAPS = 27

# The version of the library that this file was written for, as major * 10000 + minor * 100 + patch.
VERSION = 100

NAMES = ("ok", "no memory", "empty handle", "faulty text", "number out of range", "too many obstacles", "no such obstacle", "history full",
         "a tile is awaited", "same as before", "no start", "no goal", "no path", "wall", "no room", "the build is wanted no more",
         "the job is of another ground", "the handle holds a job", "too many spans", "a way to the nearest place", "limit", "cut", "no place",
         "unknown", "no obstacle with this id", "no save wrote these bytes", "a line may be shorter", "an agent overlaps another one")

# All areas, as a filter's.
all_areas = 2**64 - 1


class NavdError(Exception):
    """A call that was refused: the number of its end, the number that it told, if it did, and the line and kind of a text's fault."""

    def __init__(self, status, number=0, fault=None):
        super().__init__(NAMES[status] + (f" in line {fault[0]}, kind {fault[1]}" if fault else ""))
        self.status, self.number, self.fault = status, number, fault


class _Handle(Structure):
    _fields_ = [("at", c_void_p), ("full", c_uint32)]


class _Point(Structure):
    _fields_ = [("x", c_int32), ("z", c_int32)]


class _Block(Structure):
    _fields_ = [(name, c_uint32) for name in ("x0", "x1", "y0", "y1", "z0", "z1")]


class _Cylinder(Structure):
    _fields_ = [(name, c_uint32) for name in ("cx", "cz", "r", "y0", "y1")]


class _Prism(Structure):
    _fields_ = [("corners", c_uint32), ("point", _Point * 6), ("y0", c_uint32), ("y1", c_uint32)]


class _Disc(Structure):
    _fields_ = [("x", c_int32), ("z", c_int32), ("r", c_uint32), ("y0", c_uint32), ("y1", c_uint32)]


class _Kind(Structure):
    _fields_ = [(name, c_uint32) for name in ("height", "climb", "radius", "clear", "tile")]


class _Ground(Structure):
    _fields_ = [(name, c_uint32) for name in ("width", "depth", "error", "contours", "limit")]


class _Span(Structure):
    _fields_ = [(name, c_uint32) for name in ("x", "z", "bottom", "top", "area")]


class _Columns(Structure):
    _fields_ = [(name, c_uint32) for name in ("x0", "x1", "z0", "z1")]


class _Solid(Structure):
    _fields_ = [("kind", c_uint32), ("area", c_uint32), ("block", _Block), ("cylinder", _Cylinder), ("prism", _Prism), ("disc", _Disc)]


class _Row(Structure):
    _fields_ = [("id", c_uint64), ("user", c_uint64), ("enabled", c_uint32), ("solid", _Solid)]


class _Updated(Structure):
    _fields_ = [("built", c_uint32), ("published", c_uint32), ("pending", c_uint32), ("version", c_uint64)]


class _WorldPoint(Structure):
    _fields_ = [("x", c_float), ("y", c_float), ("z", c_float)]


class _FramePlace(Structure):
    _fields_ = [("x", c_int32), ("y", c_int32), ("z", c_int32)]


class _Frame(Structure):
    _fields_ = [("cell_size", c_float), ("cell_height", c_float), ("x", c_int32), ("y", c_int32), ("z", c_int32)]


class _FramedField(Structure):
    _fields_ = [("frame", _Frame), ("width", c_uint32), ("depth", c_uint32)]


class _Slope(Structure):
    _fields_ = [("rise", c_uint32), ("run", c_uint32), ("both_sides", c_uint32)]


class _Setting(Structure):
    _fields_ = [(name, c_uint32) for name in ("width", "depth", "tile", "height", "climb", "radius", "error", "contours", "limit", "clear")]


class _Mesh(Structure):
    _fields_ = [("frame", _Frame), ("slope", _Slope), ("setting", _Setting)]


class _MeshFault(Structure):
    _fields_ = [("place", c_size_t), ("kind", c_uint32)]


class _Way(Structure):
    _fields_ = [("from_", _Point), ("from_y", c_uint32), ("to", _Point), ("to_y", c_uint32)]


class _Polygon(Structure):
    _fields_ = [("tile", c_uint32), ("index", c_uint32)]


class _Link(Structure):
    _fields_ = [("from_", _Polygon), ("edge", c_uint32), ("to", _Polygon), ("left", _Point), ("right", _Point)]


class _Turn(Structure):
    _fields_ = [("at", _Point), ("side", c_uint32), ("link", c_uint32)]


class _Floor(Structure):
    _fields_ = [("y", c_uint32), ("area", c_uint32)]


class _Path(Structure):
    _fields_ = [("cost", c_uint64), ("first", _Polygon), ("links", c_size_t), ("turns", c_size_t)]


class _Line(Structure):
    _fields_ = [("way", _Way), ("most", c_uint32), ("quick", c_uint32), ("upper", c_uint64), ("lower", c_uint64), ("first", _Polygon), ("last", _Polygon),
                ("links", c_size_t), ("turns", c_size_t)]


class _Ray(Structure):
    _fields_ = [("last", _Polygon), ("a", _Point), ("b", _Point), ("num", c_int64), ("den", c_int64)]


class _Corner(Structure):
    _fields_ = [("x", c_int32), ("z", c_int32)]


class _Face(Structure):
    _fields_ = [("corners", c_uint32), ("corner", _Corner * 6), ("area", c_uint32), ("low", c_uint32), ("high", c_uint32)]


class _Obstacle(Structure):
    _fields_ = [("number", c_uint32), ("area", c_uint32), ("kind", c_uint32), ("block", _Block), ("cylinder", _Cylinder)]


class _Jump(Structure):
    _fields_ = [("from_", _Point), ("from_y", c_uint32), ("to", _Point), ("to_y", c_uint32), ("cost", c_uint32)]


class _Step(Structure):
    _fields_ = [("kind", c_uint32), ("jump", c_uint32), ("link", _Link)]


class _Hop(Structure):
    _fields_ = [("way", _Way), ("cost", c_uint64), ("first", _Polygon), ("steps", c_size_t), ("turns", c_size_t)]


class _Walker(Structure):
    _fields_ = [("polygon", _Polygon), ("at", _Point), ("y", c_uint32), ("goal", _Point), ("goal_y", c_uint32), ("cost", c_uint64),
                ("links", c_size_t)]


class _Shown(Structure):
    _fields_ = [("published", c_uint32), ("tiles", c_uint32)]


class _Plan(Structure):
    _fields_ = [("way", _Way), ("areas", c_uint64), ("most_cost", c_uint64), ("most_polygons", c_size_t), ("partial", c_uint32), ("rise", c_uint32),
                ("cost", c_uint64), ("seen", c_uint64), ("first", _Polygon), ("last", _Polygon), ("end", _Point), ("end_y", c_uint32),
                ("links", c_size_t), ("turns", c_size_t)]


class _Kept(Structure):
    _fields_ = [("way", _Way), ("first", _Polygon), ("areas", c_uint64), ("cost", c_uint64), ("links", c_size_t), ("turns", c_size_t)]


class _Repair(Structure):
    _fields_ = [("way", _Way), ("first", _Polygon), ("join", c_uint32), ("count", c_size_t), ("keep", c_size_t), ("most_polygons", c_size_t),
                ("areas", c_uint64), ("cost", c_uint64), ("seen", c_uint64), ("kept", c_size_t), ("bridge", c_size_t), ("links", c_size_t),
                ("turns", c_size_t)]


class _Flood(Structure):
    _fields_ = [("at", _Point), ("y", c_uint32), ("back", c_uint32), ("areas", c_uint64), ("most_cost", c_uint64), ("polygons", c_size_t)]


class _Reached(Structure):
    _fields_ = [("polygon", _Polygon), ("cost", c_uint64), ("via", c_size_t)]


class _Goal(Structure):
    _fields_ = [("at", _Point), ("y", c_uint32)]


class _Nearest(Structure):
    _fields_ = [("at", _Point), ("y", c_uint32), ("areas", c_uint64), ("most_cost", c_uint64), ("which", c_size_t), ("cost", c_uint64),
                ("seen", c_uint64), ("first", _Polygon), ("last", _Polygon), ("links", c_size_t)]


class _Follower(Structure):
    _fields_ = [("first", _Polygon), ("from_", _Point), ("goal", _Point), ("far", c_uint32), ("ahead", c_uint32), ("link", c_size_t),
                ("polygon", _Polygon), ("at", _Point), ("y", c_uint32)]


class _Place(Structure):
    _fields_ = [("polygon", _Polygon), ("at", _Point), ("y", c_uint32)]


class _Near(Structure):
    _fields_ = [("areas", c_uint64), ("at", _Point), ("y", c_uint32), ("reach", c_uint32), ("down", c_uint32), ("up", c_uint32),
                ("weight", c_uint32)]


class _Around(Structure):
    _fields_ = [("from_", _Place), ("reach", c_uint32), ("areas", c_uint64)]


class _Wall(Structure):
    _fields_ = [("polygon", _Polygon), ("begin", _Point), ("end", _Point), ("num", c_uint64), ("den", c_uint64), ("edge", c_uint32)]


class _Fine(Structure):
    _fields_ = [("x", c_int32), ("z", c_int32)]


class _Agent(Structure):
    _fields_ = [("polygon", _Polygon), ("at", _Fine), ("low", c_uint32), ("high", c_uint32), ("stranded", c_uint32), ("idle", c_uint32), ("areas", c_uint64),
                ("left", c_uint64), ("radius", c_uint32), ("full", c_uint32), ("speed", c_uint32), ("unused", c_uint32), ("wish", _Fine), ("last", _Fine),
                ("meant", _Fine), ("waited", c_uint32), ("tired", c_uint32)]


class _Crowd(Structure):
    _fields_ = [("sight", c_uint32), ("hz", c_uint32), ("rounds", c_uint32)]


class _FoundWay(Structure):
    _fields_ = [("cost", c_uint64), ("seen", c_uint64), ("links", c_size_t), ("corners", c_size_t)]


class _PlaceWay(Structure):
    _fields_ = [("from_", _Place), ("to", _Place), ("areas", c_uint64), ("most_cost", c_uint64), ("most_polygons", c_size_t), ("found", _FoundWay)]


class _NearWay(Structure):
    _fields_ = [("from_", _Near), ("to", _Near), ("areas", c_uint64), ("most_cost", c_uint64), ("most_polygons", c_size_t), ("found", _FoundWay)]


class _Fault(Structure):
    _fields_ = [("line", c_uint32), ("kind", c_uint32)]


class _Counts(Structure):
    _fields_ = [(name, c_uint32) for name in ("history", "target", "published", "tiles", "polygons", "links")]


@dataclass(frozen=True)
class Place:
    """A point in sixteenths of a cell, and a height that says in which storey."""
    x: int
    z: int
    y: int = 0


@dataclass(frozen=True)
class Block:
    """Columns along x and z, and heights, each from the first to the last."""
    x: tuple[int, int]
    y: tuple[int, int]
    z: tuple[int, int]


@dataclass(frozen=True)
class Cylinder:
    """A centre in half cells, a radius in cells, and heights from the first to the last."""
    cx: int
    cz: int
    r: int
    y: tuple[int, int]


@dataclass(frozen=True)
class Prism:
    """The corners of a base, 3 to 6, counterclockwise and strictly convex, in sixteenths of a cell, and heights from the first to the last."""
    corners: list[tuple[int, int]]
    y: tuple[int, int]


@dataclass(frozen=True)
class Disc:
    """A centre and a radius in sixteenths of a cell, and heights from the first to the last."""
    x: int
    z: int
    r: int
    y: tuple[int, int]


def turned_box(middle, half, angle, y, area=0):
    """The Prism of a box that is turned about its middle: its half widths, in sixteenths of a cell, lie along x and z before that, and the angle is in
    radians, counterclockwise. With the area 0, where it stops agents, its sides are moved out by a sixteenth, so that all of the box is in the prism."""
    across, along = (width + (area == 0) for width in half)
    cos, sin = math.cos(angle), math.sin(angle)
    return Prism([(round(middle[0] + u * cos - v * sin), round(middle[1] + u * sin + v * cos))
                  for u, v in ((-across, -along), (across, -along), (across, along), (-across, along))], y)


@dataclass(frozen=True)
class Polygon:
    tile: int
    index: int


@dataclass(frozen=True)
class Link:
    """A way into a polygon, through the portal from right to left."""
    start: Polygon
    edge: int
    end: Polygon
    left: tuple[int, int]
    right: tuple[int, int]


@dataclass(frozen=True)
class Turn:
    """A corner of a path: on the left or on the right hand, at the portal of a link."""
    at: tuple[int, int]
    is_right: bool
    link: int


@dataclass(frozen=True)
class Floor:
    y: int
    area: int


@dataclass(frozen=True)
class Path_:
    cost: int
    first: Polygon
    links: list[Link]
    turns: list[Turn]


@dataclass(frozen=True)
class Line:
    """A line that is not longer than upper; no line over the links of the mesh is shorter than lower. Both are in 65536ths of a cell."""
    first: Polygon
    last: Polygon
    links: list[Link]
    turns: list[Turn]
    upper: int
    lower: int
    is_shortest: bool


@dataclass(frozen=True)
class NoPath:
    """Why there is none: the number of the end, NO_START, NO_GOAL or NO_PATH."""
    status: int


@dataclass(frozen=True)
class Reached:
    last: Polygon


@dataclass(frozen=True)
class Wall:
    """An edge, and which part of the way leads up to it."""
    a: tuple[int, int]
    b: tuple[int, int]
    num: int
    den: int


@dataclass(frozen=True)
class Face:
    """A polygon as it is drawn: its corners in whole cells, counterclockwise, its area, and its least and greatest floor."""
    corners: list[tuple[int, int]]
    area: int
    low: int
    high: int


@dataclass(frozen=True)
class Obstacle:
    """A Block, a Cylinder, or a "prism" or a "disc", of which no numbers are told, under its number, with the area that it gives, or 0 where it stops
    agents."""
    number: int
    area: int
    shape: Block | Cylinder | str


@dataclass(frozen=True)
class Row:
    """An obstacle of a Registry: its id, the host's own number, whether it is switched on, the area that it gives, or 0 where it stops agents, and a Block,
    Cylinder, Prism or Disc."""
    id: int
    user: int
    enabled: bool
    area: int
    shape: Block | Cylinder | Prism | Disc


@dataclass(frozen=True)
class Updated:
    """How many tiles an update built, whether something new is shown, whether some of what was asked for is not shown yet, and the version."""
    built: int
    published: bool
    pending: bool
    version: int


@dataclass(frozen=True)
class Jump:
    """A one-way jump and what it costs."""
    start: Place
    end: Place
    cost: int


@dataclass(frozen=True)
class Jumped:
    """A step by the jump with a number, from 0, into a polygon."""
    number: int
    end: Polygon


@dataclass(frozen=True)
class Hop:
    """A walk over links and jumps: its steps are Links and Jumpeds."""
    cost: int
    first: Polygon
    steps: list[Link | Jumped]
    turns: list[Turn]


@dataclass(frozen=True)
class Walker:
    """An agent on its way: where it stands, its goal, what the way that is left costs, and the links of that way."""
    polygon: Polygon
    at: Place
    goal: Place
    cost: int
    links: list[Link]


@dataclass(frozen=True)
class Limited:
    """A limit ended the search: a way there, if there is one, costs at least this."""
    seen: int


@dataclass(frozen=True)
class MeshPlace:
    """A place on the mesh: a polygon, and a point that it holds, with the floor there."""
    polygon: Polygon
    at: Place


@dataclass(frozen=True)
class WallPart:
    """A wall: a part of an edge of a polygon, which lies to its left; num / den is the square of how far it is, in sixteenths of a cell."""
    polygon: Polygon
    edge: int
    begin: tuple[int, int]
    end: tuple[int, int]
    num: int
    den: int


@dataclass(frozen=True)
class PlaceWay:
    """A way between two places: its corners are MeshPlaces, of which these two are the first and the last."""
    cost: int
    links: list[Link]
    corners: list[MeshPlace]


@dataclass(frozen=True)
class Partial:
    """A way to the nearest place: no place is nearer to which a way leads that costs, with the straight rest, less than `seen`; a way to the goal, if there
    is one, costs at least that."""
    path: Path_
    end: MeshPlace
    seen: int


@dataclass(frozen=True)
class Repaired:
    """A path that was mended: `kept` of the links that it had, then `bridge` new ones, and the last ones that it had."""
    path: Path_
    kept: int
    bridge: int


@dataclass(frozen=True)
class Cut:
    """A kept path that leads on in part: by these links, from its first polygon; where they are all, the goal has left the last polygon."""
    cost: int
    first: Polygon
    links: list[Link]


@dataclass(frozen=True)
class Flooded:
    """A polygon of a flood, what a cheapest walk to it costs, and the place in the list of the polygon before it; of a flood back what one from it costs,
    and the polygon behind it."""
    polygon: Polygon
    cost: int
    via: int


@dataclass(frozen=True)
class NearestGoal:
    """The nearest of many goals: its place among them, what the way there costs, and that way's ends and links."""
    which: int
    cost: int
    first: Polygon
    last: Polygon
    links: list[Link]


@dataclass(frozen=True)
class Followed:
    """Where a walker on a path is, with how many links behind it, or where the path is cut: the place of the link that leads on no more, and no place."""
    link: int
    place: MeshPlace | None


@dataclass(frozen=True)
class Kind:
    """A kind of agent of Kinds, in height units and cells, and the side of its tiles; with `clear` it keeps its radius from obstacles too."""
    height: int
    climb: int
    radius: int
    tile: int
    clear: bool = False


@dataclass(frozen=True)
class Ground:
    """What Kinds share: columns, the error of outlines, whether polygons are cut of contours, and how many obstacles may be alive."""
    width: int
    depth: int
    limit: int
    error: int = 0
    contours: bool = False


@dataclass(frozen=True)
class Awaited:
    """A tile of a kind that is still awaited."""
    kind: int
    tile: int


@dataclass(frozen=True)
class Counts:
    history: int
    target: int
    published: int
    tiles: int
    polygons: int
    links: int


def _loaded():
    return ctypes.CDLL(os.environ.get("NAVD_LIBRARY", str(Path(__file__).with_name("libnavd.so"))))


def _library():
    found = _loaded()
    handle, number, count = POINTER(_Handle), POINTER(c_uint32), POINTER(c_size_t)
    hop = [handle, POINTER(_Hop), POINTER(_Jump), c_size_t, POINTER(_Step), c_size_t, POINTER(_Turn), c_size_t]
    send = [handle, POINTER(_Way), POINTER(_Link), c_size_t, POINTER(_Walker)]
    march = [handle, POINTER(_Walker), c_uint32, POINTER(_Link), c_size_t]
    faces = [handle, c_uint32, POINTER(_Face), c_size_t, count]
    links = [handle, c_uint32, POINTER(_Link), c_size_t, count]
    for name, words in {
        "navd_version": [],
        "navd_open": [handle, ctypes.c_char_p, c_size_t, POINTER(_Fault)],
        "navd_open_triangles": [handle, ctypes.c_char_p, c_size_t, POINTER(_Fault)],
        "navd_frame_of": [POINTER(_Frame), POINTER(_WorldPoint), POINTER(_WorldPoint), POINTER(_FramedField)],
        "navd_quantize": [POINTER(_Frame), POINTER(_WorldPoint), c_size_t, POINTER(_FramePlace), c_size_t, count],
        "navd_dequantize": [POINTER(_Frame), POINTER(_FramePlace), c_size_t, POINTER(_WorldPoint), c_size_t, count],
        "navd_open_mesh": [handle, POINTER(_Mesh), POINTER(c_float), c_size_t, number, c_size_t, POINTER(c_uint8), c_size_t,
                           POINTER(_MeshFault)],
        "navd_find_hop": hop, "navd_view_find_hop": hop, "navd_send": send, "navd_view_send": send, "navd_march": march, "navd_view_march": march,
        "navd_polygons": faces, "navd_view_polygons": faces, "navd_inner_links": links, "navd_view_inner_links": links,
        "navd_border_links": links, "navd_view_border_links": links,
        "navd_obstacles": [handle, POINTER(_Obstacle), c_size_t, count],
        "navd_changed_tiles": [handle, c_uint32, number, c_size_t, count],
        "navd_view_count": [handle, POINTER(_Shown)],
        "navd_view_set_costs": [handle, number, c_size_t],
        "navd_claim": [handle, handle, number],
        "navd_build": [handle],
        "navd_submit": [handle, handle],
        "navd_put_back": [handle, handle],
        "navd_put_back_all": [handle],
        "navd_registry_begin": [handle, handle],
        "navd_registry_add": [handle, POINTER(_Solid), c_uint64, POINTER(c_uint64)],
        "navd_registry_move": [handle, c_uint64, POINTER(_Solid)],
        "navd_registry_enable": [handle, c_uint64, c_uint32],
        "navd_registry_mark": [handle, c_uint64, c_uint64],
        "navd_registry_remove": [handle, c_uint64],
        "navd_registry_rows": [handle, POINTER(_Row), c_size_t, count],
        "navd_registry_update": [handle, c_uint32, POINTER(_Updated)],
        "navd_registry_claim": [handle, handle, number],
        "navd_registry_submit": [handle, handle],
        "navd_registry_put_back": [handle, handle],
        "navd_registry_put_back_all": [handle],
        "navd_registry_save": [handle, POINTER(c_uint8), c_size_t, count],
        "navd_registry_restore": [handle, POINTER(c_uint8), c_size_t],
        "navd_registry_look": [handle, handle, POINTER(c_uint64)],
        "navd_kinds_open": [handle, POINTER(_Ground), POINTER(_Kind), c_size_t, number, c_size_t, POINTER(_Span), c_size_t],
        "navd_kinds_add_block": [handle, POINTER(_Block), c_uint32, number],
        "navd_kinds_add_cylinder": [handle, POINTER(_Cylinder), c_uint32, number],
        "navd_kinds_add_prism": [handle, POINTER(_Prism), c_uint32, number],
        "navd_kinds_add_disc": [handle, POINTER(_Disc), c_uint32, number],
        "navd_kinds_remove": [handle, c_uint32, number],
        "navd_kinds_settle": [handle, number],
        "navd_kinds_aim": [handle, number],
        "navd_kinds_renew": [handle, number, c_size_t, count],
        "navd_kinds_change_ground": [handle, POINTER(_Columns), POINTER(_Span), c_size_t],
        "navd_kinds_claim": [handle, handle, number, number],
        "navd_kinds_submit": [handle, c_uint32, handle],
        "navd_kinds_put_back": [handle, c_uint32, handle],
        "navd_kinds_put_back_all": [handle],
        "navd_kinds_step": [handle, number, number],
        "navd_kinds_publish": [handle, number, number],
        "navd_kinds_count": [handle, c_uint32, POINTER(_Counts)],
        "navd_kinds_look": [handle, handle, c_uint32, number],
        "navd_prepare": [handle],
        "navd_add_block": [handle, POINTER(_Block), c_uint32, number],
        "navd_add_cylinder": [handle, POINTER(_Cylinder), c_uint32, number],
        "navd_add_prism": [handle, POINTER(_Prism), c_uint32, number],
        "navd_add_disc": [handle, POINTER(_Disc), c_uint32, number],
        "navd_remove": [handle, c_uint32, number],
        "navd_settle": [handle, number],
        "navd_aim": [handle, number],
        "navd_step": [handle, number],
        "navd_publish": [handle, number],
        "navd_renew": [handle, number, c_size_t, POINTER(c_size_t)],
        "navd_floors": [handle, c_uint32, c_uint32, POINTER(_Floor), c_size_t, POINTER(c_size_t)],
        "navd_find_path": [handle, POINTER(_Way), POINTER(_Link), c_size_t, POINTER(_Turn), c_size_t, POINTER(_Path)],
        "navd_cast_ray": [handle, POINTER(_Way), POINTER(_Ray)],
        "navd_count": [handle, POINTER(_Counts)],
        "navd_look": [handle, handle, number],
        "navd_view_copy": [handle, handle],
        "navd_view_floors": [handle, c_uint32, c_uint32, POINTER(_Floor), c_size_t, POINTER(c_size_t)],
        "navd_view_shortest": [handle, POINTER(_Line), POINTER(_Link), c_size_t, POINTER(_Turn), c_size_t],
        "navd_view_find_path": [handle, POINTER(_Way), POINTER(_Link), c_size_t, POINTER(_Turn), c_size_t, POINTER(_Path)],
        "navd_view_cast_ray": [handle, POINTER(_Way), POINTER(_Ray)],
        "navd_view_check_path": [handle, POINTER(_Kept), number, c_size_t, POINTER(_Link), c_size_t, POINTER(_Turn), c_size_t],
        "navd_view_repair_path": [handle, POINTER(_Repair), number, c_size_t, POINTER(_Link), c_size_t, POINTER(_Turn), c_size_t],
        "navd_view_flood": [handle, POINTER(_Flood), number, c_size_t, POINTER(_Reached), c_size_t],
        "navd_view_plan": [handle, POINTER(_Plan), number, c_size_t, POINTER(_Link), c_size_t, POINTER(_Turn), c_size_t],
        "navd_view_nearest_goal": [handle, POINTER(_Nearest), number, c_size_t, POINTER(_Goal), c_size_t, POINTER(_Link), c_size_t],
        "navd_view_follow_path": [handle, POINTER(_Follower), POINTER(_Link), c_size_t, POINTER(_Turn), c_size_t],
        "navd_view_nearest": [handle, POINTER(_Near), POINTER(_Place)],
        "navd_view_height": [handle, POINTER(_Place)],
        "navd_view_is_place": [handle, POINTER(_Place)],
        "navd_view_random_place": [handle, c_uint64, c_uint64, POINTER(_Place)],
        "navd_view_find_way": [handle, POINTER(_PlaceWay), number, c_size_t, POINTER(_Link), c_size_t, POINTER(_Place), c_size_t],
        "navd_view_find_way_near": [handle, POINTER(_NearWay), number, c_size_t, POINTER(_Link), c_size_t, POINTER(_Place), c_size_t],
        "navd_view_cast_ray_from": [handle, POINTER(_Place), POINTER(_Point), POINTER(_Ray)],
        "navd_view_slide": [handle, POINTER(_Place), POINTER(_Point), c_uint64, POINTER(_Place)],
        "navd_view_nearest_wall": [handle, POINTER(_Around), POINTER(_Wall)],
        "navd_view_walls": [handle, POINTER(_Around), POINTER(_Wall), c_size_t, POINTER(c_size_t)],
        "navd_view_crowd_step": [handle, POINTER(_Crowd), POINTER(_Agent), c_size_t],
        "navd_view_crowd_slim": [handle, POINTER(_Crowd), POINTER(_Agent), c_size_t],
        "navd_view_crowd_grant": [handle, POINTER(_Crowd), POINTER(_Agent), c_size_t, POINTER(c_uint32), c_size_t, POINTER(c_size_t), c_size_t,
                                  POINTER(_Fine), c_size_t],
        "navd_view_crowd_enter": [handle, POINTER(_Agent), c_size_t, POINTER(_Agent), c_uint32],
        "navd_view_lead": [handle, POINTER(_Agent), POINTER(_Point), POINTER(_Link), c_size_t, POINTER(c_size_t)],
    }.items():
        call = getattr(found, name)
        call.argtypes, call.restype = words, c_uint32
    for call in (found.navd_close, found.navd_view_close, found.navd_job_close, found.navd_registry_close, found.navd_kinds_close):
        call.argtypes, call.restype = [handle], None
    return found


def version():
    """The version of the library, as VERSION has it."""
    return _library().navd_version()


def _polygon(at):
    return Polygon(at.tile, at.index)


def _point(p):
    return p.x, p.z


def _shape(it):
    if it.kind == 0:
        return Block((it.block.x0, it.block.x1), (it.block.y0, it.block.y1), (it.block.z0, it.block.z1))
    if it.kind == 1:
        return Cylinder(it.cylinder.cx, it.cylinder.cz, it.cylinder.r, (it.cylinder.y0, it.cylinder.y1))
    return "prism" if it.kind == 2 else "disc"


def _told(shape):
    """A Block, a Cylinder, a Prism or a Disc as the library has it."""
    if isinstance(shape, Block):
        return _Block(*shape.x, *shape.y, *shape.z)
    if isinstance(shape, Cylinder):
        return _Cylinder(shape.cx, shape.cz, shape.r, *shape.y)
    if isinstance(shape, Disc):
        return _Disc(shape.x, shape.z, shape.r, *shape.y)
    if len(shape.corners) > 6:
        raise NavdError(OUT_OF_RANGE)
    return _Prism(len(shape.corners), (_Point * 6)(*shape.corners), *shape.y)


def _solid(shape, area):
    kind = (Block, Cylinder, Prism, Disc).index(type(shape))
    return _Solid(kind, area, **{("block", "cylinder", "prism", "disc")[kind]: _told(shape)})


def _solid_shape(it):
    if it.kind < 2:
        return _shape(it)
    if it.kind == 2:
        return Prism([_point(p) for p in it.prism.point[:it.prism.corners]], (it.prism.y0, it.prism.y1))
    return Disc(it.disc.x, it.disc.z, it.disc.r, (it.disc.y0, it.disc.y1))


def _link(it):
    return Link(_polygon(it.from_), it.edge, _polygon(it.to), _point(it.left), _point(it.right))


def _polygon_of(at):
    return _Polygon(at.tile, at.index)


def _link_of(it):
    return _Link(_polygon_of(it.start), it.edge, _polygon_of(it.end), _Point(*it.left), _Point(*it.right))


def _place_of(place):
    return _Place(_polygon_of(place.polygon), _Point(place.at.x, place.at.z), place.at.y)


def _mesh_place(told):
    return MeshPlace(_polygon(told.polygon), Place(told.at.x, told.at.z, told.y))


def _wall(told):
    return WallPart(_polygon(told.polygon), told.edge, _point(told.begin), _point(told.end), told.num, told.den)


def _ray(status, ray):
    """A Reached, a Wall or a NoPath."""
    if status == OK:
        return Reached(_polygon(ray.last))
    if status == WALL:
        return Wall(_point(ray.a), _point(ray.b), ray.num, ray.den)
    if status == NO_START:
        return NoPath(status)
    raise NavdError(status)


def _is_there(status):
    """Whether a call ended with a place."""
    if status not in (OK, NO_PLACE):
        raise NavdError(status)
    return status == OK


def agent_at(x, z, radius, speed, areas=all_areas):
    """An agent of a crowd: its middle, radius, and how far it may go in a step, in 1/256 of a cell, 16 to a unit of a Place. Its fields are those of
    navd_agent in include/navd.h."""
    return _Agent(at=_Fine(x, z), areas=areas, radius=radius, full=radius, speed=speed)


def _array(kind, items):
    """What a call reads, which has an address also where it is empty."""
    return (kind * max(1, len(items)))(*items)


def _turn(it):
    return Turn(_point(it.at), bool(it.side), it.link)


def _way(start, goal):
    return _Way(_Point(start.x, start.z), start.y, _Point(goal.x, goal.z), goal.y)


def _all(kind, call):
    """All that a call tells that lays into a room of this kind, and tells how many there are."""
    room = (kind * 64)()
    while True:
        count = c_size_t()
        status = call(room, len(room), byref(count))
        if status:
            raise NavdError(status)
        if count.value <= len(room):
            return room[:count.value]
        room = (kind * count.value)()


def _bytes(given):
    """Bytes that a call reads, which have an address also where there are none."""
    return (c_uint8 * max(1, len(given))).from_buffer_copy(given or b"\0")


def _saved(call):
    """What a call saves that lays it into a room, or says that there is too little."""
    def told(*room):
        status = call(*room)
        return OK if status == NO_ROOM else status  # how many bytes there are was told, and _all asks once more
    return bytes(_all(c_uint8, told))


class _Asked:
    """What is asked of a level and of a view alike. It is used by one thread at a time."""

    def __init__(self):
        self._calls, self._handle = _library(), _Handle()
        self._links, self._turns, self._floors = (_Link * 64)(), (_Turn * 64)(), (_Floor * 8)()

    def __enter__(self):
        return self

    def __exit__(self, *_):
        self.close()

    def _call(self, name):
        return getattr(self._calls, self._names + name)

    def floors(self, x, z):
        """The floors of a column, from the bottom up."""
        count = c_size_t()
        while True:
            status = self._call("floors")(byref(self._handle), x, z, self._floors, len(self._floors), byref(count))
            if status:
                raise NavdError(status)
            if count.value <= len(self._floors):
                return [Floor(floor.y, floor.area) for floor in self._floors[:count.value]]
            self._floors = (_Floor * count.value)()

    def find_path(self, start, goal):
        """A Path_, or a NoPath."""
        way, found = _way(start, goal), _Path()
        while True:
            status = self._call("find_path")(byref(self._handle), byref(way), self._links, len(self._links), self._turns, len(self._turns),
                                                byref(found))
            if status in (NO_START, NO_GOAL, NO_PATH):
                return NoPath(status)
            if status:
                raise NavdError(status)
            if found.links <= len(self._links) and found.turns <= len(self._turns):
                break
            self._links, self._turns = (_Link * max(1, found.links))(), (_Turn * max(1, found.turns))()
        return Path_(found.cost, _polygon(found.first), [_link(it) for it in self._links[:found.links]],
                     [_turn(it) for it in self._turns[:found.turns]])

    def find_hop(self, start, goal, jumps):
        """A Hop over links and these Jumps, or a NoPath."""
        told = (_Jump * max(1, len(jumps)))(*(_Jump(_Point(it.start.x, it.start.z), it.start.y, _Point(it.end.x, it.end.z), it.end.y, it.cost)
                                              for it in jumps))
        hop, steps = _Hop(_way(start, goal)), (_Step * 64)()
        while True:
            status = self._call("find_hop")(byref(self._handle), byref(hop), told, len(jumps), steps, len(steps), self._turns, len(self._turns))
            if status in (NO_START, NO_GOAL, NO_PATH):
                return NoPath(status)
            if status:
                raise NavdError(status)
            if hop.steps <= len(steps) and hop.turns <= len(self._turns):
                break
            steps, self._turns = (_Step * max(1, hop.steps))(), (_Turn * max(1, hop.turns))()
        return Hop(hop.cost, _polygon(hop.first), [Jumped(it.jump, _polygon(it.link.to)) if it.kind else _link(it.link) for it in steps[:hop.steps]],
                   [_turn(it) for it in self._turns[:hop.turns]])

    def _walk(self, call, walker):
        """Places or moves a walker, once more from where it was where its links had too little room."""
        while True:
            now = _Walker.from_buffer_copy(walker)
            status = call(now)
            if status in (NO_START, NO_GOAL, NO_PATH):
                return NoPath(status)
            if status:
                raise NavdError(status)
            if now.links <= len(self._links):
                return Walker(_polygon(now.polygon), Place(now.at.x, now.at.z, now.y), Place(now.goal.x, now.goal.z, now.goal_y), now.cost,
                              [_link(it) for it in self._links[:now.links]])
            self._links = (_Link * now.links)()

    def send(self, start, goal):
        """A Walker at a place, on its way to another, or a NoPath."""
        way = _way(start, goal)
        return self._walk(lambda now: self._call("send")(byref(self._handle), byref(way), self._links, len(self._links), byref(now)), _Walker())

    def march(self, walker, length):
        """The Walker once it went on for a length, in sixteenths of a cell, or a NoPath."""
        told = _Walker(at=_Point(walker.at.x, walker.at.z), y=walker.at.y, goal=_Point(walker.goal.x, walker.goal.z), goal_y=walker.goal.y)
        return self._walk(lambda now: self._call("march")(byref(self._handle), byref(now), length, self._links, len(self._links)), told)

    def polygons(self, tile):
        """The Faces of a tile."""
        found = _all(_Face, lambda *room: self._call("polygons")(byref(self._handle), tile, *room))
        return [Face([_point(it.corner[i]) for i in range(it.corners)], it.area, it.low, it.high) for it in found]

    def inner_links(self, tile):
        """The Links between polygons of a tile."""
        return [_link(it) for it in _all(_Link, lambda *room: self._call("inner_links")(byref(self._handle), tile, *room))]

    def border_links(self, tile):
        """The Links that lead from a tile to others."""
        return [_link(it) for it in _all(_Link, lambda *room: self._call("border_links")(byref(self._handle), tile, *room))]

    def cast_ray(self, start, goal):
        """A Reached, a Wall or a NoPath."""
        way = _Way(_Point(start.x, start.z), start.y, _Point(goal.x, goal.z), 0)
        ray = _Ray()
        return _ray(self._call("cast_ray")(byref(self._handle), byref(way), byref(ray)), ray)


class Level(_Asked):
    """A level, which `close` or the end of a `with` ends. It is used by one thread at a time."""

    _names = "navd_"

    def __init__(self, text, call="navd_open"):
        super().__init__()
        fault = _Fault()
        status = getattr(self._calls, call)(byref(self._handle), text, len(text), byref(fault))
        if status:
            raise NavdError(status, fault=(fault.line, fault.kind) if status == FAULTY else None)

    @classmethod
    def of_triangles(cls, text):
        """The level of a triangle text."""
        return cls(text, "navd_open_triangles")

    def close(self):
        self._calls.navd_close(byref(self._handle))

    def _number(self, call, *words, allowed=(OK,)):
        number = c_uint32()
        status = call(byref(self._handle), *words, byref(number))
        if status not in allowed:
            raise NavdError(status, number=number.value)
        return status, number.value

    def add_block(self, block, area=0):
        """The number of the obstacle."""
        return self._number(self._calls.navd_add_block, byref(_told(block)), area)[1]

    def add_cylinder(self, cylinder, area=0):
        """The number of the obstacle."""
        return self._number(self._calls.navd_add_cylinder, byref(_told(cylinder)), area)[1]

    def add_prism(self, prism, area=0):
        """The number of the obstacle."""
        return self._number(self._calls.navd_add_prism, byref(_told(prism)), area)[1]

    def add_disc(self, disc, area=0):
        """The number of the obstacle."""
        return self._number(self._calls.navd_add_disc, byref(_told(disc)), area)[1]

    def remove(self, number):
        """The number of the entry."""
        return self._number(self._calls.navd_remove, number)[1]

    def settle(self):
        """Builds and publishes all; how many entries are published."""
        return self._number(self._calls.navd_settle)[1]

    def aim(self):
        """How many entries the tiles are built for from now on."""
        return self._number(self._calls.navd_aim)[1]

    def step(self):
        """The tile that was built; None where none is awaited."""
        status, tile = self._number(self._calls.navd_step, allowed=(OK, SAME))
        return tile if status == OK else None

    def publish(self):
        """How many entries are published; a NavdError while a tile is awaited."""
        return self._number(self._calls.navd_publish, allowed=(OK, SAME))[1]

    def prepare(self):
        """Makes landmarks of what is published, by which paths are found sooner."""
        status = self._calls.navd_prepare(byref(self._handle))
        if status:
            raise NavdError(status)

    def renew(self):
        """Begins the history again: the numbers that the obstacles had, of which the n-th has the number n from then on."""
        numbers, count = (c_uint32 * 1024)(), c_size_t()
        status = self._calls.navd_renew(byref(self._handle), numbers, len(numbers), byref(count))
        if status:
            raise NavdError(status)
        return list(numbers[:count.value])

    def changed_tiles(self, since):
        """The numbers of the tiles that may differ between a length of the history, of those published, and what is published now."""
        return _all(c_uint32, lambda *room: self._calls.navd_changed_tiles(byref(self._handle), since, *room))

    def obstacles(self):
        """The Obstacles that are alive."""
        found = _all(_Obstacle, lambda *room: self._calls.navd_obstacles(byref(self._handle), *room))
        return [Obstacle(it.number, it.area, _shape(it)) for it in found]

    def put_back_all(self):
        """Ends all claims."""
        self._calls.navd_put_back_all(byref(self._handle))

    def counts(self):
        told = _Counts()
        status = self._calls.navd_count(byref(self._handle), byref(told))
        if status:
            raise NavdError(status)
        return Counts(*(getattr(told, name) for name, _ in _Counts._fields_))


class Registry:
    """The level of a Level without obstacles, which holds nothing then, with a Row for each obstacle, whose id stays. What is shown changes in `update` alone.
    It is used by one thread at a time."""

    _names = "navd_registry_"

    def __init__(self, level):
        self._calls, self._handle = _library(), _Handle()
        self._do("begin", byref(level._handle))

    def __enter__(self):
        return self

    def __exit__(self, *_):
        self.close()

    def close(self):
        self._calls.navd_registry_close(byref(self._handle))

    def _do(self, name, *words, allowed=(OK,)):
        status = getattr(self._calls, "navd_registry_" + name)(byref(self._handle), *words)
        if status not in allowed:
            raise NavdError(status)
        return status

    def add(self, shape, area=0, user=0):
        """The id of the obstacle, which is on: a Block, a Cylinder, a Prism or a Disc."""
        id = c_uint64()
        self._do("add", byref(_solid(shape, area)), user, byref(id))
        return id.value

    def move(self, id, shape, area=0):
        self._do("move", id, byref(_solid(shape, area)))

    def enable(self, id, enabled=True):
        """Whether it was not so before."""
        return self._do("enable", id, enabled, allowed=(OK, SAME)) == OK

    def mark(self, id, user):
        self._do("mark", id, user)

    def remove(self, id):
        self._do("remove", id)

    def rows(self):
        """The Rows, by rising ids."""
        found = _all(_Row, lambda *room: self._calls.navd_registry_rows(byref(self._handle), *room))
        return [Row(it.id, it.user, bool(it.enabled), it.solid.area, _solid_shape(it.solid)) for it in found]

    def update(self, most=2**32 - 1):
        """Builds at most so many tiles, and shows what was asked for once all of it is built: what was Updated."""
        told = _Updated()
        self._do("update", most, byref(told))
        return Updated(told.built, bool(told.published), bool(told.pending), told.version)

    def put_back_all(self):
        """Ends all claims."""
        self._do("put_back_all")

    def save(self):
        """The obstacles as bytes: their ids, numbers and shapes, which are on, the last id and the version."""
        return _saved(lambda *room: self._calls.navd_registry_save(byref(self._handle), *room))

    def restore(self, saved):
        """Puts the obstacles that were saved in the place of all others; what is shown stays until an update."""
        self._do("restore", _bytes(saved), len(saved))


class Kinds:
    """Levels of several Kinds of agents over one Ground, with one history, by their numbers from 0. `spans` are (x, z, bottom, top, area), by z, then x, then
    from the bottom up, and `costs` 64 numbers by area, or none: each area costs 1. It is used by one thread at a time."""

    def __init__(self, ground, kinds, spans, costs=()):
        self._calls, self._handle = _library(), _Handle()
        told = _Ground(ground.width, ground.depth, ground.error, ground.contours, ground.limit)
        agents = _array(_Kind, [(it.height, it.climb, it.radius, it.clear, it.tile) for it in kinds])
        self._do("open", byref(told), agents, len(kinds), _array(c_uint32, costs), len(costs), _array(_Span, spans), len(spans))

    def __enter__(self):
        return self

    def __exit__(self, *_):
        self.close()

    def close(self):
        self._calls.navd_kinds_close(byref(self._handle))

    def _do(self, name, *words, allowed=(OK,)):
        status = getattr(self._calls, "navd_kinds_" + name)(byref(self._handle), *words)
        if status not in allowed:
            raise NavdError(status)
        return status

    def _number(self, name, *words):
        number = c_uint32()
        status = getattr(self._calls, "navd_kinds_" + name)(byref(self._handle), *words, byref(number))
        if status:
            raise NavdError(status, number=number.value)
        return number.value

    def add(self, shape, area=0):
        """The number of the obstacle, a Block, a Cylinder, a Prism or a Disc, in all kinds."""
        kind = (Block, Cylinder, Prism, Disc).index(type(shape))
        return self._number(("add_block", "add_cylinder", "add_prism", "add_disc")[kind], byref(_told(shape)), area)

    def remove(self, number):
        """The number of the entry."""
        return self._number("remove", number)

    def settle(self):
        """Builds and publishes all in all kinds; how many entries are published."""
        return self._number("settle")

    def aim(self):
        """How many entries the tiles of all kinds are built for from now on."""
        return self._number("aim")

    def step(self):
        """The kind and the tile that was built; None where none is awaited."""
        kind, tile = c_uint32(), c_uint32()
        status = self._do("step", byref(kind), byref(tile), allowed=(OK, SAME))
        return (kind.value, tile.value) if status == OK else None

    def publish(self):
        """How many entries are published in all kinds; or an Awaited, and then nothing was done in any."""
        kind, number = c_uint32(), c_uint32()
        status = self._do("publish", byref(kind), byref(number), allowed=(OK, SAME, NOT_YET))
        return Awaited(kind.value, number.value) if status == NOT_YET else number.value

    def change_ground(self, x0, x1, z0, z1, spans):
        """Other spans stand in the columns x0 to x1 and z0 to z1, or none. It raises NOT_YET where not all that was aimed at is published."""
        self._do("change_ground", byref(_Columns(x0, x1, z0, z1)), _array(_Span, spans), len(spans))

    def renew(self):
        """Begins the history again: the numbers that the obstacles had, of which the n-th has the number n from then on."""
        numbers, count = (c_uint32 * 1024)(), c_size_t()
        self._do("renew", numbers, len(numbers), byref(count))
        return list(numbers[:count.value])

    def claim(self, job):
        """The kind and the tile that a Job is to build, or None where none is awaited that is not claimed."""
        kind, tile = c_uint32(), c_uint32()
        status = self._do("claim", byref(job._handle), byref(kind), byref(tile), allowed=(OK, SAME))
        job.tile = tile.value if status == OK else None
        return (kind.value, tile.value) if status == OK else None

    def submit(self, kind, job):
        """Whether the build of a Job was still wanted, by the kind that was told."""
        status = self._do("submit", kind, byref(job._handle), allowed=(OK, STALE))
        job.tile = None
        return status == OK

    def put_back(self, kind, job):
        self._do("put_back", kind, byref(job._handle))
        job.tile = None

    def put_back_all(self):
        """Ends all claims of all kinds."""
        self._do("put_back_all")

    def counts(self, kind):
        told = _Counts()
        self._do("count", kind, byref(told))
        return Counts(*(getattr(told, name) for name, _ in _Counts._fields_))


class View(_Asked):
    """What one thread asks while another changes the level: the mesh as it was published at the last look."""

    _names = "navd_view_"

    def close(self):
        self._calls.navd_view_close(byref(self._handle))

    def look(self, level):
        """Shows what the level has published now; how many entries that are. It is a call of both."""
        published = c_uint32()
        status = self._calls.navd_look(byref(self._handle), byref(level._handle), byref(published))
        if status:
            raise NavdError(status)
        return published.value

    def look_at(self, registry):
        """Shows what the Registry shows now; its version. It is a call of both."""
        version = c_uint64()
        status = self._calls.navd_registry_look(byref(self._handle), byref(registry._handle), byref(version))
        if status:
            raise NavdError(status)
        return version.value

    def look_at_kind(self, kinds, kind):
        """Shows what a kind of Kinds shows now; how many entries that are. It is a call of both."""
        published = c_uint32()
        status = self._calls.navd_kinds_look(byref(self._handle), byref(kinds._handle), kind, byref(published))
        if status:
            raise NavdError(status)
        return published.value

    def copy(self):
        """A further View of what it shows, with its costs, for another thread."""
        made = View()
        status = self._calls.navd_view_copy(byref(made._handle), byref(self._handle))
        if status:
            raise NavdError(status)
        return made

    def set_costs(self, costs):
        """Has it answer with costs of its own, 64 numbers by area, from now on."""
        status = self._calls.navd_view_set_costs(byref(self._handle), (c_uint32 * max(1, len(costs)))(*costs), len(costs))
        if status:
            raise NavdError(status)

    def plan(self, start, goal, areas=all_areas, costs=(), most_cost=2**64 - 1, most_polygons=c_size_t(-1).value, partial=None):
        """A cheapest Path_ through a filter: bit a of `areas` says whether area a may be entered, and `costs` are 64 numbers by area, or none for those
        of the view. Or a Limited, where one of the limits ended the search, or a NoPath; or with `partial`, the sixteenths that a unit of height counts,
        a Partial in place of what is none."""
        told = _array(c_uint32, costs)
        while True:
            plan = _Plan(_way(start, goal), areas, most_cost, most_polygons, partial is not None, partial or 0)
            status = self._calls.navd_view_plan(byref(self._handle), byref(plan), told, len(costs), self._links, len(self._links), self._turns,
                                                len(self._turns))
            if status in (NO_START, NO_GOAL, NO_PATH):
                return NoPath(status)
            if status == LIMIT:
                return Limited(plan.seen)
            if status not in (OK, PARTIAL):
                raise NavdError(status)
            if plan.links <= len(self._links) and plan.turns <= len(self._turns):
                break
            self._links, self._turns = (_Link * max(1, plan.links))(), (_Turn * max(1, plan.turns))()
        path = Path_(plan.cost, _polygon(plan.first), [_link(it) for it in self._links[:plan.links]],
                     [_turn(it) for it in self._turns[:plan.turns]])
        return Partial(path, MeshPlace(_polygon(plan.last), Place(plan.end.x, plan.end.z, plan.end_y)), plan.seen) if status == PARTIAL else path

    def check(self, path, start, goal, areas=all_areas, costs=()):
        """The Path_ as which a path leads on, from where its walker is now, a Cut, or a NoPath. `path.first` is the polygon in which the walker was last, and
        the links begin there."""
        links, told = _array(_Link, [_link_of(it) for it in path.links]), _array(c_uint32, costs)
        while True:
            kept = _Kept(_way(start, goal), _polygon_of(path.first), areas)
            status = self._calls.navd_view_check_path(byref(self._handle), byref(kept), told, len(costs), links, len(path.links), self._turns,
                                                      len(self._turns))
            if status == NO_START:
                return NoPath(status)
            if status not in (OK, CUT):
                raise NavdError(status)
            if kept.turns <= len(self._turns):
                break
            links, self._turns = _array(_Link, [_link_of(it) for it in path.links]), (_Turn * kept.turns)()
        found = [_link(it) for it in links[:kept.links]]
        if status == CUT:
            return Cut(kept.cost, _polygon(kept.first), found)
        return Path_(kept.cost, _polygon(kept.first), found, [_turn(it) for it in self._turns[:kept.turns]])

    def repair(self, path, start, goal, areas=all_areas, costs=(), keep=c_size_t(-1).value, join=True, most_polygons=c_size_t(-1).value):
        """A path made whole, from where its walker is now: a Repaired, a Limited, where the search ended after `most_polygons`, or a NoPath. At most `keep`
        of the links as which it leads on are used, and with `join` the way comes back to the last ones, where they still lead to the goal."""
        told = _array(c_uint32, costs)
        links_room, turns_room = max(64, len(path.links)), len(self._turns)
        while True:
            links, turns = _array(_Link, [_link_of(it) for it in path.links] + [_Link()] * (links_room - len(path.links))), (_Turn * turns_room)()
            repair = _Repair(_way(start, goal), _polygon_of(path.first), join, len(path.links), keep, most_polygons, areas)
            status = self._calls.navd_view_repair_path(byref(self._handle), byref(repair), told, len(costs), links, links_room, turns, turns_room)
            if status in (NO_START, NO_GOAL, NO_PATH):
                return NoPath(status)
            if status == LIMIT:
                return Limited(repair.seen)
            if status == OK:
                found = Path_(repair.cost, _polygon(repair.first), [_link(it) for it in links[:repair.links]],
                              [_turn(it) for it in turns[:repair.turns]])
                return Repaired(found, repair.kept, repair.bridge)
            if status != NO_ROOM:
                raise NavdError(status)
            links_room, turns_room = max(links_room, repair.links), max(turns_room, repair.turns)

    def flood(self, start, most_cost, areas=all_areas, costs=(), back=False):
        """The Floodeds within a cost of a place, or with `back` those from which a way leads to it, by rising costs, or a NoPath."""
        room, told = (_Reached * 64)(), _array(c_uint32, costs)
        while True:
            flood = _Flood(_Point(start.x, start.z), start.y, back, areas, most_cost)
            status = self._calls.navd_view_flood(byref(self._handle), byref(flood), told, len(costs), room, len(room))
            if status == NO_START:
                return NoPath(status)
            if status:
                raise NavdError(status)
            if flood.polygons <= len(room):
                return [Flooded(_polygon(it.polygon), it.cost, it.via) for it in room[:flood.polygons]]
            room = (_Reached * flood.polygons)()

    def nearest_goal(self, start, goals, most_cost=2**64 - 1, areas=all_areas, costs=()):
        """The NearestGoal of many Places through a filter, a Limited, where each way to one costs more than `most_cost`, or a NoPath."""
        told, given = _array(c_uint32, costs), _array(_Goal, [_Goal(_Point(it.x, it.z), it.y) for it in goals])
        while True:
            near = _Nearest(_Point(start.x, start.z), start.y, areas, most_cost)
            status = self._calls.navd_view_nearest_goal(byref(self._handle), byref(near), told, len(costs), given, len(goals), self._links,
                                                        len(self._links))
            if status in (NO_START, NO_GOAL, NO_PATH):
                return NoPath(status)
            if status == LIMIT:
                return Limited(near.seen)
            if status:
                raise NavdError(status)
            if near.links <= len(self._links):
                return NearestGoal(near.which, near.cost, _polygon(near.first), _polygon(near.last), [_link(it) for it in self._links[:near.links]])
            self._links = (_Link * near.links)()

    def follow(self, path, start, goal, far, link=0, ahead=0):
        """Where a walker is that has gone so far along the line of a Path_, in sixteenths of a cell along the longer axis of each leg: a Followed, or a
        NoPath. `link` is how many links are behind it, and `ahead` how many from there on are looked at beside those that it uses."""
        links = _array(_Link, [_link_of(it) for it in path.links])
        turns = _array(_Turn, [_Turn(_Point(*it.at), it.is_right, it.link) for it in path.turns])
        told = _Follower(_polygon_of(path.first), _Point(start.x, start.z), _Point(goal.x, goal.z), far, ahead, link)
        status = self._calls.navd_view_follow_path(byref(self._handle), byref(told), links, len(path.links), turns, len(path.turns))
        if status == NO_START:
            return NoPath(status)
        if status not in (OK, CUT):
            raise NavdError(status)
        return Followed(told.link, None if status == CUT else MeshPlace(_polygon(told.polygon), Place(told.at.x, told.at.z, told.y)))

    def nearest(self, to, reach=64, down=28, up=28, weight=4, areas=all_areas):
        """The MeshPlace nearest to a Place, or None where none is in reach: `reach` in the plane, in sixteenths of a cell, `down` and `up` in height units.
        A height unit beyond the agent's climb counts as `weight` sixteenths."""
        near, told = _Near(areas, _Point(to.x, to.z), to.y, reach, down, up, weight), _Place()
        return _mesh_place(told) if _is_there(self._calls.navd_view_nearest(byref(self._handle), byref(near), byref(told))) else None

    def height(self, place):
        """The highest floor at the point of a MeshPlace in its polygon, or None where the polygon does not hold the point."""
        told = _place_of(place)
        return told.y if _is_there(self._calls.navd_view_height(byref(self._handle), byref(told))) else None

    def is_place(self, place):
        """Whether a MeshPlace is one of the mesh that it shows."""
        return _is_there(self._calls.navd_view_is_place(byref(self._handle), byref(_place_of(place))))

    def random_place(self, draw, areas=all_areas):
        """The MeshPlace that a number below 2**64 draws; CUT where no polygon holds the middle of the cell that was drawn, and another number is to be
        drawn; None where no cell has one of the areas."""
        told = _Place()
        status = self._calls.navd_view_random_place(byref(self._handle), areas, draw, byref(told))
        if status == CUT:
            return CUT
        return _mesh_place(told) if _is_there(status) else None

    def _found_way(self, call, way, costs):
        told, corners = _array(c_uint32, costs), (_Place * 64)()
        while True:
            status = call(byref(self._handle), byref(way), told, len(costs), self._links, len(self._links), corners, len(corners))
            if status in (NO_START, NO_GOAL, NO_PATH):
                return NoPath(status)
            if status == LIMIT:
                return Limited(way.found.seen)
            if status:
                raise NavdError(status)
            found = way.found
            if found.links <= len(self._links) and found.corners <= len(corners):
                return PlaceWay(found.cost, [_link(it) for it in self._links[:found.links]], [_mesh_place(it) for it in corners[:found.corners]])
            self._links, corners = (_Link * max(1, found.links))(), (_Place * max(1, found.corners))()

    def find_way(self, start, goal, areas=all_areas, costs=(), most_cost=2**64 - 1, most_polygons=c_size_t(-1).value):
        """A cheapest PlaceWay from a MeshPlace to another through a filter, as that of `plan`; or a Limited, or a NoPath, as where one is none of the
        mesh."""
        way = _PlaceWay(_place_of(start), _place_of(goal), areas, most_cost, most_polygons)
        return self._found_way(self._calls.navd_view_find_way, way, costs)

    def find_way_near(self, start, goal, reach=64, down=28, up=28, weight=4, areas=all_areas, costs=(), most_cost=2**64 - 1,
                      most_polygons=c_size_t(-1).value):
        """The same between the MeshPlaces nearest to two Places, as `nearest` finds them; a NoPath also where none is in reach."""
        ends = [_Near(areas, _Point(it.x, it.z), it.y, reach, down, up, weight) for it in (start, goal)]
        return self._found_way(self._calls.navd_view_find_way_near, _NearWay(*ends, areas, most_cost, most_polygons), costs)

    def cast_ray_from(self, place, to):
        """How the straight walk from a MeshPlace toward a Place ends: a Reached, a Wall, or a NoPath, where it is none of the mesh."""
        ray = _Ray()
        return _ray(self._calls.navd_view_cast_ray_from(byref(self._handle), byref(_place_of(place)), byref(_Point(to.x, to.z)), byref(ray)), ray)

    def slide(self, place, to, areas=all_areas):
        """The MeshPlace where a slide from a MeshPlace toward a Place ends, along walls, or a NoPath, where it is none of the mesh. It is for steps of a
        cell or so, in whole sixteenths: who moves less than one a step keeps the rest."""
        end = _Place()
        status = self._calls.navd_view_slide(byref(self._handle), byref(_place_of(place)), byref(_Point(to.x, to.z)), areas, byref(end))
        if status == NO_START:
            return NoPath(status)
        if status:
            raise NavdError(status)
        return _mesh_place(end)

    def shortest(self, start, goal, most=1000000, quick=False):
        """A Line between two Places by its length, whatever areas cost, or a NoPath. Its search ends after so many records, of about 100 bytes each; a quick
        one passes over ends of portals that the mesh surrounds."""
        line = _Line(_way(start, goal), most, quick)
        while True:
            status = self._calls.navd_view_shortest(byref(self._handle), byref(line), self._links, len(self._links), self._turns, len(self._turns))
            if status in (NO_START, NO_GOAL, NO_PATH):
                return NoPath(status)
            if status not in (OK, ABOUT):
                raise NavdError(status)
            if line.links <= len(self._links) and line.turns <= len(self._turns):
                break
            self._links, self._turns = (_Link * max(1, line.links))(), (_Turn * max(1, line.turns))()
        return Line(_polygon(line.first), _polygon(line.last), [_link(it) for it in self._links[:line.links]],
                    [_turn(it) for it in self._turns[:line.turns]], line.upper, line.lower, status == OK)

    def nearest_wall(self, place, reach, areas=all_areas):
        """The WallPart nearest to a MeshPlace, within a reach in sixteenths; None where there is none, or a NoPath, where the place is none of the mesh."""
        wall = _Wall()
        status = self._calls.navd_view_nearest_wall(byref(self._handle), byref(_Around(_place_of(place), reach, areas)), byref(wall))
        if status == NO_PLACE:
            return None
        if status == NO_START:
            return NoPath(status)
        if status:
            raise NavdError(status)
        return _wall(wall)

    def walls(self, place, reach, areas=all_areas):
        """All WallParts within a reach of a MeshPlace, in order, or a NoPath, where the place is none of the mesh."""
        around = _Around(_place_of(place), reach, areas)
        try:
            return [_wall(it) for it in _all(_Wall, lambda *room: self._calls.navd_view_walls(byref(self._handle), byref(around), *room))]
        except NavdError as end:
            if end.status == NO_START:
                return NoPath(NO_START)
            raise

    def enter(self, agent, y, others=()):
        """Whether an agent of a crowd (`agent_at`) at a height overlaps none of some others, or a NoPath, where no polygon holds it. Where it stands is told
        in the agent. One that overlaps another may enter all the same, and then comes no nearer to that one."""
        status = self._calls.navd_view_crowd_enter(byref(self._handle), _array(_Agent, others), len(others), byref(agent), y)
        if status == NO_START:
            return NoPath(status)
        if status not in (OK, OVERLAPS):
            raise NavdError(status)
        return status == OK

    def step(self, agents, sight=3072, hz=20, rounds=8):
        """The agents of a crowd after a step, each by its `wish`; who has less `left` goes before others."""
        return self._crowd("navd_view_crowd_step", agents, _Crowd(sight, hz, rounds))

    def slim(self, agents, sight=3072, hz=20, rounds=8):
        """The agents of a crowd, of which those that waited for 3 seconds have a quarter of their full radius, and those that go and have room their full
        one."""
        return self._crowd("navd_view_crowd_slim", agents, _Crowd(sight, hz, rounds))

    def _crowd(self, call, agents, rules):
        told = _array(_Agent, agents)
        status = getattr(self._calls, call)(byref(self._handle), byref(rules), told, len(agents))
        if status:
            raise NavdError(status)
        return told[:len(agents)]

    def grant(self, agents, moves, order=None, sight=3072, hz=20, rounds=8):
        """The agents of a crowd after a step with wishes of the host's own: for each agent a list of vectors in 1/256 of a cell, the best first, of which it
        is granted the first that is free. Who stands earlier in `order` goes before others."""
        told, first = _array(_Agent, agents), [0]
        order = range(len(agents)) if order is None else order
        for wished in moves:
            first.append(first[-1] + len(wished))
        given = [_Fine(*move) for wished in moves for move in wished]
        status = self._calls.navd_view_crowd_grant(byref(self._handle), byref(_Crowd(sight, hz, rounds)), told, len(agents), _array(c_uint32, order),
                                                   len(order), _array(c_size_t, first), len(first), _array(_Fine, given), len(given))
        if status:
            raise NavdError(status)
        return told[:len(agents)]

    def lead(self, agent, goal, links, link=0):
        """How many links of a kept path are behind an agent of a crowd, of which so many were before. By which vector it would like to go, and how far its
        goal is, are told in the agent. None where its polygon is none of those near, and a way is to be looked for anew."""
        passed = c_size_t(link)
        status = self._calls.navd_view_lead(byref(self._handle), byref(agent), byref(_Point(goal.x, goal.z)), _array(_Link, [_link_of(it) for it in links]),
                                            len(links), byref(passed))
        if status not in (OK, CUT):
            raise NavdError(status)
        return None if status == CUT else passed.value

    def shown(self):
        """How many entries it shows, and how many tiles there are."""
        told = _Shown()
        status = self._calls.navd_view_count(byref(self._handle), byref(told))
        if status:
            raise NavdError(status)
        return told.published, told.tiles


class Job:
    """A tile that is claimed of a Level or a Registry, and built on any thread. `claim`, `submit` and `put_back` are calls of both."""

    def __init__(self):
        self._calls, self._handle, self.tile = _library(), _Handle(), None

    def __enter__(self):
        return self

    def __exit__(self, *_):
        self.close()

    def claim(self, owner):
        """The tile that is to be built, or None where none is awaited that is not claimed."""
        tile = c_uint32()
        status = getattr(self._calls, owner._names + "claim")(byref(owner._handle), byref(self._handle), byref(tile))
        if status not in (OK, SAME):
            raise NavdError(status)
        self.tile = tile.value if status == OK else None
        return self.tile

    def build(self):
        status = self._calls.navd_build(byref(self._handle))
        if status not in (OK, SAME):
            raise NavdError(status)

    def submit(self, owner):
        """Whether the build was still wanted."""
        status = getattr(self._calls, owner._names + "submit")(byref(owner._handle), byref(self._handle))
        if status not in (OK, STALE):
            raise NavdError(status)
        self.tile = None
        return status == OK

    def put_back(self, owner):
        status = getattr(self._calls, owner._names + "put_back")(byref(owner._handle), byref(self._handle))
        if status:
            raise NavdError(status)
        self.tile = None

    def close(self):
        self._calls.navd_job_close(byref(self._handle))
        self.tile = None
