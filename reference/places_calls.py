"""What the library answers of places, as plain tuples: for `places_check.py`. A place is the name of a polygon, that is its tile and index, a point and a
floor; a link the polygon that it leaves, its edge, the polygon that it enters, and the left and the right end of its portal. An answer that is none is a
word. Calls that the library lacks are told by `has`.
"""
from ctypes import byref, c_size_t, c_uint32, c_uint64

import navd
from navd import _Around, _Follower, _Link, _Near, _NearWay, _Place, _PlaceWay, _Point, _Polygon, _Ray, _Turn, _Wall

WORDS = {navd.NO_START: "no start", navd.NO_GOAL: "no goal", navd.NO_PATH: "no path", navd.NO_PLACE: "no wall"}


def told_of(place):
    return (place.polygon.tile, place.polygon.index), (place.at.x, place.at.z), place.y


def asked_of(place):
    name, point, floor = place
    return _Place(_Polygon(*name), _Point(*point), floor)


def near_of(asked):
    return _Near(asked["areas"], _Point(asked["x"], asked["z"]), asked["y"], *[asked[word] for word in ("reach", "down", "up", "weight")])


def link_of(link):
    return ((link.from_.tile, link.from_.index), link.edge, (link.to.tile, link.to.index), (link.left.x, link.left.z), (link.right.x, link.right.z))


class Calls:
    """Asks a view."""

    def __init__(self, view):
        self.view, self.library, self.view_at, self.found = view, view._calls, byref(view._handle), {}
        self.links, self.corners, self.room = (_Link * 1)(), (_Place * 1)(), (_Wall * 1)()

    def has(self, name):
        return hasattr(self.library, f"navd_view_{name}")

    def ask(self, name, *words, ends=()):
        """The status, which is NAVD_OK or one of some ends."""
        if name not in self.found:
            self.found[name] = self.library[f"navd_view_{name}"]
        status = self.found[name](self.view_at, *words)
        if status not in (navd.OK, *ends):
            raise navd.NavdError(status)
        return status

    def shown(self):
        """The polygons by name, and all links in order."""
        tiles = range(self.view.shown()[1])
        faces = {(tile, index): (face.corners, face.area, face.low, face.high) for tile in tiles for index, face in enumerate(self.view.polygons(tile))}
        links = [((it.start.tile, it.start.index), it.edge, (it.end.tile, it.end.index), it.left, it.right)
                 for tile in tiles for it in self.view.inner_links(tile) + self.view.border_links(tile)]
        return faces, sorted(links)

    def nearest(self, asked):
        told = _Place()
        return told_of(told) if self.ask("nearest", byref(near_of(asked)), byref(told), ends=[navd.NO_PLACE]) == navd.OK else None

    def height(self, name, point):
        told = asked_of((name, point, 0))
        return told.y if self.ask("height", byref(told), ends=[navd.NO_PLACE]) == navd.OK else None

    def is_place(self, *place):
        return self.ask("is_place", byref(asked_of(place)), ends=[navd.NO_PLACE]) == navd.OK

    def drawn(self, areas, draw):
        told = _Place()
        status = self.ask("random_place", c_uint64(areas), c_uint64(draw), byref(told), ends=[navd.CUT, navd.NO_PLACE])
        return {navd.OK: told_of(told), navd.CUT: "cut", navd.NO_PLACE: "nowhere"}[status]

    def way(self, start, goal, areas, costs, most_cost, most_polygons):
        """`found` with what it costs, its links and its corners; `limit` with what was seen; or a word."""
        ends = {"from_": asked_of(start), "to": asked_of(goal)}
        return self.found_way("find_way", _PlaceWay(**ends, areas=areas, most_cost=most_cost, most_polygons=most_polygons), costs)

    def way_near(self, start, goal, areas, costs, most_cost, most_polygons):
        """The same between what is asked for at the two ends."""
        ends = {"from_": near_of(start), "to": near_of(goal)}
        return self.found_way("find_way_near", _NearWay(**ends, areas=areas, most_cost=most_cost, most_polygons=most_polygons), costs)

    def found_way(self, name, way, costs):
        table = (c_uint32 * max(1, len(costs)))(*costs)
        while True:
            status = self.ask(name, byref(way), table, c_size_t(len(costs)), self.links, c_size_t(len(self.links)), self.corners,
                              c_size_t(len(self.corners)), ends=[navd.NO_START, navd.NO_GOAL, navd.NO_PATH, navd.LIMIT])
            found = way.found
            if status == navd.LIMIT:
                return "limit", found.seen
            if status != navd.OK:
                return WORDS[status]
            if found.links <= len(self.links) and found.corners <= len(self.corners):
                return "found", found.cost, list(map(link_of, self.links[:found.links])), list(map(told_of, self.corners[:found.corners]))
            self.links, self.corners = (_Link * max(1, found.links))(), (_Place * found.corners)()

    def ray(self, start, to):
        """`reached` and the polygon, `wall` with the edge and how far it is met, or a word."""
        ray = _Ray()
        status = self.ask("cast_ray_from", byref(asked_of(start)), byref(_Point(*to)), byref(ray), ends=[navd.WALL, navd.NO_START])
        if status == navd.OK:
            return "reached", (ray.last.tile, ray.last.index)
        return ("wall", (ray.a.x, ray.a.z), (ray.b.x, ray.b.z), ray.num, ray.den) if status == navd.WALL else WORDS[status]

    def slide(self, start, to, areas):
        """Where a slide ends, or None."""
        end = _Place()
        status = self.ask("slide", byref(asked_of(start)), byref(_Point(*to)), c_uint64(areas), byref(end), ends=[navd.NO_START])
        return told_of(end) if status == navd.OK else None

    def nearest_wall(self, start, reach, areas):
        """The polygon, the edge, its two ends, and the square of its distance; or a word."""
        wall = _Wall()
        status = self.ask("nearest_wall", byref(_Around(from_=asked_of(start), reach=reach, areas=areas)), byref(wall), ends=[navd.NO_START, navd.NO_PLACE])
        return wall_of(wall) if status == navd.OK else WORDS[status]

    def walls(self, start, reach, areas):
        around, count = _Around(from_=asked_of(start), reach=reach, areas=areas), c_size_t()
        while True:
            status = self.ask("walls", byref(around), self.room, c_size_t(len(self.room)), byref(count), ends=[navd.NO_START])
            if status != navd.OK:
                return WORDS[status]
            if count.value <= len(self.room):
                return list(map(wall_of, self.room[:count.value]))
            self.room = (_Wall * count.value)()

    def walk(self, links, turns, start, goal, step):
        """The polygons and points at which a walker stands that goes along a line through links by so many sixteenths along the longer axis of each leg."""
        told = (_Link * max(1, len(links)))(*(_Link(_Polygon(*one), edge, _Polygon(*end), _Point(*left), _Point(*right))
                                              for one, edge, end, left, right in links))
        bends = (_Turn * max(1, len(turns)))(*(_Turn(_Point(*at), side == "R", link) for at, side, link in turns))
        walker = _Follower(_Polygon(*start[0]), _Point(*start[1]), _Point(*goal[1]))
        while True:
            self.ask("follow_path", byref(walker), told, c_size_t(len(links)), bends, c_size_t(len(turns)))
            yield (walker.polygon.tile, walker.polygon.index), (walker.at.x, walker.at.z)
            if walker.link == len(links) and (walker.at.x, walker.at.z) == goal[1]:
                return
            walker.far += step


def wall_of(wall):
    return (wall.polygon.tile, wall.polygon.index), wall.edge, (wall.begin.x, wall.begin.z), (wall.end.x, wall.end.z), (wall.num, wall.den)
