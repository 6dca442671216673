"""What the library answers of kinds, and of a level of one kind, as tuples: the status, and what the call left in each place for an answer. Those places
hold UNTOLD before. For `kinds_check.py`."""
from ctypes import byref, c_size_t, c_uint32
from dataclasses import astuple

import navd
from navd import _Block, _Columns, _Counts, _Cylinder, _Disc, _Ground, _Handle, _Kind, _Point, _Prism, _Span

UNTOLD = 77777777


def struct_of(shape):
    """The shape as the library is handed it. The corners of a prism behind the last are not to be read, and are any numbers."""
    kind, numbers, _ = shape
    if kind == "prism":
        corners, count = [_Point(*point) for point in numbers[0]], len(numbers[0])
        behind = [_Point(count * 7 - 1000000, numbers[1]) for _ in range(6 - count)]
        return _Prism(count, (_Point * 6)(*(corners + behind)[:6]), *numbers[1:])
    return {"block": _Block, "cylinder": _Cylinder, "disc": _Disc}[kind](*numbers)


def array(kind, items):
    """What a call reads, which has an address also where it is empty."""
    return (kind * max(1, len(items)))(*items)


class Calls:
    """Calls of a handle of kinds, or of a level, and of the handles of some jobs."""

    def __init__(self, prefix="navd_kinds_", jobs=0):
        self.library, self.prefix, self.handle = navd._library(), prefix, _Handle()
        self.jobs, self.refuser = [_Handle() for _ in range(jobs)], getattr(self.library, "refuse_memory", None)

    def refuse(self, number):
        """The request for memory of a number, from 1, and all behind it are refused, by a library that can; with 0 none is."""
        if self.refuser:
            self.refuser(number)

    def call(self, name, *words):
        return getattr(self.library, self.prefix + name)(byref(self.handle), *words)

    def told(self, name, count, *words):
        """The status and so many numbers."""
        numbers = [c_uint32(UNTOLD) for _ in range(count)]
        return (self.call(name, *words, *map(byref, numbers)), *(number.value for number in numbers))

    def open(self, ground, agents, spans=None, costs=None):
        """Opens kinds over a ground, or over other spans and costs than it has."""
        spans, costs = (own if given is None else given for own, given in ((ground.spans, spans), (ground.costs, costs)))
        numbers = _Ground(ground.width, ground.depth, ground.error, ground.contours, ground.limit)
        return self.call("open", byref(numbers), array(_Kind, [astuple(agent) for agent in agents]), len(agents), array(c_uint32, costs), len(costs),
                         array(_Span, spans), len(spans))

    def close(self):
        self.call("close")
        for job in self.jobs:
            self.library.navd_job_close(byref(job))

    def add(self, shape):
        return self.told("add_" + shape[0], 1, byref(struct_of(shape)), shape[2] or 0)

    def remove(self, number):
        return self.told("remove", 1, number)

    def aim(self):
        return self.told("aim", 1)

    def settle(self):
        return self.told("settle", 1)

    def step(self):
        return self.told("step", 2)

    def publish(self):
        return self.told("publish", 2)

    def renew(self, room):
        numbers, count = (c_uint32 * max(1, room))(*[UNTOLD] * room), c_size_t(UNTOLD)
        return self.call("renew", numbers, room, byref(count)), list(numbers[:room]), count.value

    def change_ground(self, ground, columns, spans):
        """Other spans in the columns x0 to x1 and z0 to z1 of the ground."""
        return (self.call("change_ground", byref(_Columns(*columns)), array(_Span, spans), len(spans)),)

    def claim(self, job):
        return self.told("claim", 2, byref(self.jobs[job]))

    def build(self, job):
        return (self.library.navd_build(byref(self.jobs[job])),)

    def submit(self, kind, job):
        return (self.call("submit", kind, byref(self.jobs[job])),)

    def put_back(self, kind, job):
        return (self.call("put_back", kind, byref(self.jobs[job])),)

    def put_back_all(self):
        return (self.call("put_back_all"),)

    def count(self, kind):
        told = _Counts(*[UNTOLD] * 6)
        return self.call("count", kind, byref(told)), tuple(getattr(told, name) for name, _ in _Counts._fields_)

    def look(self, view, kind):
        """A view is brought up to a kind."""
        published = c_uint32(UNTOLD)
        return self.library.navd_kinds_look(byref(view._handle), byref(self.handle), kind, byref(published)), published.value


class Alone(Calls):
    """A level of the library that was opened from the field text of one kind."""

    def __init__(self, text):
        super().__init__("navd_")
        given, fault = text.encode(), navd._Fault()
        status = self.call("open", given, len(given), byref(fault))
        assert status == navd.OK, f"the text of one kind is refused: {status}, line {fault.line}, kind {fault.kind}"

    def look(self, view):
        published = c_uint32(UNTOLD)
        return self.library.navd_look(byref(view._handle), byref(self.handle), byref(published)), published.value
