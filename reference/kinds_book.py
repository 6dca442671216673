"""What is held of kinds but for their meshes, by lists and dictionaries: their one history, which obstacles are alive after each length, and of each kind
the shapes that its tiles were built with, and which of them are claimed. Each call has the name and the answer of one of the library, as `kinds_calls.py`
has them, for `kinds_check.py`."""
import navd
from contours import orient
from kinds_calls import UNTOLD
from solids import edges

NEAR, FAR = -16384, 81920


def is_range(low, high, most):
    return 0 <= low <= high <= most


def is_convex(corners):
    """Whether corners are those of a strictly convex polygon, counterclockwise."""
    return len(corners) >= 3 and all(orient(a, b, c) > 0 for a, b in edges(corners) for c in corners if c not in (a, b)) and len(set(corners)) == len(corners)


def is_shape(shape):
    """Whether the numbers of a shape are in their limits."""
    kind, numbers, area = shape
    if not 0 <= (area or 0) <= 63:
        return False
    if kind == "block":
        return is_range(*numbers[:2], 1023) and is_range(*numbers[2:4], 8191) and is_range(*numbers[4:], 1023)
    if kind == "cylinder":
        return all(0 <= at <= 2048 for at in numbers[:2]) and 0 <= numbers[2] <= 1023 and is_range(*numbers[3:], 8191)
    if kind == "disc":
        return all(NEAR <= at <= FAR for at in numbers[:2]) and 1 <= numbers[2] <= 16384 and is_range(*numbers[3:], 8191)
    return 3 <= len(numbers[0]) <= 6 and all(NEAR <= at <= FAR for point in numbers[0] for at in point) and is_convex(list(numbers[0])) \
        and is_range(*numbers[1:], 8191)


class Job:
    """What a job's handle holds: the numbers of the kind of which it is, its tile, the shapes that it is built with, the cells of the tile, and whether it is
    built."""

    def __init__(self, like, tile, shapes, cells):
        self.like, self.tile, self.shapes, self.cells, self.is_built = like, tile, shapes, cells, False


class Book:
    """The kinds are `Kind`s of `kinds_levels.py`. Of each handle of a job `jobs` has what it holds, or None."""

    def __init__(self, kinds, limit, jobs):
        self.kinds, self.limit, self.jobs = kinds, limit, [None] * jobs
        self.alive, self.target, self.published = [{}], 0, 0
        self.stored = [[()] * kind.tiles for kind in kinds]
        self.claimed = [set() for _ in kinds]

    # == What is awaited ==

    def wanted(self, kind, tile):
        return self.kinds[kind].touching(self.alive[self.target], tile)

    def awaited(self):
        """The kinds and tiles that are awaited, in order."""
        return ((kind, tile) for kind, stored in enumerate(self.stored) for tile, shapes in enumerate(stored) if shapes != self.wanted(kind, tile))

    def claimable(self):
        return ((kind, tile) for kind, tile in self.awaited() if tile not in self.claimed[kind])

    def length(self):
        return len(self.alive) - 1

    # == Requests ==

    def add(self, shape):
        if not is_shape(shape):
            return navd.OUT_OF_RANGE, 0
        there = dict(self.alive[-1])
        fits = len(there) < self.limit
        if fits:
            there[self.length() + 1] = shape
        self.alive.append(there)
        return navd.OK if fits else navd.TOO_MANY, self.length()

    def remove(self, number):
        there = dict(self.alive[-1])
        was_there = there.pop(number, None) is not None
        self.alive.append(there)
        return navd.OK if was_there else navd.DEAD, self.length()

    # == Building ==

    def aim(self):
        self.target = self.length()
        return navd.OK, self.target

    def settle(self):
        self.aim()
        self.put_back_all()
        self.stored = [[self.wanted(kind, tile) for tile in range(len(stored))] for kind, stored in enumerate(self.stored)]
        self.published = self.target
        return navd.OK, self.published

    def step(self):
        for kind, tile in self.claimable():
            self.stored[kind][tile] = self.wanted(kind, tile)
            return navd.OK, kind, tile
        return navd.SAME, UNTOLD, UNTOLD

    def publish(self):
        for kind, tile in self.awaited():
            return navd.NOT_YET, kind, tile
        if self.target == self.published:
            return navd.SAME, UNTOLD, self.published
        self.published = self.target
        return navd.OK, UNTOLD, self.published

    def renew(self, room):
        """The numbers that the obstacles had, as far as they are laid into a room, and how many there are."""
        if self.published != self.length():
            return navd.NOT_YET, [UNTOLD] * room, UNTOLD
        there = sorted(self.alive[-1].items())
        if len(there) > room:
            return navd.NO_ROOM, [UNTOLD] * room, len(there)
        self.alive = [{number + 1: shape for number, (_, shape) in enumerate(there[:length])} for length in range(len(there) + 1)]
        self.target = self.published = len(there)
        self.put_back_all()
        return navd.OK, [number for number, _ in there] + [UNTOLD] * (room - len(there)), len(there)

    # == The ground ==

    def change_ground(self, ground, columns, spans):
        """How a change ends; where it comes, `over` has what is held then."""
        if not ground.takes(columns, spans):
            return (navd.OUT_OF_RANGE,)
        return (navd.NOT_YET if self.target != self.published or any(self.awaited()) else navd.OK,)

    def over(self, kinds):
        """The same kinds over another ground of this size."""
        self.kinds = kinds
        self.put_back_all()

    # == Jobs ==

    def claim(self, job):
        if self.jobs[job] is not None:
            return navd.BUSY, UNTOLD, UNTOLD
        for kind, tile in self.claimable():
            self.claimed[kind].add(tile)
            self.jobs[job] = Job(self.kinds[kind].agent.normal(), tile, self.wanted(kind, tile), self.kinds[kind].cells_of(tile))
            return navd.OK, kind, tile
        return navd.SAME, UNTOLD, UNTOLD

    def build(self, job):
        it = self.jobs[job]
        if it is None:
            return (navd.EMPTY,)
        was_built, it.is_built = it.is_built, True
        return (navd.SAME if was_built else navd.OK,)

    def is_refused(self, kind, job):
        """Why a job is not taken by a kind, or put back to it; None where it is."""
        if self.jobs[job] is None:
            return navd.EMPTY
        if kind >= len(self.kinds):
            return navd.OUT_OF_RANGE
        it, of = self.jobs[job], self.kinds[kind]
        return None if it.like == of.agent.normal() and it.cells == of.cells_of(it.tile) else navd.FOREIGN

    def submit(self, kind, job):
        it, refused = self.jobs[job], self.is_refused(kind, job)
        if refused is not None or not it.is_built:
            return (navd.NOT_YET if refused is None else refused,)
        self.jobs[job] = None
        self.claimed[kind].discard(it.tile)
        is_taken = (kind, it.tile) in self.awaited() and it.shapes == self.wanted(kind, it.tile)
        if is_taken:
            self.stored[kind][it.tile] = it.shapes
        return (navd.OK if is_taken else navd.STALE,)

    def put_back(self, kind, job):
        it, refused = self.jobs[job], self.is_refused(kind, job)
        if refused is not None:
            return (refused,)
        self.jobs[job] = None
        self.claimed[kind].discard(it.tile)
        return (navd.OK,)

    def put_back_all(self):
        for claimed in self.claimed:
            claimed.clear()
        return (navd.OK,)

    # == What is told ==

    def count(self, kind):
        """The lengths and the tiles, and how many polygons and links the kind shows."""
        if kind >= len(self.kinds):
            return navd.OUT_OF_RANGE, (UNTOLD,) * 6
        it = self.kinds[kind]
        return navd.OK, (self.length(), self.target, self.published, it.tiles, len(it.polygons), sum(map(len, it.links.values())))
