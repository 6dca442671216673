"""Random acts of plays of kinds, for `kinds_check.py`: each is a name, and what it is called with. A few that belong together may depend on what the acts
before them left in the book. A settle and a publish have the seed of what is asked after them."""
import random
from dataclasses import replace
from itertools import islice

from kinds_levels import random_shape

HANDLES = 3


def broken(shape):
    """A shape with a number out of its limits, as a rule by one."""
    kind, numbers, area = shape
    numbers = list(numbers)
    if random.randrange(6) == 0:
        return kind, tuple(numbers), random.choice([64, 2**32 - 1])
    if kind == "prism" and random.randrange(3):
        corners = list(numbers[0])
        numbers[0] = tuple(random.choice([corners[::-1], corners[:2], corners[:-1] + corners[:1], corners[:-1] + [(81921, corners[-1][1])],
                                          [(-16385, corners[0][1])] + corners[1:], corners[:1] + corners]))
    elif kind == "disc" and random.randrange(2):
        place = random.randrange(3)
        numbers[place] = random.choice([[-16385, 81921], [-16385, 81921], [0, 16385]][place])
    elif kind in ("block", "cylinder") and random.randrange(2):
        place = random.choice([0, 1, 4, 5]) if kind == "block" else random.randrange(3)
        numbers[place] = (1024 if kind == "block" else [2049, 2049, 1024][place])
    else:
        low = 2 if kind == "block" else len(numbers) - 2
        numbers[low:low + 2] = random.choice([(5, 4), (0, 8192)])
    return kind, tuple(numbers), area


def refused_kinds(ground, agents):
    """A ground, kinds, spans and costs of which one number is out of its limits."""
    spans, costs = ground.spans, ground.costs
    case = random.randrange(5 if len(spans) > 1 else 4)
    agent = random.choice(agents)
    if case == 0:
        ground = replace(ground, **random.choice([{"width": 0}, {"width": 1025}, {"depth": 0}, {"depth": 1025}, {"error": 10001}, {"limit": 0},
                                                  {"limit": 1025}]))
    elif case == 1:
        words = random.choice([{"height": 0}, {"height": 256}, {"climb": agent.height}, {"radius": 16}, {"tile": 3}, {"tile": 129},
                               {"radius": 5, "clear": 1, "tile": 9}])
        agents = [replace(agent, **words) if it is agent else it for it in agents]
    elif case == 2:
        agents = random.choice([[], agents * 17])
    elif case == 3:
        costs = random.choice([(1,) * 63, (1,) * 65, (0,) + (1,) * 63, (1,) * 63 + (1001,)])
    else:
        place = random.randrange(len(spans) - 1)
        one = spans[place]
        wrong = random.choice([spans[place + 1], (ground.width, *one[1:]), (one[0], ground.depth, *one[2:]), (*one[:3], one[2], one[4]),
                               (*one[:2], one[2], 8192, one[4]), (*one[:4], 64)])
        spans = spans[:place] + (wrong,) + spans[place + 1:]
    return ground, agents, spans, costs


def random_number(book):
    """The number of an obstacle, mostly of one that is there."""
    there = list(book.alive[-1])
    return random.choice(there) if there and random.randrange(6) else random.choice([0, 1, book.length(), book.length() + 1, 2**32 - 1])


def to_build(ground):
    """Acts after which tiles are awaited, as a rule."""
    if random.randrange(4):
        yield from [("add", random_shape(ground)) for _ in range(random.randrange(1, 4))]
    if random.randrange(6):
        yield ("aim",)


def by_jobs(book, ground):
    """Acts that build some of what is awaited by jobs: each is handed in to its kind or, now and then, to another, put back, or kept."""
    yield from to_build(ground)
    for _ in range(random.choice([1, 3, 3, 30])):
        free = [job for job, it in enumerate(book.jobs) if it is None]
        job = random.choice(free) if free else random.randrange(HANDLES)
        if not free or not list(islice(book.claimable(), 1)):
            yield "claim", job
            break
        yield "claim", job
        if random.randrange(5):
            yield "build", job
        if random.randrange(4):
            yield "submit" if random.randrange(6) else "put_back", kind_of(book, job), job


def kind_of(book, job):
    """A kind to which a job may be handed in, or now and then any other, or none."""
    like = [number for number, kind in enumerate(book.kinds) if book.jobs[job] and kind.agent.normal() == book.jobs[job].like]
    return random.choice(like) if like and random.randrange(6) else random.randrange(len(book.kinds) + 1)


def with_jobs(book):
    """Acts with a job that was kept, if there is one."""
    held = [job for job, it in enumerate(book.jobs) if it is not None]
    job = random.choice(held) if held and random.randrange(6) else random.randrange(HANDLES)
    kind = kind_of(book, job)
    return random.choice([[("build", job)], [("build", job), ("submit", kind, job)], [("submit", kind, job)], [("put_back", kind, job)], [("put_back_all",)]])


def by_steps(book, ground):
    """Acts that build some of what is awaited, and publish it if that was all."""
    yield from to_build(ground)
    for _ in range(random.choice([1, 2, 40])):
        yield ("step",)
        if not list(islice(book.claimable(), 1)):
            break
    yield "publish", random.randrange(2**32)


def random_columns(ground):
    """A rectangle of columns: one, a few, whole rows, or all."""
    def ends(count):
        first = random.randrange(count)
        return random.choice([(first, first), (first, min(count - 1, first + random.randrange(6))), (0, first), (first, count - 1), (0, count - 1)])
    return *ends(ground.width), *ends(ground.depth)


def other_spans(ground, columns):
    """Spans for the columns of a rectangle: none, those that are there, some of them, other areas, tops or bottoms, or a flat floor."""
    x0, x1, z0, z1 = columns
    there = [span for span in ground.spans if x0 <= span[0] <= x1 and z0 <= span[1] <= z1]
    case = random.randrange(7)
    if case == 0:
        return ()
    if case == 1:
        return tuple(there)
    if case == 2:
        return tuple(span for span in there if random.randrange(4))
    if case == 3:
        return tuple((*span[:4], random.choice([0, 1, 5, 63])) for span in there)
    if case == 4:
        return tuple((x, z, bottom, max(bottom + 1, top - random.choice([0, 0, 1, 3])), area) for x, z, bottom, top, area in there)
    low, high = random.choice([(0, 40), (0, 44), (30, 41)]), random.choice([60, 200])
    floor = [(x, z, *low, random.choice([0, 1, 1, 63])) for z in range(z0, z1 + 1) for x in range(x0, x1 + 1) if random.randrange(12)]
    return tuple(floor) if case == 5 else tuple(span for at in floor for span in [at] + [(*at[:2], high, high + 8, 1)] * random.randrange(2))


def bad_change(ground, columns, spans):
    """A change of which one number, or the order of the spans, is wrong."""
    x0, x1, z0, z1 = columns
    case = random.randrange(5 if spans else 2)
    if case == 0:
        return random.choice([(x0, ground.width, z0, z1), (x0, x1, z0, ground.depth), (x1 + 1, x1, z0, z1), (x0, x1, z1 + 1, z1), (2**32 - 1, x1, z0, z1),
                              (x0, 2**31, z0, z1), (x0, 2**32 - 1, z0, 2**32 - 1)]), spans
    if case == 1:
        return columns, (*spans, random.choice([(x1 + 1, z1, 8000, 8001, 1), (x1, z1 + 1, 0, 1, 1), (x1, z1, 8191, 8192, 1)]))
    place = random.randrange(len(spans))
    one = spans[place]
    wrong = random.choice([(*one[:3], one[2], one[4]), (*one[:4], 64), (*one[:2], one[3], one[2], one[4]), (ground.width, *one[1:])])
    if case == 2:
        return columns, (*spans[:place], wrong, *spans[place + 1:])
    return columns, (*spans[:place], one, *spans[place:]) if case == 3 else (*spans[1:], spans[0], spans[0])


def to_change(ground):
    """A change of the ground, as a rule once all is published; now and then one that is refused."""
    columns = random_columns(ground)
    spans = other_spans(ground, columns)
    if random.randrange(8) == 0:
        columns, spans = bad_change(ground, columns, spans)
    seed = random.randrange(2**32)
    return [("settle", random.randrange(2**32))] * (random.randrange(4) > 0) + [("change_ground", columns, spans, seed)]


def random_act(book, ground, agents):
    """One act, or a few that belong together."""
    choice = random.randrange(100)
    if choice < 18:
        return [("add", random_shape(ground))]
    if choice < 26:
        return to_change(ground)
    if choice < 30:
        return [("remove", random_number(book))]
    if choice < 40 and book.alive[-1]:
        number = random.choice(list(book.alive[-1]))
        return [("remove", number), *[("settle", random.randrange(2**32))] * random.randrange(2), ("add", book.alive[-1][number])]
    if choice < 47:
        return [("settle", random.randrange(2**32))]
    if choice < 51:
        return [("aim",)]
    if choice < 64:
        return by_steps(book, ground)
    if choice < 66:
        return [("publish", random.randrange(2**32))]
    if choice < 82:
        return by_jobs(book, ground)
    if choice < 89:
        return with_jobs(book)
    if choice < 92:
        return [("settle", random.randrange(2**32))] * random.randrange(2) + [("renew", random.choice([ground.limit, ground.limit, 0, 1, 2]))]
    if choice < 95:
        return [("add", broken(random_shape(ground)))]
    if choice < 97:
        return [("count", random.randrange(len(book.kinds) + 1))]
    return [("refused_open", *refused_kinds(ground, agents))] if choice < 99 else [("reopen",)]
