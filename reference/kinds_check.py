#!/usr/bin/env python3
"""Checks kinds of agents over one ground, which the library holds with one history: random small grounds with 1 to 4 kinds, whose heights, climbs, radii,
clearance and tiles differ in all, in one number or in none. The ground changes in rectangles of columns: it comes, goes and is built anew. Blocks, cylinders, prisms and discs come, go, are switched off and on, and are refused; tiles are
built at once, step by step, or by jobs that go astray; the history begins again, the handle is opened again, and calls are refused. Memory is refused too
where LIBRARY is made with `refusing.c` in place of the heap of hosts/c.

What each call answers, and what it leaves in the places for answers, has to be what `kinds_book.py` has. After each publish the mesh of each kind has to be
that which the second program finds for this kind alone under these obstacles, its floors, paths and rays are checked by the rules of `play_check.py`, and a
level of the library that was opened for the kind alone, with the same requests, has to show and answer the same. All kinds show one length. A call that is
refused leaves the counts, and what is shown, as they were; so do views that are not brought up.

usage: reference/kinds_check.py LIBRARY [PLAYS [SEED]] [--jobs N]     (200 plays, seed 1, one process; LIBRARY is what `make libnavd.so` of hosts/c makes)

It ends with the first play that differs, or at an interrupt with what was played by then. A play that differs is made as short as leaving acts out makes it,
and left in a file that is named. A play takes some 200 ms.
"""
import random
import tempfile
from collections import Counter
from pprint import pformat

from library import count_all, host_and_levels, processes

jobs = processes()
navd, plays, first_seed = host_and_levels(__doc__, 200)

from kinds_acts import HANDLES, random_act
from kinds_book import Book
from kinds_calls import UNTOLD, Alone, Calls
from kinds_levels import Kind, random_ground
from kinds_views import agree, ask, shown
from solids import is_over, is_over_by_parts

# Calls that may want memory.
WANT_MEMORY = ("settle", "step", "publish", "renew", "claim", "build", "change_ground")


class Play:
    """Kinds of the library, beside them a book, and for each kind a level of the second program and one of the library."""

    def __init__(self, ground, agents, counts):
        self.ground, self.agents, self.counts = ground, agents, counts
        self.kinds = [Kind(ground, agent) for agent in agents]
        self.calls, self.old = Calls(jobs=HANDLES), None
        self.alone, self.views, self.alone_views = [], [navd.View() for _ in agents], [navd.View() for _ in agents]
        self.fresh = set(range(len(agents)))
        self.book = Book(self.kinds, ground.limit, HANDLES)
        self.reopen()

    def reopen(self, after=0):
        """The kinds are opened, in place of those that the handle held. Jobs of those are still jobs of this ground."""
        status = self.without_memory(after, self.calls.open, self.ground, self.agents)
        if after and status == navd.NO_MEMORY:
            self.counts["open: no memory"] += 1
            self.unchanged()
            return
        assert status == navd.OK, f"the kinds are not opened: {navd.NAMES[status]}"
        kept = self.book.jobs
        self.book = Book(self.kinds, self.ground.limit, HANDLES)
        self.book.jobs = kept
        self.open_alone()
        self.compare(0)

    def open_alone(self):
        """A level for each kind. All entries stand in `entries`, of which `given` were given to these levels."""
        for level in self.alone:
            level.close()
        self.alone, self.given, self.entries = [Alone(kind.text) for kind in self.kinds], 0, []

    def close(self):
        self.calls.close()
        for it in self.alone + self.views + self.alone_views + ([self.old[0]] if self.old else []):
            it.close()

    # == Acts ==

    def without_memory(self, after, call, *words):
        """What a call answers while the request for memory of this number, and all behind it, are refused to it; with 0 none is."""
        self.calls.refuse(after)
        told = call(*words)
        self.calls.refuse(0)
        return told

    def both(self, name, *words, after=0):
        """What a call answers, by the library and by the book. Where it wants memory that is refused, nothing is told, and the book is not asked."""
        told = self.without_memory(after, getattr(self.calls, name), *words)
        if after and told[0] == navd.NO_MEMORY and name in WANT_MEMORY:
            assert all(it in (UNTOLD, [UNTOLD] * len(it) if isinstance(it, list) else UNTOLD) for it in told[1:]), f"{name}{words} leaves {told}"
            self.counts[f"{name}: no memory"] += 1
            return navd.NO_MEMORY
        due = getattr(self.book, name)(*words)
        assert told == due, f"{name}{words}: {told} is told, and {due} is right"
        self.counts[f"{name}: {navd.NAMES[due[0]]}"] += 1
        return due[0]

    def do(self, name, *words, after=0):
        if name == "refused":
            self.do(*words[1:], after=words[0])
        elif name == "reopen":
            self.reopen(after)
        elif name == "refused_open":
            self.refused_open(*words)
        elif name in ("settle", "publish"):
            self.show(name, words[0], after)
        elif name == "change_ground":
            self.change_ground(*words, after)
        else:
            before = self.book.length()
            status = self.both(name, *words, after=after)
            if name in ("add", "remove") and self.book.length() > before:
                self.entries.append((name, *words, status))
            elif name == "renew" and status == navd.OK:
                self.begin_alone_again()
            if status != navd.OK or name == "renew":
                self.unchanged()

    def show(self, name, seed, after):
        """A settle or a publish. A settle that wants memory may have built some tiles; another one builds on."""
        status = self.both(name, after=after)
        if status == navd.OK:
            self.compare(seed)
        elif status == navd.NO_MEMORY and name == "settle":
            self.as_shown()
            self.show(name, seed, 0)
        else:
            self.unchanged()

    def change_ground(self, columns, spans, seed, after):
        """Other spans in a rectangle of columns: the kinds are then as kinds that are opened over the changed ground, with the entries that are published."""
        status = self.both("change_ground", self.ground, columns, spans, after=after)
        if status != navd.OK:
            self.unchanged()
            return
        self.ground = self.ground.changed(columns, spans)
        self.kinds = [Kind(self.ground, kind.agent) for kind in self.kinds]
        self.book.over(self.kinds)
        for level in self.alone:
            level.close()
        self.alone, self.given = [Alone(kind.text) for kind in self.kinds], 0
        self.compare(seed)

    def refused_open(self, ground, agents, spans, costs):
        """Kinds that cannot be opened: those that are held stay."""
        told = self.calls.open(ground, agents, spans, costs)
        assert told == navd.OUT_OF_RANGE, f"{ground}, {agents}, {costs} are answered {told}"
        self.counts["open: out of range"] += 1
        self.unchanged()

    # == What has to be shown ==

    def unchanged(self):
        """After a refusal, and once the history began again: what is shown is what it was."""
        for number in range(len(self.kinds)):
            self.both("count", number)
        self.as_shown()

    def as_shown(self):
        """Each kind shows what was published last."""
        for number, kind in enumerate(self.kinds):
            agree("a length", self.calls.look(self.views[number], number), (navd.OK, self.book.published))
            self.fresh.discard(number)
            agree(f"kind {number} after a refusal", shown(self.views[number], kind.tiles), kind.shown())

    def look_without_memory(self, number):
        """A look that wants memory leaves the view as it was."""
        view, kind = self.views[number], self.kinds[number]
        if number not in self.fresh:
            before = shown(view, kind.tiles)
            if self.without_memory(1, self.calls.look, view, number) == (navd.NO_MEMORY, UNTOLD):
                agree("a view that was not brought up", shown(view, kind.tiles), before)
                self.counts["look: no memory"] += 1

    def compare(self, seed):
        """After a publish: each kind is as the two levels of its own, and what was not brought up is as it was."""
        state = random.getstate()
        random.seed(seed)
        if self.old:
            view, tiles, due = self.old
            agree("a view that was not brought up", shown(view, tiles), due)
        length = self.book.published
        self.bring_up()
        for number, kind in enumerate(self.kinds):
            kind.publish(self.book.alive[length], length)
            view, alone, due = self.views[number], self.alone_views[number], kind.shown()
            if random.randrange(4) == 0:
                self.look_without_memory(number)
            agree("a length", self.calls.look(view, number), (navd.OK, length))
            self.fresh.discard(number)
            agree(f"kind {number}", shown(view, kind.tiles), due)
            agree(f"the level of kind {number}", shown(alone, kind.tiles), due)
            self.both("count", number)
            ask(view, alone, kind, self.counts)
        self.counts["meshes"] += len(self.kinds)
        if random.randrange(3) == 0:
            number = random.randrange(len(self.kinds))
            if self.old:
                self.old[0].close()
            self.old = self.views[number], self.kinds[number].tiles, self.kinds[number].shown()
            self.views[number] = navd.View()
            self.fresh.add(number)
        random.setstate(state)

    def bring_up(self):
        """The levels of their own are given the entries that are published now, and are settled."""
        for level, view in zip(self.alone, self.alone_views):
            for number, (name, words, status) in enumerate(self.entries[self.given:self.book.published], self.given + 1):
                agree(f"an entry of a level, {name} {words}", getattr(level, name)(words), (status, number))
            agree("the length of a level", level.settle(), (navd.OK, self.book.published))
            assert level.look(view) == (navd.OK, self.book.published)
        self.given = self.book.published

    def begin_alone_again(self):
        """All entries are published when the history of the kinds begins again."""
        there = self.book.alive[-1]
        self.entries = [("add", shape, navd.OK) for _, shape in sorted(there.items())]
        for level in self.alone:
            status, numbers, count = level.renew(self.ground.limit)
            assert (status, count) == (navd.OK, len(there)), "a level's history does not begin again"
        self.given = len(there)

    def emptied(self):
        """Once the kinds are closed each call tells that there are none, and views and jobs stay good."""
        self.unchanged()
        self.calls.call("close")
        for view, kind in zip(self.views, self.kinds):
            agree("a view of what was closed", shown(view, kind.tiles), kind.shown())
        shape = "block", (0, 0, 0, 0, 0, 0), None
        empty, untold = navd.EMPTY, UNTOLD
        for job in range(HANDLES):
            self.both("build", job)
        for name, words, due in (("add", (shape,), (empty, 0)), ("add", (("block", (1, 0, 0, 0, 0, 0), None),), (navd.OUT_OF_RANGE, 0)),
                                 ("remove", (1,), (empty, 0)), ("aim", (), (empty, untold)), ("settle", (), (empty, untold)),
                                 ("step", (), (empty, untold, untold)), ("publish", (), (empty, untold, untold)), ("renew", (1,), (empty, [untold], untold)),
                                 ("change_ground", (self.ground, (0, 0, 0, 0), ()), (empty,)), ("claim", (0,), (empty, untold, untold)), ("submit", (0, 0), (empty,)), ("put_back", (0, 0), (empty,)),
                                 ("put_back_all", (), (empty,)), ("count", (0,), (empty, (untold,) * 6)), ("look", (self.views[0], 0), (empty, untold))):
            agree(f"{name} of nothing", getattr(self.calls, name)(*words), due)


# == Plays ==


def compare_forms(shape, ground):
    """The two forms in which the second program has the columns that a prism or a disc covers."""
    for x in range(ground.width):
        for z in range(ground.depth):
            assert is_over(shape, x, z) == is_over_by_parts(shape, x, z), f"two forms of {shape} at {x}, {z}"


def run(seed):
    """A play by its seed: the counts, and what is wrong, with the acts up to it."""
    random.seed(seed)
    ground, agents = random_ground()
    counts, acts = Counter(plays=1), []
    play = Play(ground, agents, counts)
    try:
        for _ in range(random.randrange(5, 25)):
            for act in random_act(play.book, play.ground, agents):
                if random.randrange(4) == 0 and act[0] != "refused_open":
                    act = ("refused", random.choice([1, 1, 2, 3, random.randrange(1, 20), random.randrange(1, 200)]), *act)
                acts.append(act)
                play.do(*act)
                if act[0] == "add" and act[1][0] in ("prism", "disc") and random.randrange(32) == 0 and act[1] in play.book.alive[-1].values():
                    compare_forms(act[1], ground)
        play.emptied()
    except (AssertionError, navd.NavdError) as wrong:
        return counts, (str(wrong), ground, agents, acts)
    finally:
        play.close()
    return counts, None


def wrong_of(ground, agents, acts):
    """What is wrong after these acts, or None."""
    play = Play(ground, agents, Counter())
    try:
        for act in acts:
            play.do(*act)
        play.emptied()
    except (AssertionError, navd.NavdError) as wrong:
        return str(wrong)
    finally:
        play.close()
    return None


def shortened(ground, agents, acts):
    """Acts of which none can be left out."""
    place = len(acts)
    while place > 0:
        place -= 1
        fewer = acts[:place] + acts[place + 1:]
        if wrong_of(ground, agents, fewer) is not None:
            acts, place = fewer, min(place, len(fewer))
    return acts


def told_of(seed):
    """The counts of a play, or what is wrong."""
    counts, wrong = run(seed)
    if wrong is None:
        return counts
    words, ground, agents, acts = wrong
    if wrong_of(ground, agents, acts) is not None:
        acts = shortened(ground, agents, acts)
        words = wrong_of(ground, agents, acts)
    with tempfile.NamedTemporaryFile("w", prefix="navd_kinds_", suffix=".txt", delete=False) as kept:
        kept.write(f"{words}\n{pformat(agents)}\n{pformat(acts)}\n{pformat(ground)}\n")
    return f"play {seed}: {words}\nit is in {kept.name}; to see it again: reference/kinds_check.py LIBRARY 1 {seed}"


def main():
    total = count_all(told_of, range(first_seed, first_seed + plays), jobs, chunksize=8)
    print(f"over {total['plays']} plays: all as the second program and levels of one kind have it")


if __name__ == "__main__":
    main()
