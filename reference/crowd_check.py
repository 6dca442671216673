#!/usr/bin/env python3
"""Checks the steps of random crowds by fractions, with no code of the library: `bench_crowd` prints a mesh, and for each step where agents were, what they
wished and where they are then. On random fields with holes, steps and decks it has to hold that:

  - who was in a polygon that holds it stays in it, else it is placed in the one that holds it with the nearest floors, or is stranded and stands;
  - nobody goes farther than its speed, and nobody anywhere but by a wish of its own;
  - each way lies in polygons that follow each other by floors no farther apart than a climb, from the one of its begin to the one of its end;
  - two discs that were apart are so at each moment of the step, and two that overlapped come at none nearer, if they do not pass over other storeys;
  - who can touch nobody in one step goes by the first of its wishes that is short enough and ends in its polygon, or by an earlier one;
  - where the step settles, no wish before the one that was made, which is short enough and ends in the own polygon, is clear of all others.

usage: reference/crowd_check.py PROGRAM [CROWDS [SEED]]     (40 crowds, seed 1; PROGRAM is what `rt run < stdin` makes in crates/bench_crowd)
"""
import random
import subprocess
import sys
from collections import Counter
from fractions import Fraction


def dot(u, v):
    return u[0] * v[0] + u[1] * v[1]


def less(p, q):
    return p[0] - q[0], p[1] - q[1]


def field(rng):
    """A field text: some columns are holes, some higher by a step, and over some a deck stands."""
    width, depth = rng.randint(6, 16), rng.randint(6, 16)
    lines = ["nav 1", f"size {width} {depth}", f"tile {rng.randint(4, 10)}", "agent 10 4 0", "error 169",
             f"mesh {rng.choice(['strips', 'contours'])}", "limit 4"]
    deck = rng.random() < 0.5 and (rng.randint(0, width - 3), rng.randint(0, depth - 3))
    for z in range(depth):
        for x in range(width):
            if rng.random() < 0.06:
                continue
            top = rng.choice([10, 10, 10, 10, 12, 13])
            lines.append(f"span {x} {z} 0 {top} 63")
            if deck and 0 <= x - deck[0] < 5 and 0 <= z - deck[1] < 5:
                lines.append(f"span {x} {z} 30 40 63")
    return "\n".join(lines + ["end", ""])


class Polygon:
    def __init__(self, words):
        self.at, (self.low, self.high, _area) = (words[0], words[1]), words[2:5]
        corners = [(256 * x, 256 * z) for x, z in zip(words[5::2], words[6::2])]
        self.edges = list(zip(corners, corners[1:] + corners[:1]))

    def sides(self, p):
        """Above 0 for each edge that has the point on its left."""
        return [(b[0] - a[0]) * (p[1] - a[1]) - (b[1] - a[1]) * (p[0] - a[0]) for a, b in self.edges]

    def holds(self, p):
        return min(self.sides(p)) >= 0

    def part(self, p, q):
        """From which fraction of the way from p to q up to which it lies in the polygon; none where in none."""
        begin, end = Fraction(0), Fraction(1)
        for m, n in zip(self.sides(p), self.sides(q)):
            if m == n:
                if m < 0:
                    return None
            elif m > n:
                end = min(end, Fraction(m, m - n))
            else:
                begin = max(begin, Fraction(-m, n - m))
        return (begin, end) if begin <= end else None

    def gap(self, low, high):
        return max(self.low - high, low - self.high, 0)


class Agent:
    def __init__(self, words):
        self.polygon, self.at, self.low, self.high = (words[0], words[1]), (words[2], words[3]), words[4], words[5]
        self.stranded, self.radius, self.speed = words[6] == 1, words[7], words[8]


class Crowd:
    def __init__(self, lines):
        self.lines = iter(lines)
        _, self.height, _, self.climb = next(self.lines).split()
        self.height, self.climb, self.polygons, self.counts = int(self.height), int(self.climb), {}, Counter()
        self.line = next(self.lines)
        while self.line.startswith("polygon"):
            polygon = Polygon([int(word) for word in self.line.split()[1:]])
            self.polygons[polygon.at] = polygon
            self.line = next(self.lines)

    def take(self, word):
        taken = []
        while self.line.split()[0] == word:
            taken.append([int(n) for n in self.line.split()[1:]])
            self.line = next(self.lines)
        return taken

    def place(self, agent):
        """The polygon in which an agent is placed, or None."""
        fits = [p for p in self.polygons.values() if p.holds(agent.at) and p.gap(agent.low, agent.high) <= self.climb]
        own = [p for p in fits if p.at == agent.polygon]
        return (own or sorted(fits, key=lambda p: (p.gap(agent.low, agent.high), p.at)) or [None])[0]

    def passed(self, first, p, q):
        """The polygons that follow each other along a way from one on, where they cover it from its begin to its end."""
        parts = {polygon.at: part for polygon in self.polygons.values() if (part := polygon.part(p, q))}
        reached, left = {first.at}, [first.at]
        while left:
            at = left.pop()
            for other, part in parts.items():
                if other not in reached and part[0] <= parts[at][1] and parts[at][0] <= part[1] \
                        and self.polygons[other].gap(self.polygons[at].low, self.polygons[at].high) <= self.climb:
                    reached.add(other)
                    left.append(other)
        end = Fraction(0)
        for begin, until in sorted(parts[at] for at in reached):
            if begin <= end:
                end = max(end, until)
        return reached if end == 1 else None

    def nearest(self, place, way):
        """The least square of the distance in a step."""
        c, b, w = dot(place, place), dot(place, way), dot(way, way)
        return c if b >= 0 else c + 2 * b + w if -b >= w else c - Fraction(b * b, w)

    def storeys(self, a, b):
        return a[1] + self.height <= b[0] or b[1] + self.height <= a[0]

    def clear(self, a, b, a_by, b_by, a_floors, b_floors):
        touching, place = (a.radius + b.radius) ** 2, less(b.at, a.at)
        apart = self.storeys((a.low, a.high), (b.low, b.high)) or dot(place, place) >= touching
        self.counts["apart" if apart else "overlapping"] += 1
        return self.storeys(a_floors, b_floors) or self.nearest(place, less(b_by, a_by)) >= (touching if apart else dot(place, place))

    def step(self):
        """Checks one step; what is wrong is told."""
        self.line = next(self.lines)
        was, wishes, now = self.take("was"), self.take("wish"), self.take("is")
        was, now = [Agent(words) for words in was], [Agent(words) for words in now]
        wishes = [list(zip(words[::2], words[1::2])) for words in wishes]
        settles = self.take("settles")[0] == [1]
        self.counts["settled" if settles else "unsettled"] += 1
        ways, floors, homes = [], [], []
        for i, (a, b) in enumerate(zip(was, now)):
            by, home = less(b.at, a.at), self.place(a)
            homes.append(home)
            self.counts["stranded" if home is None else "moved" if by != (0, 0) else "standing"] += 1
            if dot(by, by) > a.speed ** 2 or by != (0, 0) and by not in wishes[i] or (b.radius, b.speed) != (a.radius, a.speed):
                yield f"agent {i} goes by {by}"
            if (home is None) != b.stranded or home is None and by != (0, 0):
                yield f"agent {i} is stranded or not"
            ways.append(by)
            if home is None:
                floors.append((a.low, a.high))
                continue
            a.low, a.high = home.low, home.high
            last, over = self.polygons.get(b.polygon), self.passed(home, a.at, b.at)
            if last is None or not last.holds(b.at) or (last.low, last.high) != (b.low, b.high) or over is None or last.at not in over:
                yield f"agent {i} is not on the mesh"
                over = {home.at}
            floors.append((min(self.polygons[at].low for at in over), max(self.polygons[at].high for at in over)))
        for i, a in enumerate(was):
            for j, b in enumerate(was[:i]):
                if not self.clear(a, b, ways[i], ways[j], floors[i], floors[j]):
                    yield f"agents {j} and {i} come too near"
            yield from self.whole(i, a, was, wishes[i], ways, floors, homes[i], settles)

    def whole(self, i, a, was, wishes, ways, floors, home, settles):
        """Whether an agent made the first of its wishes that it could, as far as that is easily told: of those that end in its polygon."""
        others = [(j, b) for j, b in enumerate(was) if j != i]
        alone = all(max(map(abs, less(b.at, a.at))) > a.radius + b.radius + a.speed + b.speed for _j, b in others)
        self.counts["alone" if alone else "near others"] += 1
        for by in [] if home is None else wishes:
            if by == ways[i]:
                return
            if dot(by, by) > a.speed ** 2 or not home.holds((a.at[0] + by[0], a.at[1] + by[1])):
                continue
            own = (home.low, home.high)
            if alone or settles and all(self.clear(a, b, by, ways[j], own, floors[j]) for j, b in others):
                yield f"agent {i} did not make its wish {by}"
            else:
                self.counts["wishes refused"] += 1


def main():
    if len(sys.argv) < 2:
        sys.exit(__doc__)
    crowds, first = [int(word) for word in sys.argv[2:4]] + [40, 1][len(sys.argv[2:4]):]
    counts, wrong = Counter(), 0
    for seed in range(first, first + crowds):
        rng = random.Random(seed)
        agents, steps = rng.randint(1, 32), rng.randint(1, 6)
        head = [agents, steps, seed, rng.choice([30, 100, 200]), rng.choice([40, 120, 500]), 1]
        text = "\n".join(map(str, head)) + "\n" + field(rng)
        run = subprocess.run([sys.argv[1]], input=text, capture_output=True, text=True, check=True)
        lines = run.stdout.splitlines()
        if lines[-1] != f"{agents * steps} moves":
            sys.exit(f"crowd {seed}: {lines[-1]}")
        crowd = Crowd(lines)
        for step in range(steps):
            for fault in crowd.step():
                wrong += 1
                print(f"crowd {seed}, step {step}: {fault}")
        counts += crowd.counts
    print(f"{crowds} crowds: " + ", ".join(f"{count} {word}" for word, count in sorted(counts.items())) + f"; {wrong} wrong")
    sys.exit(wrong != 0)


main()
