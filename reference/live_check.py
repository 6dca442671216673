#!/usr/bin/env python3
"""Checks live runs by the built program, of random scripts or of one input: that each lane's requests are its entries in order, that the
lengths of a lane do not fall and cover its entries at a settle, that the length of each question is 0 or one that some lane's settle
published, and each answer with length K against a play of the first K entries of the printed history. What the lines of a lane's walker are told is worked out from the lines before them: the path from where the walker stands is
asked in that play, tested against a mesh that `play_check.py` builds, with a search of its own and the rule of taut lines, and then followed for
the length of the march, step by step. A march along another path of the same cost would be right too, and is not looked for.

usage: live_check.py NAVD RUNS [SEED]          so many random scripts (default seed 1)
       live_check.py NAVD RUNS SEED held       the same, in each of them one thread held for a while at one of its calls (hostile/preload.py)
       live_check.py NAVD INPUT                the live run of one input
"""
import importlib.util
import os
import random
import subprocess
import sys
import tempfile


def level(size, tile, rng):
    form = rng.randrange(3)
    lines = [f"nav {min(form + 1, 2)}", f"size {size} {size}", f"tile {tile}", "agent 10 4 2", "error 169", rng.choice(["mesh strips", "mesh contours"]), "limit 24"]
    lines += [f"clear {form - 1}"] * (form > 0) + ["cost 20 3", "cost 30 7"]
    for z in range(size):
        for x in range(size):
            lines.append(f"span {x} {z} 0 {40 if rng.random() < 1 / 64 else 10} 63")
    return lines + ["end"]


def question(size, rng):
    at = lambda: rng.randrange(16 * size)
    kind = rng.randrange(3)
    if kind == 0:
        return f"floor {rng.randrange(size)} {rng.randrange(size)}"
    if kind == 1:
        return f"path {at()} {at()} 10 {at()} {at()} 10"
    return f"ray {at()} {at()} 10 {at()} {at()}"


def request(size, adds, rng):
    if adds and rng.random() < 0.4:
        return f"drop {rng.randrange(adds) + 1}"
    add = f"add area {rng.choice([20, 30])}" if rng.random() < 0.4 else "add"
    if rng.random() < 0.5:
        x, z = rng.randrange(size), rng.randrange(size)
        return f"{add} block {x} {x + rng.randrange(6)} 0 100 {z} {z + rng.randrange(6)}"
    return f"{add} cylinder {rng.randrange(2 * size)} {rng.randrange(2 * size)} {rng.randrange(5)} 0 100"


def walk(size, rng):
    at = lambda: rng.randrange(16 * size)
    if rng.random() < 0.3:
        return f"send {at()} {at()} 10 {at()} {at()} 10"
    return f"march {rng.choice([1 + rng.randrange(40), 1 + rng.randrange(400), 65535])}"


def lane(size, count, rng):
    lines, adds = [], 0
    for _ in range(count):
        draw = rng.random()
        if draw < 0.35:
            lines.append(request(size, adds, rng))
            adds += lines[-1].startswith("add")
        elif draw < 0.65:
            lines.append(question(size, rng))
        elif draw < 0.9:
            lines.append(walk(size, rng))
        else:
            lines.append("settle")
    return lines


def run(navd, word, text):
    ran = subprocess.run([navd, word], input=text.encode(), capture_output=True, timeout=100)
    assert ran.returncode == 0, (word, ran.returncode, ran.stdout[:100])
    return ran.stdout.decode().splitlines()


def run_held(preload, threads, text, rng):
    """A live run of which one thread sleeps for a while: any of them, in any of its first calls of the C library."""
    hold = f"{rng.randrange(threads)} {rng.randrange(1, rng.choice([20, 200, 2000]))} {rng.randrange(5, 80)}"
    status, out, _ = preload.run(["live"], text.encode(), hold=hold)
    assert status == 0, (status, hold, out[:100])
    return out.decode().splitlines()


def answers(out):
    """Groups lines into answers: a line, and for a path its links and turns."""
    groups = []
    for line in out:
        if line.split()[0] in ("link", "turn"):
            groups[-1].append(line)
        else:
            groups.append([line])
    return groups


def determined(answer):
    words = answer[0].split()
    return [words[0], *(words[2:5] if words[0] == "path" else words[2:])]


def second_program(head):
    """`play_check.py` over a level and a script without lines: its ground, its rules and its meshes."""
    with tempfile.TemporaryDirectory() as folder:
        files = os.path.join(folder, "input"), os.path.join(folder, "output")
        for file, text in zip(files, ("\n".join(head + ["script 1 1", ""]), "done 0 0\n")):
            with open(file, "w") as out:
                out.write(text)
        here = os.path.dirname(os.path.abspath(__file__))
        spec = importlib.util.spec_from_file_location("play_check", os.path.join(here, "play_check.py"))
        second, words, path = importlib.util.module_from_spec(spec), sys.argv, sys.path[:]
        sys.argv, sys.path = ["play_check.py", *files], [here, *path]
        try:
            spec.loader.exec_module(second)
        finally:
            sys.argv, sys.path = words, path
    return second


def mesh_after(second, entries):
    """The mesh under the shapes that are alive after these entries of the printed history."""
    shapes = {}
    for number, words in enumerate(entries, 1):
        if words[3] == "remove":
            shapes.pop(int(words[4]), None)
        elif words[-1] == "added":
            area = int(words[5]) if words[4] == "area" else None
            kind = 4 if area is None else 6
            shapes[number] = words[kind], list(map(int, words[kind + 1 : -1])), area
    second.published = shapes
    return second.published_mesh()


def leg(a, b):
    return max(abs(a[0] - b[0]), abs(a[1] - b[1]))


def part(second, mesh, polys, start, toward, rest):
    """How far the way leads through polygons: the point, the place of the polygon, or None. Every step is tried, from the last one on."""
    n = leg(start, toward)
    for g in range(rest, 0, -1):
        whole = [{(n * a + g * (b - a)) // n, -((n * a + g * (b - a)) // -n)} for a, b in zip(start, toward)]
        for spot in sorted((x, z) for x in whole[0] for z in whole[1]):
            for place, name in enumerate(polys):
                if second.holds(mesh[0][name][0], spot):
                    return spot, place
    return None


def marched(second, mesh, first, links, turns, start, goal, budget):
    """Where a march along a path ends: the point, and the place of its polygon among the path's."""
    polys, at, place = [first] + [link[0] for link in links], start, 0
    for spot, _, portal in turns + [(goal, None, None)]:
        last = len(links) if portal is None else max(place, portal)
        if budget < leg(at, spot):
            found = part(second, mesh, polys[place : last + 1], at, spot, budget)
            return (at, place) if found is None else (found[0], place + found[1])
        at, budget, place = spot, budget - leg(at, spot), last if portal is None else max(place, portal + 1)
    return at, place


def links_in(lines):
    """The links that lines tell: the polygon entered, and the portal's ends."""
    return [((n[0], n[1]), (n[2], n[3]), (n[4], n[5])) for n in (list(map(int, line.split()[1:])) for line in lines)]


def costs_along(second, mesh, first, last, links):
    """What each link of a walk from one polygon to another costs."""
    here, costs = first, []
    for link in links:
        assert link in [known[1:] for known in mesh[1][here]], link
        costs.append(second.weight(mesh, here, link[0]))
        here = link[0]
    assert here == last, (here, last)
    return costs


def check_other_way(second, mesh, k, ends, start, length, answer):
    """The same, where landmarks led the walker along another of the cheapest corridors: what is left is one, from a polygon that holds its point."""
    words = answer[0].split()
    name, at, rest, count = (int(words[2]), int(words[3])), (int(words[4]), int(words[5])), int(words[6]), int(words[7])
    assert words[:2] == ["walker", str(k)] and second.holds(mesh[0][name][0], at), answer
    assert length is not None or (name, at) == (ends[0], start), answer
    links = links_in(answer[1:])
    assert len(links) == count, answer
    assert sum(costs_along(second, mesh, name, ends[1], links)) == rest == second.least_cost(mesh, name, ends[1], {}), answer


def check_walker(second, mesh, k, start, y, goal, goal_y, length, path, answer):
    """What a walker is answered that is sent (without a length) or marches, where a play gave this path from its start to its goal."""
    ends = second.locate(mesh, *start, y), second.locate(mesh, *goal, goal_y)
    cost = second.least_cost(mesh, *ends, {}) if None not in ends else None
    for name, is_so in (("nostart", ends[0] is None), ("nogoal", ends[1] is None), ("nopath", cost is None)):
        if is_so:
            assert answer == [f"{name} {k}"] == path, (answer, name)
            return
    head, count = path[0].split(), int(path[0].split()[5])
    assert [head[0], *map(int, head[1:5])] == ["path", k, cost, *ends[0]], path
    lines = path[1 : count + 1]
    links = links_in(lines)
    turns = [((int(w[1]), int(w[2])), w[3], int(w[4])) for w in (line.split() for line in path[count + 1 :])]
    costs = costs_along(second, mesh, *ends, links)
    assert sum(costs) == cost
    wrong = second.is_taut(start, [link[1:] for link in links], goal, turns)
    assert wrong is None, wrong
    at, place = (start, 0) if length is None else marched(second, mesh, ends[0], links, turns, start, goal, length)
    name = ([ends[0]] + [link[0] for link in links])[place]
    assert second.holds(mesh[0][name][0], at)
    rest = sum(costs[place:])
    wanted = [f"walker {k} {name[0]} {name[1]} {at[0]} {at[1]} {rest} {count - place}", *lines[place:]]
    if answer != wanted:
        check_other_way(second, mesh, k, ends, start, length, answer)
    assert rest == second.least_cost(mesh, name, ends[1], {})


def random_input(rng):
    """The lines of a level, how many workers there are, and the lines of each lane."""
    size = rng.choice([24, 40])
    head = level(size, rng.choice([8, 16, 48]), rng)
    lanes = [lane(size, rng.randrange(1, 40), rng) for _ in range(rng.randrange(1, 17))]
    return head, rng.randrange(1, 9), lanes


def read_input(text):
    """The same of an input that is read."""
    lines = text.splitlines()
    end = lines.index("end") + 1
    count, workers = map(int, lines[end].split()[1:])
    lanes, at = [[] for _ in range(count)], 0
    for line in lines[end + 1 :]:
        if line.startswith("lane "):
            at = int(line.split()[1])
        else:
            lanes[at].append(line)
    return lines[:end], workers, lanes


def check(navd, head, workers, lanes, preload, rng):
    script = [f"script {len(lanes)} {workers}"]
    for at, lines in enumerate(lanes):
        script += [f"lane {at}", *lines]
    text = "\n".join(head + script) + "\n"
    out = run_held(preload, 1 + len(lanes) + workers, text, rng) if preload else run(navd, "live", text)
    n = int(out[0].split()[1])
    entries = [it.split() for it in out[1 : n + 1]]
    assert [it[:2] for it in entries] == [["entry", str(k + 1)] for k in range(n)]
    parts, last = [], out[-1].split()
    for line in out[n + 1 : -1]:
        if line.startswith("lane "):
            assert int(line.split()[1]) == len(parts)
            parts.append([])
        else:
            parts[-1].append(line)
    asked, second, meshes = {}, None, {}
    if any(line.startswith("send") for lines in lanes for line in lines):
        second = second_program(head)

    def mesh_at(k):
        if k not in meshes:
            meshes[k] = mesh_after(second, entries[:k])
        return meshes[k]

    published = {0} | {int(line.split()[1]) for said in parts for line in said if line.startswith("settled")}
    for at, (lines, said) in enumerate(zip(lanes, parts, strict=True)):
        said, own, k, adds = answers(said), [e for e in entries if e[2] == str(at)], 0, []
        newest, walker, goal = 0, None, None
        assert len(said) == len(lines)
        for line, answer in zip(lines, said):
            words, told = line.split(), answer[0].split()
            if words[0] in ("add", "remove", "drop"):
                entry = own.pop(0)
                wanted = ["remove", str(adds[int(words[1]) - 1])] if words[0] == "drop" else words
                assert entry[3 : 3 + len(wanted)] == wanted, (line, entry)
                assert told == ["entry", entry[1], *entry[3 + len(wanted) :]], (told, entry)
                newest = int(entry[1])
                if words[0] == "add":
                    adds.append(newest if told[2] == "added" else 0)
                continue
            if words[0] == "march" and walker is None:
                assert answer == ["nowalker"]
                continue
            assert k <= int(told[1]) <= n
            k = int(told[1])
            assert k in published, (line, answer, published)
            if words[0] == "settle":
                assert told[0] == "settled" and k >= newest
            elif words[0] in ("send", "march"):
                if words[0] == "send":
                    x, z, y, *goal = map(int, words[1:])
                    start, length = (x, z), None
                else:
                    start, y = walker[2], mesh_at(walker[0])[0][walker[1]][2]  # the least floor of the polygon that was named
                    length = int(words[1])
                where = k, start, y, tuple(goal[:2]), goal[2], length
                asked.setdefault(k, []).append((f"path {start[0]} {start[1]} {y} {goal[0]} {goal[1]} {goal[2]}", answer, where))
                walker = (k, (int(told[2]), int(told[3])), (int(told[4]), int(told[5]))) if told[0] == "walker" else None
            else:
                asked.setdefault(k, []).append((line, answer, None))
        assert not own
    # the same history in a play, and each question at its length
    play, wanted = ["script 1 1"], []
    for k in range(n + 1):
        if k:
            e = entries[k - 1]
            kind = 6 if e[4] == "area" else 4  # where an obstacle's kind stands: its numbers follow
            play.append(" ".join(e[3 : 5 if e[3] == "remove" else kind + (7 if e[kind] == "block" else 6)]))
            rest = e[3 + len(play[-1].split()) :]
            wanted.append(["entry", str(k), *rest])
        if k in asked:
            play.append("settle")
            wanted.append(["settled", str(k)])
            for line, answer, where in asked[k]:
                play.append(line)
                wanted.append(determined(answer) if where is None else (where, answer))
    got = answers(run(navd, "play", "\n".join(head + play) + "\n"))
    assert got[-1][0].startswith("done")
    walks = 0
    for g, w in zip(got[:-1], wanted, strict=True):
        if isinstance(w, tuple):
            check_walker(second, mesh_at(w[0][0]), *w[0], g, w[1])
            walks += 1
            continue
        words = g[0].split()
        found = words if words[0] in ("entry", "settled") else determined(g)
        assert found == w, (g, w)
    assert last[0] == "final" and int(last[1]) == n
    return len(asked), sum(len(v) for v in asked.values()) - walks, n, walks


preload, rng = None, None
if sys.argv[2].isdigit():
    rng = random.Random(int(sys.argv[3]) if len(sys.argv) > 3 else 1)
    inputs = (random_input(rng) for _ in range(int(sys.argv[2])))
    if sys.argv[4:] == ["held"]:
        sys.path.insert(0, os.path.join(os.path.dirname(os.path.abspath(__file__)), "..", "hostile"))
        preload = importlib.import_module("preload").Preload(sys.argv[1])
else:
    inputs = [read_input(open(sys.argv[2]).read())]
totals = [0, 0, 0, 0]
for head, workers, lanes in inputs:
    totals = [a + b for a, b in zip(totals, check(sys.argv[1], head, workers, lanes, preload, rng))]
print("lengths named", totals[0], "questions", totals[1], "entries", totals[2], "all as in plays; sends and marches", totals[3], "all right")
