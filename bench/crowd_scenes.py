#!/usr/bin/env python3
"""Writes a scene of agents for bench/crowd.c and bench/crowd_peer.cpp: a field text into FIELD, and into AGENTS a line `door X` or `door -`, the column behind
which an agent has passed the door, and a line `START-X START-Z GOAL-X GOAL-Z` for each agent, in sixteenths of a cell. All agents are discs with a radius of
2 cells. Where a width is named it is how many of them fit through.

usage: bench/crowd_scenes.py SCENE SEED FIELD AGENTS
"""
import math
import random
import sys

RADIUS, LOW, HIGH = 2, 10, 100


class Scene:
    def __init__(self, width, depth, seed):
        self.width, self.depth, self.random = width, depth, random.Random(seed)
        self.walls, self.agents, self.door = set(), [], None

    def wall(self, x0, x1, z0, z1):
        """Columns from one to before another."""
        self.walls.update((x, z) for x in range(x0, x1) for z in range(z0, z1))

    def room(self, x0, x1, z0, z1):
        """Free points of a room for agents that do not overlap, one after the other."""
        taken = []
        while True:
            for _ in range(20000):
                p = (self.random.uniform(x0 + RADIUS + 1, x1 - RADIUS - 1), self.random.uniform(z0 + RADIUS + 1, z1 - RADIUS - 1))
                if all(math.dist(p, q) > 2 * RADIUS + 0.25 for q in taken):
                    break
            else:
                sys.exit("no room for so many")
            taken.append(p)
            yield p

    def send(self, start, goal):
        self.agents.append((*start, *goal))

    def write(self, field, agents):
        with open(field, "w") as out:
            out.write(f"nav 1\nsize {self.width} {self.depth}\ntile 32\nagent 10 4 {RADIUS}\nerror 49\nmesh contours\nlimit 4\n")
            for z in range(self.depth):
                for x in range(self.width):
                    out.write(f"span {x} {z} 0 {HIGH} 0\n" if (x, z) in self.walls else f"span {x} {z} 0 {LOW} 63\n")
            out.write("end\n")
        with open(agents, "w") as out:
            out.write(f"door {self.door if self.door else '-'}\n")
            for row in self.agents:
                out.write(" ".join(str(round(16 * n)) for n in row) + "\n")


def circle(seed):
    scene, count, radius = Scene(128, 128, seed), 64, 50
    for i in range(count):
        angle = 2 * math.pi * i / count + scene.random.uniform(-0.005, 0.005)
        x, z = radius * math.cos(angle), radius * math.sin(angle)
        scene.send((64 + x, 64 + z), (64 - x, 64 - z))
    return scene


def rooms(seed, side, length, fit):
    """Two rooms and what joins them: a passage of a length for so many side by side."""
    scene = Scene(2 * side + length, side, seed)
    wide = 2 * RADIUS * fit + 1
    low = (side - wide) // 2
    scene.wall(side, side + length, 0, low)
    scene.wall(side, side + length, low + wide, side)
    return scene, scene.room(0, side, 0, side), scene.room(side + length, 2 * side + length, 0, side)


def corridor(seed, fit, count):
    scene, left, right = rooms(seed, 40, 40, fit)
    for _ in range(count // 2):
        p, q, r, s = next(left), next(right), next(left), next(right)
        scene.send(p, s)
        scene.send(q, r)
    scene.door = 60 if fit > 1 else None
    return scene


def door(seed, fit, count, both=False):
    scene, left, right = rooms(seed, 80, 4, fit)
    for i in range(count):
        p, q = next(left), next(right)
        scene.send(*((q, p) if both and i % 2 else (p, q)))
    scene.door = 82
    return scene


def crossing(seed):
    scene, count = Scene(256, 256, seed), 60
    spread = scene.random.uniform
    for i in range(count):
        row, line = i // 6, i % 6
        x, z = 12 + 7 * row + spread(-1, 1), 108 + 7 * line + spread(-1, 1)
        scene.send((x, z), (244 - 7 * (9 - row) + spread(-1, 1), z))
        scene.send((z, x), (z, 244 - 7 * (9 - row) + spread(-1, 1)))
    return scene


def open_room(seed):
    scene = Scene(128, 128, seed)
    starts, goals = scene.room(0, 128, 0, 128), scene.room(0, 128, 0, 128)
    for _ in range(100):
        scene.send(next(starts), next(goals))
    return scene


def evac(seed):
    scene, left, _right = rooms(seed, 110, 4, 2)
    for _ in range(256):
        scene.send(next(left), (180, 55))
    scene.door = 112
    return scene


SCENES = {"circle": circle, "corridor3": lambda seed: corridor(seed, 3, 24), "corridor2": lambda seed: corridor(seed, 2, 16),
          "corridor1": lambda seed: corridor(seed, 1, 4), "door1": lambda seed: door(seed, 1, 64), "door2": lambda seed: door(seed, 2, 64),
          "both": lambda seed: door(seed, 2, 48, True), "crossing": crossing, "open": open_room, "evac": evac}


def main(words):
    if len(words) != 4 or words[0] not in SCENES:
        sys.exit(__doc__)
    SCENES[words[0]](int(words[1])).write(words[2], words[3])


if __name__ == "__main__":
    main(sys.argv[1:])
