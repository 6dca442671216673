#!/usr/bin/env python3
"""Tests of tools/drops.py on the example `ledge`, whose drops are worked out by hand, and on a field with a rail, a roof and a gap in its floor.

With a built navd named by the variable NAVD the jumps are also asked for by `hop`, and the second program checks what navd answers.
usage: [NAVD_SCENE=FILE] [NAVD=FILE] python3 tools/tests/test_drops.py     with the built navd_scene, crates/navd_scene/out/navd_scene if none is named
"""
import os
import subprocess
import sys
import tempfile
import unittest

HERE = os.path.dirname(os.path.abspath(__file__))
TOOL = os.path.join(HERE, "..", "drops.py")
CHECK = os.path.join(HERE, "..", "..", "reference", "play_check.py")
LEDGE = os.path.join(HERE, "..", "..", "examples", "ledge.nav")
WIDTH, DEPTH = 22, 12


def drops(*words):
    return subprocess.run([sys.executable, TOOL, *map(str, words)], capture_output=True, text=True)


def numbers(text):
    return [tuple(map(int, row.split()[1:])) for row in text.splitlines() if row.startswith("jump ")]


def terraces():
    """Along x: a floor at 10 to column 7, a trench at 2 in 8 to 11, a floor at 10 to 15 and a terrace at 30 behind it. In the rows 3 and 4 a wall
    stands along the trench's middle, and in the rows 7 and 8 a roof over it as high as the agent's knees are above the floors."""
    rows = ["nav 1", f"size {WIDTH} {DEPTH}", "tile 32", "agent 10 4 0", "error 49", "mesh strips", "limit 4"]
    for z in range(DEPTH):
        for x in range(WIDTH):
            top = 2 if 8 <= x <= 11 else 10 if x <= 15 else 30
            rows.append(f"span {x} {z} 0 {40 if x == 9 and z in (3, 4) else top} 63")
            if x in (9, 10) and z in (7, 8):
                rows.append(f"span {x} {z} 16 18 0")
    return rows + ["end", "script 1 1", "floor 1 1", "settle"]


class Drops(unittest.TestCase):
    def made(self, rows):
        file = tempfile.NamedTemporaryFile("w", suffix=".nav")
        self.addCleanup(file.close)
        file.write("".join(row + "\n" for row in rows))
        file.flush()
        return file.name

    def test_the_ledge_by_hand(self):
        """From the terrace's column 7 over its rim, column 6, to the low floor's column 5: 30 down and two cells far, in each of the rows 1 to 8."""
        ran = drops(LEDGE, "--down", 30, "--apart", 1)
        self.assertEqual(ran.returncode, 0, ran.stderr)
        found = numbers(ran.stdout)
        self.assertEqual(set(found), {(120, 16 * z + 8, 40, 88, 16 * z + 8, 10, 32) for z in range(1, 9)})
        self.assertEqual(numbers(drops(LEDGE, "--down", 29).stdout), [])
        self.assertEqual(numbers(drops(LEDGE, "--down", 30, "--far", 1).stdout), [])
        self.assertEqual(len(numbers(drops(LEDGE, "--down", 30, "--apart", 99).stdout)), 1)
        up = numbers(drops(LEDGE, "--up", 30, "--apart", 1).stdout)
        self.assertEqual(set(up), {(88, 16 * z + 8, 10, 120, 16 * z + 8, 40, 32) for z in range(1, 9)})

    def test_obstacles_stand_in_the_way(self):
        """At the end a crate covers the terrace's columns 7 to 9 in row 3, and one the low floor's column 5 in row 1: there one lands in column 4."""
        found = numbers(drops(LEDGE, "--down", 30, "--apart", 1, "--length", 2).stdout)
        wanted = {(120, 16 * z + 8, 40, 88, 16 * z + 8, 10, 32) for z in (2, 4, 5, 6, 7, 8)} | {(120, 24, 40, 72, 24, 10, 48)}
        self.assertEqual(set(found), wanted)

    def test_gaps_walls_and_roofs(self):
        """Cells end a column before each ledge: the floors at 10 have the columns 1 to 6 and 13 to 15, the terrace begins at 17. Over the trench one
        jumps 7 columns far, but not where the wall or the roof is; from the terrace one jumps down from 17 to 15 in each row."""
        found = numbers(drops(self.made(terraces()), "--far", 8, "--down", 20, "--apart", 1).stdout)
        over = {z // 16 for x, z, y, X, Z, Y, _ in found if (x // 16, X // 16, y, Y) == (6, 13, 10, 10)}
        self.assertEqual(over, {1, 2, 5, 6, 9, 10})
        down = {z // 16 for x, z, y, X, Z, Y, cost in found if (x // 16, X // 16, y, Y, cost) == (17, 15, 30, 10, 32)}
        self.assertEqual(down, set(range(1, 11)))
        short = numbers(drops(self.made(terraces()), "--far", 6, "--apart", 1).stdout)
        self.assertFalse([row for row in short if (row[0] // 16, row[3] // 16) == (6, 13)])

    def test_whole_and_wrong_words(self):
        whole = drops(LEDGE, "--down", 30, "--apart", 1, "--whole", "--most", 3).stdout.splitlines()
        at = whole.index("script 1 1")
        self.assertTrue(all(row.startswith("jump ") for row in whole[at + 1 : at + 4]))
        with open(LEDGE) as file:
            self.assertEqual(whole[: at + 1] + whole[at + 4 :], file.read().splitlines())
        for words, said in (((LEDGE, "--far", 0), "--far is a cell or more"), (("nothing.nav",), "cannot be read"), ((LEDGE, "--frame", TOOL), "is no frame")):
            ran = drops(*words)
            self.assertEqual(ran.returncode, 1)
            self.assertIn(said, ran.stderr)

    @unittest.skipUnless(os.environ.get("NAVD"), "NAVD names no built navd")
    def test_the_second_program(self):
        """A hop from each jump's first point to its second costs no more than the jump, and the second program agrees with every answer."""
        rows = drops(self.made(terraces()), "--far", 8, "--down", 20, "--apart", 3, "--whole").stdout.splitlines()
        jumps = numbers("\n".join(rows))
        rows += ["hop " + " ".join(map(str, jump[:6])) for jump in jumps]
        path = self.made(rows)
        with open(path, "rb") as file, open(path + ".out", "wb") as out:
            self.addCleanup(os.unlink, path + ".out")
            subprocess.run([os.environ["NAVD"], "play"], stdin=file, stdout=out, check=True)
        with open(path + ".out") as file:
            costs = [int(row.split()[2]) for row in file if row.startswith("hop ")]
        self.assertEqual(len(costs), len(jumps))
        self.assertTrue(all(cost <= jump[6] for cost, jump in zip(costs, jumps)))
        ran = subprocess.run([sys.executable, CHECK, path, path + ".out"], capture_output=True, text=True)
        self.assertEqual(ran.returncode, 0, ran.stdout + ran.stderr)


if __name__ == "__main__":
    unittest.main()
