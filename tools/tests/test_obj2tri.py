#!/usr/bin/env python3
"""Tests of tools/obj2tri.py on small models: the triangles, the shift, the frame, places there and back, crops, faults, and what --inside keeps
are worked out by hand. The same room is written with another axis up, in another scale and with negative coordinates.

With a built navd named by the variable NAVD the rooms are also played: a wall stands, and a door leads through it.
usage: python3 tools/tests/test_obj2tri.py
"""
import json
import os
import subprocess
import sys
import tempfile
import unittest

HERE = os.path.dirname(os.path.abspath(__file__))
TOOL = os.path.join(HERE, "..", "obj2tri.py")
EXPLAIN = os.path.join(HERE, "..", "explain.py")
sys.path.insert(0, os.path.join(HERE, ".."))

# A room of 12 by 8 metres and a wall across it on x = 0 with a door from z = 1 to 2.2; its floor lies at -1.5. Each wall as its four corners.
FLOOR = [(-6, -1.5, -4), (-6, -1.5, 4), (6, -1.5, 4), (6, -1.5, -4)]
ACROSS = [(-6, -4, 4), (6, -4, 4), (0, -4, 1), (0, 2.2, 4)]
ALONG = [(-4, -6, 6), (4, -6, 6)]
WALLS = [[(x, -1.5, a), (x, 1.5, a), (x, 1.5, b), (x, -1.5, b)] for x, a, b in ACROSS]
WALLS += [[(a, -1.5, z), (a, 1.5, z), (b, 1.5, z), (b, -1.5, z)] for z, a, b in ALONG]
ROOM = [FLOOR, *WALLS]
METRES = ["--cell-size", "0.25", "--cell-height", "0.25", "--agent-radius", "0.25"]


def obj(faces, up="y", scale=1):
    """The text of an OBJ file."""
    places = [tuple(scale * part for part in corner) for face in faces for corner in face]
    rows = ["v %g %g %g" % ((x, y, z) if up == "y" else (x, -z, y)) for x, y, z in places]
    first = 1
    for face in faces:
        rows.append("f " + " ".join(str(first + at) for at in range(len(face))))
        first += len(face)
    return "\n".join(rows) + "\n"


def run(*words, given=""):
    return subprocess.run([sys.executable, TOOL, *map(str, words)], capture_output=True, text=True, input=given)


def triangles(text):
    return [tuple(map(int, row.split()[1:])) for row in text.splitlines() if row.startswith("tri ")]


class Cases(unittest.TestCase):
    def setUp(self):
        self.folder = tempfile.TemporaryDirectory()
        self.frame = os.path.join(self.folder.name, "frame")

    def tearDown(self):
        self.folder.cleanup()

    def made(self, faces, *words, **how):
        ran = run("--frame", self.frame, *words, "-", given=obj(faces, **how))
        self.assertEqual(ran.returncode, 0, ran.stderr)
        return ran

    def turn(self, word, text):
        ran = run("--frame", self.frame, word, given=text)
        self.assertEqual(ran.returncode, 0, ran.stderr)
        return ran.stdout


class Texts(Cases):
    def test_a_floor_by_hand(self):
        """Two metres a side make 8 columns; a margin of one column and no shift; its fence stands at the middles of columns 0 and 9."""
        ran = self.made([[(0, 5, 0), (0, 5, 2), (2, 5, 2), (2, 5, 0)]], *METRES)
        head, rows = ran.stdout.splitlines()[:7], triangles(ran.stdout)
        self.assertEqual(head, ["nav 1", "size 10 10", "tile 48", "agent 7 3 1", "error 49", "mesh contours", "limit 64"])
        self.assertEqual(rows[:2], [(16, 0, 16, 16, 0, 144, 144, 0, 144, 63), (16, 0, 16, 144, 0, 144, 144, 0, 16, 63)])
        self.assertEqual({row[0] for row in rows[2:]} | {row[2] for row in rows[2:]}, {8, 152})
        self.assertEqual({row[-1] for row in rows[2:]}, {0})
        self.assertIn("height of 2 is 8 units of 0.25; the text says 7", ran.stderr)

    def test_no_margin(self):
        ran = self.made([[(0, 5, 0), (0, 5, 2), (2, 5, 2), (2, 5, 0)]], *METRES, "--margin", 0)
        self.assertIn("size 8 8\n", ran.stdout)
        self.assertEqual(len(triangles(ran.stdout)), 2)

    def test_walls_leave_lines(self):
        """Each wall stands on a whole metre, so on a line; by one sixteenth none does. The wall of x = 0 is 24 columns from the first."""
        ran = self.made(ROOM, *METRES)
        self.assertIn("along x by 1/16 of a cell: the length of walls on lines between columns is 0 (unmoved 23)", ran.stderr)
        self.assertIn("along z by 1/16 of a cell: the length of walls on lines between columns is 0 (unmoved 24)", ran.stderr)
        self.assertNotIn("WARNING", ran.stderr)
        places = {row[0] for row in triangles(ran.stdout)[2:12] if row[0] == row[3] == row[6]}
        self.assertEqual(places, {17, 17 + 16 * 24, 17 + 16 * 48})

    def test_a_shift_that_is_given(self):
        ran = self.made(ROOM, *METRES, "--shift", 0, 3)
        self.assertIn("moved along x by 0/16 of a cell: the length of walls on lines between columns is 23 (as --shift says)", ran.stderr)
        self.assertIn("the longest stands at x -6; --shift 1 1 would leave 0", ran.stderr)
        with open(self.frame) as file:
            self.assertEqual(json.load(file)["shift"], [0, 3])

    def test_walls_on_all_lines(self):
        """Sixteen walls a sixteenth of a cell apart leave no shift without one: the shortest is on a line, and that is told."""
        room = [FLOOR] + [[(at / 64, -1.5, -4), (at / 64, 1.5, -4), (at / 64, 1.5, 4 - (at == 5) * 3), (at / 64, -1.5, 4)] for at in range(16)]
        room[6] = [(5 / 64, -1.5, -4), (5 / 64, 1.5, -4), (5 / 64, 1.5, 1), (5 / 64, -1.5, 1)]
        ran = self.made(room, *METRES)
        self.assertIn("moved along x by 11/16 of a cell: the length of walls on lines between columns is 5 (unmoved 8)", ran.stderr)
        self.assertIn("WARNING: navd raster lets these walls vanish", ran.stderr)
        self.assertIn("another --cell-size may leave none", ran.stderr)

    def test_steps_are_no_walls(self):
        """A step of half a metre on a line is no wall: what is on both sides of it is a floor."""
        step = [[(0, -1.5, -4), (0, -1, -4), (0, -1, 4), (0, -1.5, 4)]]
        self.assertIn("along x by 0/16", self.made([FLOOR] + step, *METRES).stderr)

    def test_other_axes_and_scales(self):
        plain = self.made(ROOM, *METRES).stdout
        for up, scale in (("z", 1), ("y", 100), ("z", 100), ("z", 0.0254)):
            ran = self.made(ROOM, *METRES, "--up", up, "--scale", 1 / scale, up=up, scale=scale)
            self.assertEqual(ran.stdout, plain)

    def test_a_crop_by_hand(self):
        """Of the floor from -6 to 6 the part from 0 to 2: the walls in it alone are left, and the triangle is cut at both ends."""
        ran = self.made([FLOOR], *METRES, "--crop", 0, -4, 2, 4, "--margin", 0, "--shift", 0, 0)
        rows = triangles(ran.stdout)
        self.assertIn("size 8 32\n", ran.stdout)
        area = sum(abs((r[3] - r[0]) * (r[8] - r[2]) - (r[6] - r[0]) * (r[5] - r[2])) for r in rows)
        self.assertEqual(area, 2 * 128 * 512)
        self.assertEqual({row[-1] for row in rows}, {63})
        ran = self.made(ROOM, *METRES, "--crop-heights", -2, -1, "--margin", 0)
        self.assertEqual(max(max(row[1], row[4], row[7]) for row in triangles(ran.stdout)), 2)


class Frames(Cases):
    def test_there_and_back(self):
        """-6 is column 1 and a sixteenth; a quarter of a metre is a cell: the place 3, -2 is 36 and 8 columns further."""
        for up, scale in (("y", 1), ("z", 1), ("y", 100), ("z", 100)):
            self.made(ROOM, *METRES, "--up", up, "--scale", 1 / scale, up=up, scale=scale)
            spelled = lambda x, y, z: " ".join(f"{scale * part:g}" for part in ((x, y, z) if up == "y" else (x, -z, y)))
            a, b = spelled(-3, -1.5, -2), spelled(3, 0.5, -2)
            text = self.turn("--to-cells", f"script 1 1\npath {a} {b}\nhop {a} {b}\nray {a} {b}\njump {a} {b} 60\nfloor {b}\nsettle\nmarch {scale}\n")
            ends = "209 145 1 593 145 9"
            wanted = ["script 1 1", f"path {ends}", f"hop {ends}", f"ray {ends[:-2]}", f"jump {ends} 60", "floor 37 9", "settle", "march 64"]
            self.assertEqual(text.splitlines(), wanted)
            level = f"{3 * scale} {-2 * scale if up == 'y' else 2 * scale}"
            told = self.turn("--to-metres", "turn 593 145 L 2\nlink 0 1 593 145 593 145\nfloors 0 1 9 63\nwall 0 593 145 593 145 1 2\nwalker 0 0 1 593 145 7 0\nsettled 0\nfault 3 2\n")
            wanted = [f"turn {level} L 2", f"link 0 1 {level} {level}", f"floors 0 1 {0.5 * scale:g} 63", f"wall 0 {level} {level} 1 2", f"walker 0 0 1 {level} 7 0", "settled 0", "fault 3 2"]
            self.assertEqual(told.splitlines(), wanted)

    def test_shapes(self):
        """A door of the wall on x = 0 from -0.1 to 0.1: columns 24 and 25 (x = 0 is 25 and a sixteenth), z 21 to 26; it stops whoever is 2 high and
        stands up to a quarter below its head; as an area it covers the floors within."""
        self.made(ROOM, *METRES)
        text = self.turn("--to-cells", "add block -0.1 -1.5 1 0.1 0.5 2.2\nadd area 5 block 0.1 0.5 2.2 -0.1 -1.5 1\nadd cylinder 0 -1.5 0 0.5 1\n")
        self.assertEqual(text.splitlines(), ["add block 24 25 0 8 21 25", "add area 5 block 24 25 1 9 21 25", "add cylinder 50 34 2 0 4"])

    def test_wrong_places(self):
        self.made(ROOM, *METRES)
        for line, said in (
            ("path -3 -1.5 -2 30 -1.5 -2", "the place 30 -1.5 -2 lies outside the field, which has x -6.265625 to 6.484375, z -4.265625 to 4.484375"),
            ("path -3 -1.5 -2 3 -9 -2", "lies below all heights"),
            ("path 1 2 3", "of the form path X Y Z X Y Z"),
            ("floor 1 two 3", "of the form floor X Y Z"),
            ("add cone 1 2 3", "add cylinder X Y Z RADIUS HEIGHT"),
            ("add block 60 0 0 61 1 1", "stands outside the field"),
        ):
            ran = run("--frame", self.frame, "--to-cells", given="settle\n" + line + "\n")
            self.assertEqual(ran.returncode, 1)
            self.assertIn("line 2: ", ran.stderr)
            self.assertIn(said, ran.stderr)


class WaysOut(Cases):
    def test_too_wide(self):
        """What obj2tri.py says of a level that is too wide, explain.py says of its text; the cell size and the crop that they name fit."""
        words = ("--cell-size", "0.01", "--agent-radius", "0.05")
        ran = run("--frame", self.frame, *words, "-", given=obj(ROOM))
        self.assertEqual(ran.returncode, 1)
        said = ran.stderr.splitlines()[-1].partition("the field is ")[2]
        self.assertIn("1203 by 803 columns, and may be 1024 by 1024: --cell-size 0.01176 would fit", said)
        path = os.path.join(self.folder.name, "text")
        with open(path, "w") as file:
            file.write("nav 1\nsize 1203 803\n")
        told = subprocess.run([sys.executable, EXPLAIN, path, "--fault", "2", "2", "--frame", self.frame], capture_output=True, text=True).stdout
        self.assertIn(said, told)
        crop = said.partition("--crop ")[2].partition(",")[0].split()
        for more in ((*words, "--crop", *crop), (*words, "--cell-size", "0.01176")):
            ran = self.made(ROOM, *more)
            width, depth = map(int, ran.stdout.splitlines()[1].split()[1:])
            self.assertTrue(1000 < width <= 1024 and depth <= 1024, (width, depth))

    def test_too_many_triangles(self):
        count = 230
        faces = [[(x, 0, z), (x, 0, z + 1), (x + 1, 0, z + 1), (x + 1, 0, z)] for x in range(count) for z in range(count)]
        ran = run("-", given=obj(faces))
        self.assertEqual(ran.returncode, 1)
        self.assertIn("105808 triangles are more than 100000: --crop ", ran.stderr)
        crop = ran.stderr.partition("--crop ")[2].partition(" would")[0].split()
        self.made(faces, "--crop", *crop)

    def test_other_limits(self):
        for words, said in (
            (("--cell-height", 0.0001), "--agent-height is 20000 height units and must be 1 to 256: --cell-height 0.007813 would fit"),
            (("--cell-size", 0.01), "--agent-radius is 60 cells and must be 0 to 15: --cell-size 0.04 would fit"),
            (("--cell-height", 0.0002, "--agent-height", 0.05, "--agent-climb", 0.01), "the model is 15000 height units high, and may be 8190: --cell-height 0.0003664 would fit"),
            (("--crop", 9, 9, 10, 10), "the model reaches from x -6 to 6, y -1.5 to 1.5, z -4 to 4"),
            (("--area", "watr=5"), "no face is of 'watr', which --area names"),
            (("--error", 20), "--error, squared, in hundredths, is 40000 and must be 0 to 10000"),
            (("--shift", 16, 0), "--shift takes two numbers from 0 to 15"),
            (("--default-area", 0), "WARNING: nothing is walkable: is z up in the file (--up z)"),
            (("--scale", 0.01), "WARNING: the model is hardly wider than the agent"),
        ):
            ran = run(*words, "-", given=obj(ROOM))
            self.assertIn(said, ran.stderr)
            self.assertNotIn("Traceback", ran.stderr)
        for words, given, said in (
            (("nothing.obj",), "", "No such file"),
            (("-",), "", "the file has no face"),
            (("-",), "v 1 2\n", "line 1: a vertex needs three numbers"),
            ((), "", "an OBJ file is needed"),
            (("--to-cells",), "", "need the frame of the level"),
            (("--to-cells", "--frame", "/nothing"), "", "/nothing cannot be read"),
            (("--to-cells", "--frame", TOOL), "", "is no frame that obj2tri.py --frame wrote"),
        ):
            ran = run(*words, given=given)
            self.assertNotEqual(ran.returncode, 0)
            self.assertIn(said, ran.stderr)
            self.assertNotIn("Traceback", ran.stderr)


# A field of three columns along x: a floor at 1, a step without area at 3 on a floor at 1, a floor at 4 under a roof at 30, beside a pit at 0.
FIELD = ["nav 1", "size 6 6", "tile 6", "agent 10 3 0", "error 49", "mesh strips", "limit 4"]
SPANS = ["0 0 0 1 63", "1 0 0 1 63", "1 0 2 3 0", "2 0 0 4 63", "2 0 29 30 63", "3 0 0 9 63", "0 1 0 1 0", "0 2 0 1 63"]


class Inside(Cases):
    def test_what_is_reached_by_hand(self):
        """From column 0 over the step to the floor at 4; the roof over it, the ledge at 9 and what lies behind the wall of no area lose theirs."""
        self.made(ROOM, "--cell-size", 1, "--cell-height", 1, "--agent-radius", 0, "--margin", 0, "--shift", 0, 0)
        text = "\n".join(FIELD + ["span " + span for span in SPANS] + ["end"]) + "\n"
        ran = run("--frame", self.frame, "--inside", -5.5, -1.5, -3.5, given=text)
        self.assertEqual(ran.returncode, 0, ran.stderr)
        wanted = ["0 0 0 1 63", "1 0 0 1 63", "1 0 2 3 0", "2 0 0 4 63", "2 0 29 30 0", "3 0 0 9 0", "0 1 0 1 0", "0 2 0 1 0"]
        self.assertEqual(ran.stdout.splitlines(), FIELD + ["span " + span for span in wanted] + ["end"])
        self.assertIn("3 spans are reached from there and stay walkable; 3 others are walkable no more", ran.stderr)
        ran = run("--frame", self.frame, "--inside", -5.5, -1.5, -3.5, "--inside", -2.5, 7, -3.5, given=text)
        self.assertIn("4 spans are reached", ran.stderr)

    def test_no_floor_there(self):
        self.made(ROOM, "--cell-size", 1, "--cell-height", 1, "--agent-radius", 0, "--margin", 0, "--shift", 0, 0)
        text = "\n".join(FIELD + ["span " + span for span in SPANS] + ["end"]) + "\n"
        for place, said in ((("-5.5", "9", "-3.5"), "the floors there are at -1.5"), (("4", "0", "0"), "there is no floor with room for the agent there at all")):
            ran = run("--frame", self.frame, "--inside", *place, given=text)
            self.assertEqual(ran.returncode, 1)
            self.assertIn(said, ran.stderr)
        for wrong, said in (("fault 2 2\n", "tells 'fault 2 2' of its input"), ("nav 1\n", "no line `end`"), ("size 1 1\n", "begins with")):
            ran = run("--frame", self.frame, "--inside", 0, 0, 0, given=wrong)
            self.assertEqual(ran.returncode, 1)
            self.assertIn(said, ran.stderr)


@unittest.skipUnless(os.environ.get("NAVD"), "NAVD names no built navd")
class Played(Cases):
    def play(self, word, text):
        return subprocess.run([os.environ["NAVD"], word], capture_output=True, text=True, input=text).stdout

    def test_the_wall_stands_and_its_door_leads(self):
        """Through the door from one side to the other; with the door shut there is no way; unmoved, the wall is not there."""
        for up, scale in (("y", 1), ("z", 1), ("z", 100)):
            spelled = lambda x, y, z: " ".join(f"{scale * part:g}" for part in ((x, y, z) if up == "y" else (x, -z, y)))
            way = f"path {spelled(-3, -1.5, -2)} {spelled(3, -1.5, -2)}\n"
            door = f"add block {spelled(-0.2, -1.5, 1)} {spelled(0.2, 0.5, 2.2)}\nsettle\n"
            answers = []
            for shift in ((), ("--shift", 0, 0)):
                field = self.play("raster", self.made(ROOM, *METRES, "--up", up, "--scale", 1 / scale, *shift, up=up, scale=scale).stdout)
                lines = self.turn("--to-cells", "script 1 1\n" + way + door + way)
                answers.append(self.turn("--to-metres", self.play("play", field + lines)).splitlines())
            turns = [list(map(float, row.split()[1:3])) for row in answers[0] if row.startswith("turn ")]
            self.assertEqual(answers[0][-2], "nopath 1")
            self.assertTrue(turns and all(abs(x) < scale and 0.5 * scale < abs(z) < 2.4 * scale for x, z in turns), turns)
            before = answers[1][: answers[1].index("entry 1 added")]
            self.assertFalse([row for row in before if row.startswith("turn ")])


if __name__ == "__main__":
    unittest.main()
