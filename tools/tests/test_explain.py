#!/usr/bin/env python3
"""Tests of tools/explain.py: for each kind of fault an input that has it, of which the line and the words are worked out by hand.

With a built navd named by the variable NAVD each input is also given to it, and it has to tell the same fault.
usage: python3 tools/tests/test_explain.py
"""
import os
import subprocess
import sys
import tempfile
import unittest

HERE = os.path.dirname(os.path.abspath(__file__))
TOOL = os.path.join(HERE, "..", "explain.py")
sys.path.insert(0, os.path.join(HERE, ".."))
import explain

HEADER = ["nav 1", "size 6 6", "tile 6", "agent 10 4 0", "error 169", "mesh strips", "limit 4"]
SECOND = ["nav 2", "size 6 6", "tile 5", "agent 10 4 3", "error 169", "mesh strips", "limit 4"]
SPAN = "span 0 0 0 10 63"
SCRIPT = [*HEADER, SPAN, "end", "script 1 1"]

# Kind, the lines of an input, the line of its fault, a part of what is said of it, and a part of what is expected there.
ROWS = [
    (1, ["nav 1", "size 6"], 2, "none of the forms that may stand here", "size WIDTH DEPTH"),
    (1, ["nav 3"], 1, "none of the forms that may stand here", "nav 1 or nav 2"),
    (1, [*HEADER, "clear 0"], 8, "none of the forms that may stand here", "cost AREA COST"),
    (1, [*SECOND, "cost 20 3"], 8, "none of the forms that may stand here", "clear V"),
    (1, [*HEADER, SPAN, "cost 20 3"], 9, "none of the forms that may stand here", "span X Z BOTTOM TOP AREA"),
    (2, ["nav 1", "size 6 6", "tile 3"], 3, "outside its limits", "tile SIDE, 4 to 128"),
    (2, [*SECOND, "clear 1"], 8, "outside its limits", "at least twice the radius"),
    (3, [*HEADER, "span 1 0 0 10 63", "span 0 0 0 10 63"], 9, "spans stand by Z, then by X", "span X Z BOTTOM TOP AREA"),
    (4, [*HEADER, SPAN, "span 0 0 9 12 0"], 9, "below the top of the span before it", "span X Z BOTTOM TOP AREA"),
    (5, ["nav 1", "size 6 6", "tile 6", "agent 10 10 0"], 4, "not below the height", "agent HEIGHT CLIMB RADIUS"),
    (7, [*HEADER, SPAN], 9, "ends inside this line or before the line `script`", "end"),
    (8, [*SCRIPT, "jump"], 11, "none of the forms of a script line", "settle"),
    (9, [*SCRIPT, "lane 1"], 11, "not below its count", "lane I, I below LANES"),
    (10, [*SCRIPT, "drop 1"], 11, "fewer than J such lines", "drop J"),
    (12, [*SCRIPT, *["jump 0 0 10 0 0 10 1"] * 257], 267, "256 `jump` lines stand before", "jump X Z Y"),
]
# Kinds whose inputs are too long to be made here: the fault is given.
GIVEN = [(6, 8, "2000000 spans stand before"), (11, 11, "300000 behind `script`")]


def run(*words):
    return subprocess.run([sys.executable, TOOL, *map(str, words)], capture_output=True, text=True)


class Explaining(unittest.TestCase):
    def setUp(self):
        file, self.path = tempfile.mkstemp(suffix=".nav")
        os.close(file)

    def tearDown(self):
        os.unlink(self.path)

    def write(self, lines):
        with open(self.path, "w", encoding="ascii") as file:
            file.write("".join(line + "\n" for line in lines))

    def test_each_kind(self):
        for kind, lines, number, why, due in ROWS:
            with self.subTest(kind=kind, line=number):
                self.write(lines)
                ran = run(self.path, "--fault", number, kind)
                self.assertEqual(ran.returncode, 0, ran.stderr)
                first, second, third = ran.stdout.splitlines()
                shown = lines[number - 1] if number <= len(lines) else "(the text ends before this line)"
                self.assertEqual(first, f"line {number}: {shown}")
                self.assertIn(why, second)
                self.assertIn(due, third)

    def test_kinds_of_long_inputs(self):
        self.write([*SCRIPT, "settle"])
        for kind, number, why in GIVEN:
            ran = run(self.path, "--fault", number, kind)
            self.assertEqual(ran.returncode, 0, ran.stderr)
            self.assertIn(why, ran.stdout)

    def test_every_kind_of_the_formats_has_words(self):
        with open(os.path.join(HERE, "..", "..", "docs", "FORMATS.md"), encoding="utf-8") as file:
            text = file.read()
        table = text[text.index("| Test, in this order |") :]
        table = table[: table.index("\n\n")]
        kinds = {int(row.split("|")[2]): row.split("|")[1].strip() for row in table.splitlines()[2:]}
        self.assertEqual(kinds, {kind: name for kind, (name, _) in explain.KINDS.items()})

    def test_wrong_words(self):
        self.write(SCRIPT)
        for words, said in (
            (("nothing.nav",), "cannot be read"),
            ((self.path, "--fault", 2, 99), "no kind of fault 99"),
            ((self.path, "--fault", 99, 1), "none is number 99"),
            ((self.path, "--program", "/nothing/navd"), "there is no program"),
        ):
            ran = run(*words)
            self.assertEqual(ran.returncode, 1)
            self.assertIn(said, ran.stderr)
            self.assertNotIn("Traceback", ran.stderr)

    @unittest.skipUnless(os.environ.get("NAVD"), "NAVD names no built navd")
    def test_navd_tells_the_same(self):
        for kind, lines, number, _, _ in ROWS:
            with self.subTest(kind=kind, line=number):
                self.write(lines)
                told = explain.told(os.environ["NAVD"], "play", "".join(line + "\n" for line in lines).encode())
                self.assertEqual(told, (number, kind))


if __name__ == "__main__":
    unittest.main()
