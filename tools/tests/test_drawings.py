#!/usr/bin/env python3
"""Tests of tools/picture.py and tools/page.py on the examples: every polygon of the engine's scene is drawn and no other, with corners that
were worked out by hand, at each published length. Pages are opened in a headless Chromium, if there is one.

The pictures of docs/pictures look the same by rsvg-convert and by Chromium, if there are both.

usage: [NAVD_SCENE=FILE] python3 tools/tests/test_drawings.py     with the built navd_scene, crates/navd_scene/out/navd_scene if none is named
"""
import os
import re
import shutil
import subprocess
import sys
import tempfile
import unittest
import zlib

HERE = os.path.dirname(os.path.abspath(__file__))
TOOLS = os.path.join(HERE, "..")
EXAMPLES = os.path.join(HERE, "..", "..", "examples")
sys.path.insert(0, TOOLS)
import scenes

PICTURES = os.path.join(HERE, "..", "..", "docs", "pictures")
CHROMIUM = shutil.which("chromium") or shutil.which("chromium-browser")
RSVG = shutil.which("rsvg-convert")
POLYGON = re.compile(r'<polygon class="p" [^>]*data-p="(\d+) (\d+) (\d+) (\d+) (\d+)" points="([^"]*)"/>')

# Of the example `detour`, a room of 12 by 10 columns in one tile, whose rows 1 to 8 are strips from column 1 to 10: the published length, how
# many polygons there are, and the corners of some in columns and rows. The first crate leaves columns 9 and 10 of the rows 4 and 5, the second
# closes them in row 4, and at the end row 4 has the columns 1 to 8.
DETOUR = [
    (0, 8, {0: [(1, 1), (11, 1), (11, 2), (1, 2)], 3: [(1, 4), (11, 4), (11, 5), (1, 5)], 7: [(1, 8), (11, 8), (11, 9), (1, 9)]}),
    (1, 8, {3: [(9, 4), (11, 4), (11, 5), (9, 5)], 4: [(9, 5), (11, 5), (11, 6), (9, 6)], 5: [(1, 6), (11, 6), (11, 7), (1, 7)]}),
    (2, 7, {2: [(1, 3), (11, 3), (11, 4), (1, 4)], 3: [(9, 5), (11, 5), (11, 6), (9, 6)], 4: [(1, 6), (11, 6), (11, 7), (1, 7)]}),
    (3, 8, {3: [(1, 4), (9, 4), (9, 5), (1, 5)], 4: [(1, 5), (11, 5), (11, 6), (1, 6)], 7: [(1, 8), (11, 8), (11, 9), (1, 9)]}),
]


def example(name):
    return os.path.join(EXAMPLES, name + ".nav")


def run(tool, *words):
    return subprocess.run([sys.executable, os.path.join(TOOLS, tool), *map(str, words)], capture_output=True, text=True)


def picture(*words):
    ran = run("picture.py", *words)
    assert ran.returncode == 0, ran.stderr
    return ran.stdout


def drawn(text, depth):
    """The polygons of a drawing: by tile and place their area, floors and corners, these turned back to columns and rows."""
    found = {}
    for tile, index, area, low, high, points in POLYGON.findall(text):
        corners = [tuple(map(int, point.split(","))) for point in points.split(" ")]
        found[int(tile), int(index)] = (int(area), int(low), int(high), [(x, depth - y) for x, y in corners])
    return found


def told(scene):
    """The polygons that the engine tells of."""
    return {
        (tile.number, index): (polygon.area, polygon.low, polygon.high, polygon.corners)
        for tile in scene.tiles
        for index, polygon in enumerate(tile.polygons)
    }


class Pictures(unittest.TestCase):
    def test_corners_by_hand(self):
        for length, count, corners in DETOUR:
            with self.subTest(length=length):
                found = drawn(picture(example("detour"), "--length", length), 10)
                self.assertEqual(len(found), count)
                for index, wanted in corners.items():
                    self.assertEqual(found[0, index][3], wanted)

    def test_every_polygon_of_the_scene(self):
        for name in ("storeroom", "bridge", "detour", "mud", "pillars"):
            play = scenes.Play(example(name))
            for length in play.lengths():
                with self.subTest(name=name, length=length):
                    text = picture(example(name), "--length", length)
                    scene = play.scene(length)
                    self.assertEqual(len(POLYGON.findall(text)), scene.polygon_count)
                    self.assertEqual(drawn(text, scene.depth), told(scene))
                    self.assertEqual(text.count('data-o="'), len(scene.obstacles))
                    self.assertEqual(text.count('<rect class="tile"'), len(scene.tiles))

    def test_a_drawing_that_lacks_one_or_has_another_is_found_out(self):
        play = scenes.Play(example("detour"))
        text = picture(example("detour"), "--length", 1)
        self.assertNotEqual(drawn(POLYGON.sub("", text, count=1), 10), told(play.scene(1)))
        self.assertNotEqual(drawn(text, 10), told(play.scene(0)))

    def test_hop_walks(self):
        """Up the ladder of `ledge`: twelve portals, the jump from its foot to its head, and a line on each side of it, the second with two turns."""
        text = picture(example("ledge"), "--length", 1)
        self.assertEqual(len(re.findall(r'<path class="gate" d="M[^"]*L[^"]*"/>', text)), 12)
        self.assertIn('<path class="jump" d="M5.75 8.5L7.25 8.5"/>', text)
        self.assertIn('<path class="path" d="M2.5 2.5L5.75 8.5"/>', text)
        self.assertIn('<path class="path" d="M7.25 8.5L10 7L10 6L9.375 2.5"/>', text)
        self.assertEqual(len(re.findall(r'<circle class="turn" cx="10" cy="[67]"', text)), 2)

    def test_paths_and_rays(self):
        text = picture(example("detour"), "--length", 1)
        # Six polygons of the corridor and five portals; two turns, at the crate's right corners; a wall at z = 64.
        self.assertEqual(text.count('<polygon class="in"'), 6)
        self.assertEqual(len(re.findall(r'<path class="gate" d="M[^"]*L[^"]*"/>', text)), 5)
        turns = re.findall(r'<circle class="turn" cx="([^"]*)" cy="([^"]*)" r="[^"]*"><title>', text)
        self.assertEqual(turns, [("9", "6"), ("9", "4")])
        self.assertIn('<path class="wall" d="M11 6L1 6"/>', text)

    def test_one_storey(self):
        low = drawn(picture(example("bridge"), "--floors", 0, 20), 10)
        high = drawn(picture(example("bridge"), "--floors", 30, 40), 10)
        self.assertTrue(low and high)
        self.assertEqual({polygon[1] for polygon in low.values()}, {10})
        self.assertEqual({polygon[1] for polygon in high.values()}, {34})
        self.assertEqual(len(POLYGON.findall(picture(example("bridge"), "--no-polygons"))), 0)

    def test_places(self):
        with tempfile.NamedTemporaryFile("w", suffix=".places") as places:
            places.write("0 0 24 24 10 0 0 40 24 10\n0 3 72 72 10\n0 0 24 24 34\n")
            places.flush()
            text = picture(example("bridge"), "--places", places.name)
            self.assertEqual(text.count('class="place" cx='), 5)  # four places and the legend's
            self.assertEqual(text.count('class="way"'), 2)  # the line of two places and the legend's
            self.assertIn("<title>place at 72 72, floor 10, polygon 0 3</title>", text)
            self.assertEqual(picture(example("bridge"), "--floors", 30, 40, "--places", places.name).count("<title>place"), 1)
            places.write("0 0 24 24\n")
            places.flush()
            ran = run("picture.py", example("bridge"), "--places", places.name)
            self.assertIn("line 4: a place is five whole numbers", ran.stderr)

    def test_wrong_words(self):
        with tempfile.NamedTemporaryFile("w", suffix=".nav") as wrong:
            wrong.write("nav 2\n")
            wrong.flush()
            rows = [
                (("nothing.nav",), "cannot be read"),
                ((wrong.name,), "fault"),
                ((example("detour"), "--program", "/nothing/navd_scene"), "there is no program"),
            ]
            for tool in ("picture.py", "page.py"):
                for words, said in rows:
                    ran = run(tool, *words)
                    self.assertEqual(ran.returncode, 1)
                    self.assertIn(said, ran.stderr)
                    self.assertNotIn("Traceback", ran.stderr)
        ran = run("picture.py", example("detour"), "--length", 7)
        self.assertIn("the published lengths are 0, 1, 2, 3", ran.stderr)


def pixels(path):
    """The width of a PNG file of eight bits a colour, and its rows of bytes, three a pixel."""
    with open(path, "rb") as file:
        data = file.read()
    at, body = 8, b""
    while at < len(data):
        size, kind = int.from_bytes(data[at : at + 4], "big"), data[at + 4 : at + 8]
        chunk = data[at + 8 : at + 8 + size]
        if kind == b"IHDR":
            width, colours = int.from_bytes(chunk[:4], "big"), {2: 3, 6: 4}[chunk[9]]
        body += chunk if kind == b"IDAT" else b""
        at += size + 12
    flat, rows, before = zlib.decompress(body), [], bytes(width * colours)
    for start in range(0, len(flat), width * colours + 1):
        before = unfiltered(flat[start], flat[start + 1 : start + 1 + width * colours], before, colours)
        rows.append(bytes(part for at, part in enumerate(before) if at % colours < 3))
    return width, rows


def unfiltered(kind, row, before, step):
    """A row of a PNG file as it was before its filter."""
    found = bytearray(row)
    for at in range(len(found)):
        left, up, corner = (found[at - step] if at >= step else 0), before[at], (before[at - step] if at >= step else 0)
        near = min((left, up, corner), key=lambda part: abs(left + up - corner - part))
        found[at] = (found[at] + (0, left, up, (left + up) // 2, near)[kind]) % 256
    return found


@unittest.skipUnless(CHROMIUM and RSVG, "there is no Chromium or no rsvg-convert")
class Viewers(unittest.TestCase):
    def test_two_viewers_draw_the_same(self):
        """Of each hundred pixels fewer than three differ by more than a fourth of the brightness, between a browser and librsvg."""
        for name in ("storeroom", "ledge", "mud"):
            path = os.path.join(PICTURES, name + ".svg")
            with self.subTest(name=name), tempfile.TemporaryDirectory() as folder:
                with open(path, encoding="utf-8") as file:
                    size = re.search(r'width="(\d+)" height="(\d+)"', file.read()).groups()
                one, two = os.path.join(folder, "one.png"), os.path.join(folder, "two.png")
                subprocess.run([RSVG, "-o", one, path], check=True)
                words = ["--headless", "--no-sandbox", "--disable-gpu", "--hide-scrollbars", f"--user-data-dir={folder}/own", f"--window-size={','.join(size)}"]
                subprocess.run([CHROMIUM, *words, f"--screenshot={two}", "file://" + os.path.abspath(path)], capture_output=True, timeout=300)
                width, rows = pixels(one)
                self.assertEqual((width, len(rows)), tuple(map(int, size)))
                pairs = [(a, b) for row, other in zip(rows, pixels(two)[1]) for a, b in zip(row, other)]
                self.assertLess(sum(abs(a - b) > 64 for a, b in pairs), 0.03 * len(pairs))

    def test_no_picture_asks_for_what_a_viewer_may_not_know(self):
        for name in sorted(os.listdir(PICTURES)):
            if name.endswith(".svg"):
                with open(os.path.join(PICTURES, name), encoding="utf-8") as file:
                    self.assertNotIn("vector-effect", file.read())


# What a page does when its slider is moved to each place, and when its first path is clicked: the counts of what is drawn then.
PROBE = """<script>
const seen = [];
addEventListener("error", event => seen.push("error " + event.message));
const count = name => document.querySelectorAll(name).length;
for (let place = 0; place <= version.max; place++) {
  version.value = place;
  version.dispatchEvent(new Event("input"));
  seen.push([get("length").textContent, count("#tiles .p"), count("#changed .changed"), count("#obstacles .o")].join(" "));
}
document.querySelectorAll("li.ask")[2].click();
seen.push(["path", get("length").textContent, count("#questions .in"), count("#questions .gate"), count("#questions .turn")].join(" "));
const one = document.querySelector("#tiles .p");
one.dispatchEvent(new MouseEvent("mouseover", {bubbles: true}));
seen.push(get("told").innerText.replace(/\\n/g, ", "));
document.title = "seen " + seen.join("; ");
</script></body>"""


@unittest.skipUnless(CHROMIUM, "there is no Chromium")
class Pages(unittest.TestCase):
    def test_slider_click_and_hover(self):
        ran = run("page.py", example("detour"))
        self.assertEqual(ran.returncode, 0, ran.stderr)
        self.assertNotRegex(ran.stdout, r'(src|href)="')
        with tempfile.TemporaryDirectory() as folder:
            path = os.path.join(folder, "page.html")
            with open(path, "w", encoding="utf-8") as file:
                file.write(ran.stdout.replace("</body>", PROBE))
            words = [CHROMIUM, "--headless", "--no-sandbox", "--disable-gpu", f"--user-data-dir={folder}/own", "--enable-logging=stderr", "--dump-dom"]
            opened = subprocess.run([*words, "file://" + path], capture_output=True, text=True, timeout=120)
        self.assertNotIn("CONSOLE", opened.stderr)
        title = re.search(r"<title>seen (.*?)</title>", opened.stdout)
        self.assertIsNotNone(title, opened.stdout[:300])
        wanted = [
            "0 8 0 0",
            "1 8 1 1",
            "2 7 1 2",
            "3 8 1 1",
            # The second path, round the crate.
            "path 1 6 5 2",
            "tile 0, polygon 0, area 63, floors 10 to 10",
        ]
        self.assertEqual(title[1].split("; "), wanted)


if __name__ == "__main__":
    unittest.main()
