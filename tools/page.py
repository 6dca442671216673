#!/usr/bin/env python3
"""Makes a page of an input, to be opened by any browser from a disk: one HTML file with no other file, or with --shared one that takes its
script and its style from docs/pages/page.js and page.css, which stand beside it there.

It draws the mesh of every published length, with a slider over them; what changed is lit up. Drag and wheel move and zoom, a polygon
under the mouse tells its tile, number, area and floors, and a click on a path, a hop walk or a ray of the script shows how it was answered, at the
length of its answer.
"""
import argparse
import html
import json
import os
import re
import sys

from drawing import LINES, Drawing
from inputs import HERE, Trouble
from scenes import Play

TEMPLATE = os.path.join(HERE, "page.html")
SHARED = os.path.join(HERE, "..", "docs", "pages")
# The shapes that tools/drawing.py draws, as a page spells them: docs/pages/page.js draws them again.
POLYGON = re.compile(r'<polygon class="p" fill="(#\w+)" data-h="\d+" data-p="\d+ (\d+) (\d+) (\d+) (\d+)" points="([^"]*)"/>')
GROUND = re.compile(r'<path class="g" fill="#(\w+)" data-h="(\d+)" d="([^"]*)"/>')
RUN = re.compile(r"M(\d+) (\d+)h(\d+)v(\d+)h-\d+z")
SHAPES = [
    (re.compile(r'<polygon class="in" points="([^"]*)"/>'), lambda found: "in " + corners(found[1])),
    (re.compile(r'<path class="(\w+)" d="([^"]*)"/>'), lambda found: f"{found[1]} {found[2]}"),
    (re.compile(r'<circle class="from" cx="([^"]*)" cy="([^"]*)" r="([^"]*)"/>'), lambda found: f"from {found[1]} {found[2]} {found[3]}"),
    (re.compile(r'<rect class="to" x="([^"]*)" y="([^"]*)" width="([^"]*)" height="[^"]*"/>'), lambda found: f"to {found[1]} {found[2]} {found[3]}"),
    (
        re.compile(r'<circle class="turn" cx="([^"]*)" cy="([^"]*)" r="([^"]*)"><title>turn at the (\w+) end of portal (\d+)</title></circle>'),
        lambda found: "turn " + " ".join(found.groups()),
    ),
]


def corners(points):
    """The corners of a polygon as numbers; of a rectangle, its least corner, its width and its height."""
    numbers = [int(number) for number in re.split("[ ,]", points)]
    xs, ys = numbers[::2], numbers[1::2]
    x0, x1, y0, y1 = min(xs), max(xs), min(ys), max(ys)
    if numbers == [x0, y1, x1, y1, x1, y0, x0, y0]:
        numbers = [x0, y0, x1 - x0, y1 - y0]
    return " ".join(map(str, numbers))


def short_tile(piece, areas):
    """The ground and the polygons of a tile; `areas` gets the colour of each area."""
    parts, place, last = [], 0, None
    while place < len(piece):
        if found := GROUND.match(piece, place):
            runs = RUN.findall(found[3])
            parts.append(f"g{found[1]} {found[2]} " + ",".join(" ".join(run) for run in runs))
        elif found := POLYGON.match(piece, place):
            if found[3] != last:
                last = found[3]
                areas[last] = found[1]
                parts.append(f"a{last}")
            parts.append(f"{found[2]} {found[4]} {found[5]} {corners(found[6])}")
        else:
            raise Trouble(f"page.js draws no such shape: {piece[place:place + 80]}")
        place = found.end()
    return ";".join(parts)


def short_question(piece):
    """What a question was answered, without the group round it and its title."""
    piece = re.fullmatch(r'<g class="q" data-line="\d+"><title>.*?</title>(.*)</g>', piece)[1]
    parts, place = [], 0
    while place < len(piece):
        tried = ((pattern.match(piece, place), how) for pattern, how in SHAPES)
        found, how = next((one for one in tried if one[0]), (None, None))
        if not found:
            raise Trouble(f"page.js draws no such shape: {piece[place:place + 80]}")
        parts.append(how(found))
        place = found.end()
    return ";".join(parts)


def versions_of(scenes, drawing):
    """Each published length with its tiles and obstacles as places in lists, where each stands once; these lists; and the colours of areas."""
    pieces, obstacles, areas, versions, before = {}, {}, {}, [], None
    for scene in scenes:
        tiles = [drawing.tile_piece(tile) for tile in scene.tiles]
        changed = [] if before is None else [tile.number for tile, old in zip(scene.tiles, before.tiles) if tile.lines != old.lines]
        alive = [(f"{one.number} {one.kind}", drawing.obstacle(one)) for one in scene.obstacles]
        versions.append(
            {
                "length": scene.length,
                "polygons": scene.polygon_count,
                "links": scene.link_count,
                "tiles": [pieces.setdefault(piece, len(pieces)) for piece in tiles],
                "changed": changed,
                "obstacles": [obstacles.setdefault(one, len(obstacles)) for one in alive],
            }
        )
        before = scene
    return versions, [short_tile(piece, areas) for piece in pieces], list(obstacles), areas


def script_of(play, drawing, mark):
    """The lines of the script, each with what it was answered and the length that it was answered at; paths, hop walks and rays with their
    drawing and the further lines of the answer."""
    rows = []
    for line in play.said:
        answer = " ".join(line.answer[0]) if line.answer else ""
        row = [f"{line.number}  {' '.join(line.words)}" + (f"\n      {answer}" if answer else ""), line.length]
        if line.words[0] in ("path", "hop", "ray"):
            row.append(short_question(drawing.question(line, play.scene(line.length), mark)))
            row.append("".join("\n" + " ".join(words) for words in line.answer[1:12]) + ("\n.." if len(line.answer) > 12 else ""))
        rows.append(row)
    return rows


def filled(data, title, shared):
    """The page of some data as one text."""
    files = {}
    for name in ("page.html", "page.css", "page.js"):
        with open(TEMPLATE if name == "page.html" else os.path.join(SHARED, name), encoding="utf-8") as file:
            files[name] = file.read()
    for name, (how, width, dashes) in LINES.items():
        dashed = f";stroke-dasharray:{' '.join(map(str, dashes))}" if dashes else ""
        if f".{name}{{{how}{dashed};stroke-width:calc({width}px*var(--part))" not in files["page.css"]:
            raise Trouble(f"page.css draws the line {name} in another way than drawing.py")
    # `</` would end the script where it stands in a text.
    told = json.dumps(data, separators=(",", ":"), ensure_ascii=False).replace("</", "<\\/")
    style = '<link rel="stylesheet" href="page.css">' if shared else f"<style>\n{files['page.css']}</style>"
    script = '<script src="page.js"></script>' if shared else f"<script>\n{files['page.js']}</script>"
    text = files["page.html"]
    for name, value in (("TITLE", html.escape(title)), ("STYLE_HERE", style), ("SCRIPT_HERE", script), ("DATA_HERE", told)):
        text = text.replace(name, value)
    return text


def page(play, title, shared):
    """The page of a play as one text."""
    scenes = play.all_scenes()
    drawing = Drawing(scenes, jumps=play.jumps())
    if not drawing.heights:
        raise Trouble("there is no free cell to draw")
    first = scenes[0]
    cell = 1000 / max(first.width, first.depth)
    versions, pieces, obstacles, areas = versions_of(scenes, drawing)
    data = {
        "width": first.width,
        "depth": first.depth,
        "heights": drawing.heights,
        "areas": areas,
        "labels": round(12 / cell, 4) if len(first.tiles) > 1 and (first.tiles[0].x1 - first.tiles[0].x0 + 1) * cell >= 50 else 0,
        "tiles": [[tile.x0, first.depth - tile.z1 - 1, tile.x1 - tile.x0 + 1, tile.z1 - tile.z0 + 1] for tile in first.tiles],
        "versions": versions,
        "pieces": pieces,
        "obstacles": obstacles,
        "script": script_of(play, drawing, max(5 / cell, min(0.16, 9 / cell))),
    }
    return filled(data, title, shared)


def main():
    parser = argparse.ArgumentParser(description=__doc__, formatter_class=argparse.RawDescriptionHelpFormatter)
    parser.add_argument("input", help="an input of navd: a level and a script")
    parser.add_argument("-o", "--output", help="the HTML file to write; else standard output")
    parser.add_argument("--title", help="the page's title; else the name of the input")
    parser.add_argument("--program", metavar="FILE", help="the built program navd_scene (default crates/navd_scene/out/navd_scene)")
    parser.add_argument("--shared", action="store_true", help="takes script and style from page.js and page.css beside it, as the pages of docs/pages do")
    words = parser.parse_args()
    try:
        text = page(Play(words.input, words.program), words.title or os.path.basename(words.input), words.shared)
        if words.output:
            with open(words.output, "w", encoding="utf-8") as file:
                file.write(text)
        else:
            sys.stdout.write(text)
    except (Trouble, OSError) as trouble:
        sys.exit(f"page.py: {trouble}")


if __name__ == "__main__":
    main()
