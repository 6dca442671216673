#!/usr/bin/env python3
"""Draws an input as a picture: the ground by height, tiles, polygons by area, obstacles, and the answers of its path, hop and ray
lines.

The picture is that of one published length: the last one, or another by --length. The ground is what is free: walls, ledges and what
obstacles take away stay white. Paths, hop walks and rays are those that were answered at that length.

With --places also places that a host was told, as by navd_view_nearest: a line of that file is one place or more, five whole numbers each,
its tile, its polygon there, x and z in sixteenths of a cell, and its floor. Places of one line are joined, as the corners of a way.
"""
import argparse
import sys

from drawing import Drawing, show, style
from inputs import Trouble
from scenes import Play

MARGIN = 16
LEGEND = 22
# What is drawn by each name, for the legend.
MARKS = {
    "o": ('<rect width="16" height="12" fill="#fff" stroke="#000" stroke-width="1.6"/><path d="M1 11L11 1M7 11L15 3" stroke="#000" fill="none"/>', "obstacle"),
    "o paint": ('<rect class="o paint" style="fill:#fff" width="16" height="12"/>', "obstacle that sets an area"),
    "path": ('<path class="path" d="M0 6h16"/>', "path"),
    "in": ('<rect class="in" width="16" height="12"/>', "corridor"),
    "gate": ('<path class="gate" d="M1 6h14"/>', "portal"),
    "turn": ('<circle class="turn" cx="8" cy="6" r="5"/>', "turn"),
    "jump": ('<path class="jump" d="M0 6h16"/>', "jump"),
    "ray": ('<path class="ray" d="M0 6h16"/>', "ray"),
    "wall": ('<path class="wall" d="M0 6h16"/>', "wall it meets"),
    "none": ('<path class="none" d="M0 6h16"/>', "not reached"),
    "way": ('<path class="way" d="M0 6h16"/>', "way between places"),
    "place": ('<circle class="place" cx="8" cy="6" r="5"/>', "place"),
    "from": ('<circle class="from" cx="8" cy="6" r="5"/>', "start"),
    "to": ('<rect class="to" x="3" y="1" width="10" height="10"/>', "goal"),
}


def cell_pixels(width, depth):
    """How many pixels a cell has: a picture is some 1000 wide or high, a cell 2 to 56."""
    return max(2, min(56, 1000 // max(width, depth)))


def legend(drawing, top, cell, body, title):
    """The lines below the picture: what it shows, and what its colours mean."""
    parts = [f'<text x="{MARGIN}" y="{top}" font-size="14" font-weight="bold">{title}</text>']
    x, y = MARGIN, top + LEGEND

    def entry(mark, words):
        nonlocal x, y
        if x > MARGIN and x + 30 + 8 * len(words) > MARGIN + max(420, drawing.width * cell):
            x, y = MARGIN, y + LEGEND
        parts.append(f'<g transform="translate({x} {y - 11})">{mark}</g><text x="{x + 22}" y="{y}" font-size="12">{words}</text>')
        x += 38 + 8 * len(words)

    shades = {}
    for height, shade in drawing.shades.items():
        shades.setdefault(shade, []).append(height)
    for shade, heights in shades.items():
        words = f"height {heights[0]}" if heights[0] == heights[-1] else f"heights {heights[0]} to {heights[-1]}"
        entry(f'<rect width="16" height="12" fill="{shade}"/>', words)
    if drawing.polygons:
        for area in drawing.areas:
            if area:
                # Over the grey of the ground, as in the picture.
                ground = f'<rect width="16" height="12" fill="{next(iter(shades))}"/>'
                entry(f'{ground}<rect class="p" width="16" height="12" fill="{drawing.area_colour(area)}"/>', f"area {area}")
    for name, (mark, words) in MARKS.items():
        if f'class="{name}"' in body:
            entry(mark, words)
    return f'<g class="key">{"".join(parts)}</g>', y + MARGIN


def read_places(path):
    """The places of each line of a file."""
    rows = []
    with open(path, encoding="ascii") as file:
        for number, line in enumerate(file, 1):
            words = line.split()
            if len(words) % 5 or not all(word.isdigit() for word in words):
                raise Trouble(f"{path}: line {number}: a place is five whole numbers: tile, polygon, x, z, floor")
            numbers = [int(word) for word in words]
            rows.append([numbers[first : first + 5] for first in range(0, len(numbers), 5)])
    return rows


def draw(play, length, floors, polygons, places=()):
    """The picture of a published length as one text of SVG."""
    scene = play.scene(length) if length is not None else play.last
    drawing = Drawing([scene], floors, polygons, play.jumps())
    if not drawing.heights:
        raise Trouble("there is no free cell to draw" + (f" between the floors {floors[0]} and {floors[1]}" if floors else ""))
    cell = cell_pixels(scene.width, scene.depth)
    mark = max(5 / cell, min(0.16, 9 / cell))
    labels = 12 / cell if len(scene.tiles) > 1 and (scene.tiles[0].x1 - scene.tiles[0].x0 + 1) * cell >= 50 else 0
    body = [f'<g class="t" data-t="{tile.number}">{drawing.tile_piece(tile)}</g>' for tile in scene.tiles]
    body += ['<g class="borders">', drawing.tile_borders(scene, labels), '</g><g class="obstacles">']
    body += [drawing.obstacle(obstacle) for obstacle in scene.obstacles]
    body.append('</g><g class="questions">')
    body += [drawing.question(line, scene, mark) for line in play.questions(scene.length)]
    body += [drawing.places(row, mark) for row in places]
    body.append("</g>")
    storey = f", floors {floors[0]} to {floors[1]}" if floors else ""
    title = f"published length {scene.length}: {scene.polygon_count} polygons, {scene.link_count} links{storey}"
    notes, height = legend(drawing, scene.depth * cell + 2 * MARGIN + 10, cell, "".join(body), title)
    width = max(420, scene.width * cell) + 2 * MARGIN
    inner = f'<g transform="translate({MARGIN} {MARGIN}) scale({show(cell)})">{"".join(body)}</g>'
    return (
        f'<svg xmlns="http://www.w3.org/2000/svg" width="{width}" height="{height}" viewBox="0 0 {width} {height}">'
        f'<style>{style(cell)}</style>{drawing.definitions(cell)}<rect width="100%" height="100%" fill="#fff"/>{inner}{notes}</svg>\n'
    )


def main():
    parser = argparse.ArgumentParser(description=__doc__, formatter_class=argparse.RawDescriptionHelpFormatter)
    parser.add_argument("input", help="an input of navd: a level and a script")
    parser.add_argument("-o", "--output", help="the SVG file to write; else standard output")
    parser.add_argument("--length", type=int, metavar="K", help="draw the mesh that was published for the first K entries")
    parser.add_argument("--floors", type=int, nargs=2, metavar=("LOW", "HIGH"), help="draw one storey alone: what has floors from LOW to HIGH")
    parser.add_argument("--places", metavar="FILE", help="draw places too, a line of joined ones each: tile, polygon, x, z, floor")
    parser.add_argument("--no-polygons", action="store_true", help="leave the polygons out")
    parser.add_argument("--program", metavar="FILE", help="the built program navd_scene (default crates/navd_scene/out/navd_scene)")
    words = parser.parse_args()
    try:
        play = Play(words.input, words.program)
        places = read_places(words.places) if words.places else ()
        text = draw(play, words.length, words.floors, not words.no_polygons, places)
        if words.output:
            with open(words.output, "w", encoding="utf-8") as file:
                file.write(text)
        else:
            sys.stdout.write(text)
    except (Trouble, OSError) as trouble:
        sys.exit(f"picture.py: {trouble}")


if __name__ == "__main__":
    main()
