#!/usr/bin/env python3
"""Draws scenes of a crowd as one SVG that moves by itself, from what bench/crowd.sh keeps in a folder: for each SCENE its field text, and the log in which a
line has where each agent is in a step, in 1/256 of a cell. Agents that go to the right are blue, the others orange; who has arrived is gone. Between two
of the pictures, which lie EVERY steps apart, agents are drawn on the straight way.

usage: LOG=FOLDER SEEDS=1 SCENES="both corridor3" COUNTED=0 bench/crowd.sh
       tools/crowd_film.py FOLDER SCENE.. > docs/pictures/crowd.svg
"""
import sys
from pathlib import Path

RADIUS, EVERY, STEPS_A_SECOND, REST, MARGIN = 2, 8, 20, 1.5, 4


def walls(field):
    """The size of a field, and its walls as rectangles: runs of a row, joined where rows are alike."""
    width = depth = 0
    rows = {}
    for line in field.read_text().splitlines():
        words = line.split()
        if words[0] == "size":
            width, depth = int(words[1]), int(words[2])
        elif words[0] == "span" and words[5] == "0":
            rows.setdefault(int(words[2]), []).append(int(words[1]))
    runs = {}
    for z, xs in rows.items():
        begin = last = None
        for x in sorted(xs) + [None]:
            if last is not None and x != last + 1:
                runs.setdefault((begin, last + 1), []).append(z)
                begin = x
            begin, last = x if begin is None else begin, x
    found = []
    for (x0, x1), zs in runs.items():
        zs.sort()
        while zs:
            count = 1
            while count < len(zs) and zs[count] == zs[0] + count:
                count += 1
            found.append((x0, zs[0], x1 - x0, count))
            zs = zs[count:]
    return width, depth, found


def moves(log):
    """For each agent the places in which it is drawn, until it has arrived."""
    lines = [line.split() for line in log.read_text().splitlines()]
    for agent in range(len(lines[0])):
        places = []
        for words in lines[::EVERY]:
            if words[agent] == "-":
                break
            places.append(tuple(int(n) / 256 for n in words[agent].split(",")))
        yield places


def spelled(n):
    return f"{n:.1f}".removesuffix(".0")


def animated(name, values, seconds, frames):
    """The values, and then the last one for good."""
    values = [spelled(v) for v in values]
    if len(set(values)) == 1:
        return ""
    values += [values[-1]] * (frames - len(values))
    return f'<animate attributeName="{name}" dur="{spelled(seconds)}s" repeatCount="indefinite" values="{";".join(values)}"/>'


def drawn(folder, scene, top):
    """A scene below a line of the picture, and how wide and deep it is."""
    width, depth, rectangles = walls(folder / f"{scene}.field")
    ways = list(moves(folder / f"{scene}.log"))
    frames = max(map(len, ways)) + round(REST * STEPS_A_SECOND / EVERY)
    seconds = (frames - 1) * EVERY / STEPS_A_SECOND
    yield f'<g transform="translate({MARGIN} {top})"><rect width="{width}" height="{depth}" fill="#f4f1ea"/>'
    for x, z, across, along in rectangles:
        yield f'<rect x="{x}" y="{depth - z - along}" width="{across}" height="{along}" fill="#6b6459"/>'
    for way in ways:
        color = "#3a6ea5" if way[-1][0] > way[0][0] else "#d9822b"
        gone = len(way) / (frames - 1)
        yield (f'<circle r="{RADIUS}" cx="{spelled(way[0][0])}" cy="{spelled(depth - way[0][1])}" fill="{color}">'
               + animated("cx", [x for x, _ in way], seconds, frames) + animated("cy", [depth - z for _, z in way], seconds, frames)
               + f'<animate attributeName="r" dur="{spelled(seconds)}s" repeatCount="indefinite" calcMode="discrete" values="{RADIUS};0" '
               f'keyTimes="0;{min(gone, 1):.3f}"/></circle>')
    yield "</g>"


def main(words):
    if len(words) < 2:
        sys.exit(__doc__)
    folder, parts, top, wide = Path(words[0]), [], MARGIN, 0
    for scene in words[1:]:
        width, depth, _rectangles = walls(folder / f"{scene}.field")
        parts += drawn(folder, scene, top)
        top, wide = top + depth + MARGIN, max(wide, width)
    print(f'<svg xmlns="http://www.w3.org/2000/svg" viewBox="0 0 {wide + 2 * MARGIN} {top}" width="{4 * (wide + 2 * MARGIN)}">')
    print("\n".join(parts) + "\n</svg>")


if __name__ == "__main__":
    main(sys.argv[1:])
