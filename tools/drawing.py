"""Draws what a scene tells as pieces of SVG, in cells: x to the right, z upward.

Colours are of the palette of Okabe and Ito, which people who cannot see red and green tell apart; heights are steps of one grey.
"""
from html import escape

BLUE, SKY, GREEN, ORANGE, RED, PURPLE, YELLOW = "#0072b2", "#56b4e9", "#009e73", "#e69f00", "#d55e00", "#cc79a7", "#f0e442"
# Areas take these in order, the greatest number first; 63 is what most ground is.
AREA_COLOURS = (SKY, ORANGE, PURPLE, YELLOW, GREEN, RED, BLUE)
SHADES = 8
# The lines of a drawing: how each is drawn, how wide in pixels where a cell has many of them, and its dashes, in pixels too.
LINES = {
    "p": ("stroke:#23364d;fill-opacity:.42", 0.8, ()),
    "tile": ("fill:none;stroke:#1a1a1a", 1.2, (5, 3)),
    "o": ("fill:url(#hatch);stroke:#000", 1.6, ()),
    "paint": ("fill-opacity:.3", 1.6, (6, 3)),
    "in": ("fill:none;stroke:#e69f00", 2.6, ()),
    "gate": ("stroke:#d55e00;stroke-linecap:round", 3.2, ()),
    "halo": ("fill:none;stroke:#fff;stroke-linejoin:round", 6, ()),
    "path": ("fill:none;stroke:#0072b2;stroke-linejoin:round", 3, ()),
    "jump": ("fill:none;stroke:#cc79a7", 3, (7, 3)),
    "ray": ("fill:none;stroke:#000", 2, (2, 4)),
    "wall": ("stroke:#d55e00", 5, ()),
    "none": ("fill:none;stroke:#000", 1.4, (8, 5)),
    "from": ("fill:#fff;stroke:#000", 1.6, ()),
    "to": ("fill:#000;stroke:#fff", 1, ()),
    "turn": ("fill:#f0e442;stroke:#000", 1.2, ()),
    "way": ("fill:none;stroke:#009e73;stroke-linejoin:round", 2.4, ()),
    "place": ("fill:#009e73;stroke:#fff", 1.2, ()),
}
FONT = "text{font-family:'DejaVu Sans',Verdana,sans-serif;fill:#1a1a1a}"


def style(cell):
    """The style of a picture whose cells have so many pixels: widths and dashes are in cells, so that every viewer draws them; in its legend, `key`,
    in pixels."""
    part = thin(cell)
    rows = [FONT]
    for name, (how, width, dashes) in LINES.items():
        rows.append(f".{name}{{{how};{widths(width * part, dashes, 1 / cell)}}}")
        rows.append(f".key .{name}{{{widths(width * part, dashes, 1)}}}")
    return "\n".join(rows)


def thin(cell):
    """On small cells lines are thin."""
    return max(0.3, min(1, cell / 10))


def widths(width, dashes, unit):
    """The width and the dashes of a line, in units of so many to a pixel."""
    text = f"stroke-width:{show(width * unit)}"
    return text + (f";stroke-dasharray:{' '.join(show(dash * unit) for dash in dashes)}" if dashes else "")


def show(number):
    """A number as short as it can be written, to a hundredth of a sixteenth."""
    return f"{number:.4f}".rstrip("0").rstrip(".") or "0"


class Drawing:
    """Draws the scenes of one input: heights and areas have the same colours in all of them."""

    def __init__(self, scenes, floors=None, polygons=True, jumps=()):
        self.depth = scenes[0].depth
        self.width = scenes[0].width
        self.floors = floors
        self.jumps = jumps
        self.polygons = polygons
        heights = {cell[2] for scene in scenes for tile in scene.tiles for cell in tile.cells}
        self.heights = sorted(height for height in heights if self.is_shown(height, height))
        self.shades = {height: self.shade(height) for height in self.heights}
        areas = {polygon.area for scene in scenes for tile in scene.tiles for polygon in tile.polygons}
        areas |= {cell[3] for scene in scenes for tile in scene.tiles for cell in tile.cells}
        areas |= {obstacle.area for scene in scenes for obstacle in scene.obstacles if obstacle.area is not None}
        self.areas = sorted(areas, reverse=True)

    def is_shown(self, low, high):
        """Whether something between two floors belongs to the storey that is drawn."""
        return self.floors is None or (low <= self.floors[1] and high >= self.floors[0])

    def at(self, point):
        """A point in cells, as x and y of the drawing."""
        return f"{show(point[0])} {show(self.depth - point[1])}"

    def corners(self, polygon):
        """The corners of a polygon, which are whole cells."""
        return " ".join(f"{x},{self.depth - z}" for x, z in polygon.corners)

    def sixteenths(self, point):
        return self.at((point[0] / 16, point[1] / 16))

    def shade(self, height):
        """The grey of a height: low ground is dark."""
        low, high = self.heights[0], self.heights[-1]
        step = 0 if low == high else (height - low) * (SHADES - 1) // (high - low)
        grey = 126 + step * 84 // (SHADES - 1)
        return f"#{grey:02x}{grey:02x}{grey + 6:02x}"

    def area_colour(self, area):
        return AREA_COLOURS[self.areas.index(area) % len(AREA_COLOURS)]

    def tile_piece(self, tile):
        """The ground and the polygons of a tile, the lower ones first, so that what stands above covers what lies below."""
        parts = [(height, 0, text) for height, text in self.ground(tile)]
        if self.polygons:
            parts += self.polygon_parts(tile)
        return "".join(text for _, _, text in sorted(parts, key=lambda part: part[:2]))

    def ground(self, tile):
        """For each shade of a tile, its free cells as one path; with the lowest floor among them."""
        shades = {}
        for x, z, floor, _ in tile.cells:
            if self.is_shown(floor, floor):
                shades.setdefault(self.shades[floor], []).append((floor, x, z))
        for shade, cells in shades.items():
            low = min(floor for floor, _, _ in cells)
            rows = {}
            for _, x, z in cells:
                rows.setdefault(z, []).append(x)
            yield low, f'<path class="g" fill="{shade}" data-h="{low}" d="{self.runs(rows)}"/>'

    def runs(self, columns):
        """Rows of columns as rectangles, each as high as the rows below it go on in the same way."""
        open_runs, text = {}, []
        for z in sorted(columns) + [None]:
            now = set(self.row_runs(columns[z])) if z is not None else set()
            for run in [run for run in open_runs if run not in now or open_runs[run][1] + 1 != z]:
                first, last = open_runs.pop(run)
                text.append(self.rectangle(run[0], run[1], first, last))
            for run in now:
                first = open_runs[run][0] if run in open_runs else z
                open_runs[run] = (first, z)
        return "".join(text)

    @staticmethod
    def row_runs(columns):
        columns = sorted(set(columns))
        first = columns[0]
        for x, after in zip(columns, columns[1:] + [None]):
            if after != x + 1:
                yield first, x
                first = after

    def rectangle(self, x0, x1, z0, z1):
        return f"M{x0} {self.depth - z1 - 1}h{x1 - x0 + 1}v{z1 - z0 + 1}h{x0 - x1 - 1}z"

    def polygon_parts(self, tile):
        for index, polygon in enumerate(tile.polygons):
            if self.is_shown(polygon.low, polygon.high):
                points = self.corners(polygon)
                yield polygon.high, 1, (
                    f'<polygon class="p" fill="{self.area_colour(polygon.area)}" data-h="{polygon.low}" '
                    f'data-p="{tile.number} {index} {polygon.area} {polygon.low} {polygon.high}" points="{points}"/>'
                )

    def tile_borders(self, scene, labels):
        parts = []
        for tile in scene.tiles:
            width, height = tile.x1 - tile.x0 + 1, tile.z1 - tile.z0 + 1
            parts.append(f'<rect class="tile" x="{tile.x0}" y="{self.depth - tile.z1 - 1}" width="{width}" height="{height}"/>')
            if labels:
                size = labels
                parts.append(self.text((tile.x0 + size * 0.3, tile.z1 + 1 - size * 1.1), f"tile {tile.number}", size))
        return "".join(parts)

    def text(self, point, words, size):
        return f'<text x="{show(point[0])}" y="{show(self.depth - point[1])}" font-size="{show(size)}">{escape(words)}</text>'

    def obstacle(self, obstacle):
        """A block over its columns, or a cylinder as wide as it reaches."""
        title = f"<title>obstacle {obstacle.number}: {obstacle.kind} {' '.join(map(str, obstacle.numbers))}</title>"
        name, style = ("o", "") if obstacle.area is None else ("o paint", f' style="fill:{self.area_colour(obstacle.area)}"')
        head = f'class="{name}" data-o="{obstacle.number}"{style}'
        if obstacle.kind == "block":
            x0, x1, low, high, z0, z1 = obstacle.numbers
            width, height = x1 - x0 + 1, z1 - z0 + 1
            shape = f'<rect {head} x="{x0}" y="{self.depth - z1 - 1}" width="{width}" height="{height}">{title}</rect>'
        else:
            cx, cz, radius, low, high = obstacle.numbers
            shape = f'<circle {head} cx="{show(cx / 2)}" cy="{show(self.depth - cz / 2)}" r="{show(radius + 0.5)}">{title}</circle>'
        return shape if self.is_shown(low, high) else ""

    def question(self, line, scene, size):
        """A path or a hop walk with its corridor and its turns, or a ray with its wall, as the line was answered; `size` is that of its marks."""
        numbers = [int(word) for word in line.words[1:]]
        start = numbers[0:2]
        goal = numbers[3:5]
        kind = line.answer[0][0]
        if line.words[0] == kind and kind in ("path", "hop"):
            parts = self.walk(line, scene, start, goal, size)
        elif kind == "reached":
            parts = [self.line("halo", start, goal), self.line("ray", start, goal)]
        elif kind == "wall":
            parts = self.ray_to_wall(line, start, goal)
        else:
            parts = [self.line("none", start, goal)]
        mark = f"line {line.number}: {' '.join(line.words)} - {' '.join(line.answer[0])}"
        title = f"<title>{escape(mark)}</title>"
        x, y = self.sixteenths(start).split(" ")
        gx, gy = self.sixteenths(goal).split(" ")
        parts.append(f'<circle class="from" cx="{x}" cy="{y}" r="{show(size)}"/>')
        parts.append(f'<rect class="to" x="{show(float(gx) - size)}" y="{show(float(gy) - size)}" width="{show(2 * size)}" height="{show(2 * size)}"/>')
        return f'<g class="q" data-line="{line.number}">{title}{"".join(parts)}</g>'

    def line(self, name, start, goal):
        return f'<path class="{name}" d="M{self.sixteenths(start)}L{self.sixteenths(goal)}"/>'

    def walk(self, line, scene, start, goal, size):
        """The polygons and portals of a path or a hop walk, its jumps, and its line, stretch by stretch between them."""
        first = line.answer[0]
        count = int(first[5])
        steps = line.answer[1 : 1 + count]
        turns = line.answer[1 + count :]
        parts, gates, stretches = [], [], [[start]]
        for tile, index in [first[3:5]] + [row[1:3] if row[0] == "link" else row[2:4] for row in steps]:
            points = self.corners(scene.tiles[int(tile)].polygons[int(index)])
            parts.append(f'<polygon class="in" points="{points}"/>')
        for place, row in enumerate(steps):
            numbers = [int(word) for word in row[1:]]
            if row[0] == "link":
                gates.append(self.line("gate", numbers[2:4], numbers[4:6]))
                stretches[-1] += [(int(turn[1]), int(turn[2])) for turn in turns if int(turn[4]) == place]
            else:
                leaves, lands = self.jumps[numbers[0]]
                stretches[-1].append(leaves)
                stretches.append([lands])
        stretches[-1].append(goal)
        courses = ["L".join(self.sixteenths(place) for place in stretch) for stretch in stretches]
        parts += gates
        parts += [f'<path class="{name}" d="M{course}"/>' for name in ("halo", "path") for course in courses]
        parts += [self.line("jump", before[-1], after[0]) for before, after in zip(stretches, stretches[1:])]
        for _, x, z, end, place in turns:
            x, y = self.sixteenths((int(x), int(z))).split(" ")
            side = "left" if end == "L" else "right"
            parts.append(f'<circle class="turn" cx="{x}" cy="{y}" r="{show(size * 0.8)}"><title>turn at the {side} end of portal {place}</title></circle>')
        return parts

    def places(self, places, size):
        """Places, each as its tile, its polygon there, x, z and floor: dots, joined as a way's corners are; `size` is that of the dots."""
        shown = [place for place in places if self.is_shown(place[4], place[4])]
        parts = []
        if len(shown) > 1:
            course = "L".join(self.sixteenths(place[2:4]) for place in shown)
            parts += [f'<path class="{name}" d="M{course}"/>' for name in ("halo", "way")]
        for tile, index, x, z, floor in shown:
            across, down = self.sixteenths((x, z)).split(" ")
            title = f"<title>place at {x} {z}, floor {floor}, polygon {tile} {index}</title>"
            parts.append(f'<circle class="place" cx="{across}" cy="{down}" r="{show(size * 0.9)}">{title}</circle>')
        return "".join(parts)

    def ray_to_wall(self, line, start, goal):
        x1, z1, x2, z2, over, under = [int(word) for word in line.answer[0][2:]]
        part = over / under
        end = (start[0] + (goal[0] - start[0]) * part, start[1] + (goal[1] - start[1]) * part)
        return [
            self.line("halo", start, end),
            self.line("ray", start, end),
            self.line("none", end, goal),
            self.line("wall", (x1, z1), (x2, z2)),
        ]

    def definitions(self, cell):
        """The hatching of obstacles, about six pixels wide where a cell has so many."""
        step = show(6 / cell)
        line = show(1.6 / cell)
        return (
            f'<defs><pattern id="hatch" width="{step}" height="{step}" patternUnits="userSpaceOnUse" patternTransform="rotate(45)">'
            f'<rect width="{step}" height="{step}" fill="#fff" fill-opacity=".75"/><rect width="{line}" height="{step}" fill="#000"/></pattern></defs>'
        )
