"""Takes the area of what cannot be reached from some places away, in a field text: roofs, the insides of closed bodies, rocks.

What is reached is what a walker of no radius reaches: from the top of a span to that of a neighbouring column, where its height fits between
the greater floor and the lesser ceiling and the floors differ by at most the climb. All that an agent with a radius could reach is
reached so, so no way that there was is lost.
"""
from frames import PARTS
from inputs import Trouble

NO_CEILING = 65535


class Field:
    """A field text: its header, and for each column with spans their bottoms, tops and areas."""

    def __init__(self, lines):
        self.header, self.columns = [], {}
        for number, line in enumerate(lines, 1):
            words = line.split()
            if words[:1] == ["span"]:
                x, z, *rest = map(int, words[1:])
                self.columns.setdefault((x, z), []).append(rest)
            elif words[:1] == ["end"]:
                break
            elif words[:1] == ["fault"]:
                raise Trouble(f"navd raster tells {line!r} of its input, and there is no field")
            elif not self.header and words[:1] != ["nav"]:
                raise Trouble(f"line {number}: a field text begins with `nav 1` or `nav 2`, not with {line[:40]!r}")
            else:
                self.header.append(line)
        else:
            raise Trouble("the field text has no line `end`: give what navd raster writes")
        agent = next(line for line in self.header if line.startswith("agent ")).split()
        self.height, self.climb = int(agent[1]), int(agent[2])

    def lines(self):
        rows = [f"span {x} {z} {low} {top} {area}" for (x, z), spans in self.columns.items() for low, top, area in spans]
        return self.header + rows + ["end"]

    def gap(self, column, level):
        """The floor of a span and its ceiling."""
        spans = self.columns[column]
        return spans[level][1], spans[level + 1][0] if level + 1 < len(spans) else NO_CEILING

    def is_stepped(self, column, level):
        """Whether a span without area is a step on the one below it."""
        spans = self.columns[column]
        return level > 0 and spans[level][2] == 0 and spans[level][1] - spans[level - 1][1] <= self.climb

    def is_walkable(self, column, level):
        floor, ceiling = self.gap(column, level)
        below = level - self.is_stepped(column, level)
        return self.columns[column][below][2] != 0 and ceiling - floor >= self.height

    def beside(self, column, level):
        """The spans that one steps to from a span."""
        floor, ceiling = self.gap(column, level)
        for next_column in ((column[0] + dx, column[1] + dz) for dx, dz in ((-1, 0), (1, 0), (0, -1), (0, 1))):
            for other in range(len(self.columns.get(next_column, ()))):
                low, high = self.gap(next_column, other)
                if abs(low - floor) <= self.climb and min(high, ceiling) - max(low, floor) >= self.height and self.is_walkable(next_column, other):
                    yield next_column, other

    def start(self, spot, frame):
        """The span on which a place stands."""
        column = spot[0] // PARTS, spot[1] // PARTS
        spans = [level for level in range(len(self.columns.get(column, ()))) if self.is_walkable(column, level)]
        near = [level for level in spans if abs(self.gap(column, level)[0] - spot[2]) <= self.climb]
        if near:
            return column, min(near, key=lambda level: abs(self.gap(column, level)[0] - spot[2]))
        heights = ", ".join(f"{frame.height(self.gap(column, level)[0]):.6g}" for level in spans)
        known = f"the floors there are at {heights}" if heights else "there is no floor with room for the agent there at all"
        raise Trouble(f"no floor lies within a step of the height {frame.height(spot[2]):.6g} of --inside; {known}")

    def reached(self, starts):
        found, waiting = set(starts), list(starts)
        while waiting:
            for span in self.beside(*waiting.pop()):
                if span not in found:
                    found.add(span)
                    waiting.append(span)
        return found

    def keep(self, found):
        """Leaves areas to what is reached, and to what is under a step that is; gives how many spans lost theirs."""
        held = found | {(column, level - 1) for column, level in found if self.is_stepped(column, level)}
        lost = 0
        for column, spans in self.columns.items():
            for level, span in enumerate(spans):
                if span[2] and (column, level) not in held:
                    span[2], lost = 0, lost + 1
        return lost
