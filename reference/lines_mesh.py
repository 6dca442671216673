"""The shortest lines of a mesh, found without any rule by which a search could stop early: for `lines_check.py`.

A line bends at ends of portals alone. So what is looked at are corners, each an end of a portal as a point of a polygon: from one, a fan of straight
views is opened through all portals that are seen, as deep as they are, and each end in it is another corner; then the least lengths over these are those
of Dijkstra's rule. Turns are decided in whole numbers; lengths are floats, which are right to some 1e-12 of a line.
"""
import heapq
import math

from ways_mesh import orient


class Lines:
    def __init__(self, mesh):
        self.mesh, self.seen = mesh, {}

    def shortest(self, start, first, goal, last):
        """The length of the shortest line from a point of one polygon to a point of another, in sixteenths; None where no walk joins the two."""
        least, left, done = {(start, first): 0.0}, [(0.0, start, first)], set()
        best = math.inf
        while left:
            length, point, at = heapq.heappop(left)
            if length >= best:
                break
            if (point, at) in done:
                continue
            done.add((point, at))
            if (point, at) not in self.seen:
                self.seen[point, at] = self.view(point, at)
            corners, shown = self.seen[point, at]
            if any(polygon == last and sees(goal) for polygon, sees in shown):
                best = min(best, length + math.dist(point, goal))
            for far, to in corners:
                reached = length + math.dist(point, to[0])
                if reached < least.get(to, math.inf):
                    least[to] = reached
                    heapq.heappush(left, (reached, *to))
        return None if best == math.inf else best

    def view(self, eye, at):
        """What is seen from a point of a polygon: the corners, and the polygons with the test whether a point of them is seen."""
        corners, shown, fans = set(), [(at, lambda _: True)], []
        for _, _, to, left, right in self.mesh.leave[at]:
            corners |= {(left, to), (right, to)}
            turn = orient(eye, right, left)
            if turn > 0:
                fans.append((to, left, right))
            elif turn == 0 and (left[0] - eye[0]) * (right[0] - eye[0]) + (left[1] - eye[1]) * (right[1] - eye[1]) <= 0:
                corners.add((eye, to))
        while fans:
            at, left, right = fans.pop()
            inside = lambda p, left=left, right=right: orient(eye, left, p) <= 0 <= orient(eye, right, p)
            shown.append((at, inside))
            for _, _, to, one, other in self.mesh.leave[at]:
                turn = orient(eye, other, one)
                if turn < 0:
                    continue
                corners |= {(end, to) for end in (one, other) if inside(end)}
                upper = one if orient(eye, left, one) <= 0 else left
                lower = other if orient(eye, right, other) >= 0 else right
                if turn > 0 and orient(eye, lower, upper) > 0:
                    fans.append((to, upper, lower))
        return [(math.dist(eye, to[0]), to) for to in corners], shown
