"""Plays an input of navd over the library: a field text and a script, from standard input to standard output, as `navd play` does."""
import sys

from navd import Block, Cylinder, DEAD, HISTORY_FULL, Job, Jump, Jumped, Level, NO_GOAL, NO_START, NOT_YET, NavdError, NoPath, Place, Reached, TOO_MANY

WORDS = {NO_START: "nostart", NO_GOAL: "nogoal"}


class Player:
    def __init__(self, level, limit):
        self.level, self.limit, self.published, self.lane = level, limit, 0, 0
        self.lanes = [[] for _ in range(16)]
        self.jobs, self.jumps = [Job() for _ in range(8)], []

    def entry(self, call, done, number=0):
        """Plays a request, and gives the number of its entry where it added an obstacle."""
        try:
            made = call()
            print("entry", made, done)
            return made
        except NavdError as refused:
            if refused.status == TOO_MANY:
                print("entry", self.level.counts().history, "full", self.limit)
            elif refused.status == DEAD:
                print("entry", self.level.counts().history, "dead", number)
            elif refused.status == HISTORY_FULL:
                print("history full", self.level.counts().history)
            else:
                raise
            return 0

    def add(self, words):
        area = 0
        if words[0] == "area":
            area, words = int(words[1]), words[2:]
        kind, numbers = words[0], [int(word) for word in words[1:]]
        if kind == "block":
            x0, x1, y0, y1, z0, z1 = numbers
            call = lambda: self.level.add_block(Block((x0, x1), (y0, y1), (z0, z1)), area)
        else:
            cx, cz, r, y0, y1 = numbers
            call = lambda: self.level.add_cylinder(Cylinder(cx, cz, r, (y0, y1)), area)
        self.lanes[self.lane].append(self.entry(call, "added"))

    def remove(self, number):
        self.entry(lambda: self.level.remove(number), "removed", number)

    def publish(self):
        before = self.level.counts()
        try:
            self.published = self.level.publish()
            print("published" if before.target != before.published else "same", self.published)
        except NavdError as refused:
            if refused.status != NOT_YET:
                raise
            print("notyet", refused.number)

    def ask(self, word, numbers):
        if word == "floor":
            floors = self.level.floors(*numbers)
            print("floors", self.published, len(floors), *(f"{floor.y} {floor.area}" for floor in floors))
            return
        x, z, y, *rest = numbers
        start, goal = Place(x, z, y), Place(*rest)
        found = self.level.find_path(start, goal) if word == "path" else self.level.cast_ray(start, goal)
        if isinstance(found, NoPath):
            print(WORDS.get(found.status, "nopath"), self.published)
        elif isinstance(found, Reached):
            print("reached", self.published, found.last.tile, found.last.index)
        elif word == "ray":
            print("wall", self.published, *found.a, *found.b, found.num, found.den)
        else:
            print("path", self.published, found.cost, found.first.tile, found.first.index, len(found.links), len(found.turns))
            for link in found.links:
                print("link", link.end.tile, link.end.index, *link.left, *link.right)
            for turn in found.turns:
                print("turn", *turn.at, "R" if turn.is_right else "L", turn.link)

    def work(self, word, worker):
        """A worker is a job here, whose tile is built as it is claimed."""
        job = self.jobs[worker]
        if word == "claim":
            if job.tile is not None:
                print("busy", worker)
            elif job.claim(self.level) is None:
                print("claim", worker, "none")
            else:
                job.build()
                print("claim", worker, "tile", job.tile)
            return
        tile = job.tile
        if tile is None:
            print("idle", worker)
        elif word == "back":
            job.put_back(self.level)
            print("back", worker, "tile", tile)
        else:
            print("submit", worker, "taken" if job.submit(self.level) else "stale", tile)

    def hop(self, numbers):
        x, z, y, *rest = numbers
        found = self.level.find_hop(Place(x, z, y), Place(*rest), self.jumps)
        if isinstance(found, NoPath):
            print(WORDS.get(found.status, "nopath"), self.published)
            return
        print("hop", self.published, found.cost, found.first.tile, found.first.index, len(found.steps), len(found.turns))
        for step in found.steps:
            if isinstance(step, Jumped):
                print("jump", step.number, step.end.tile, step.end.index)
            else:
                print("link", step.end.tile, step.end.index, *step.left, *step.right)
        for turn in found.turns:
            print("turn", *turn.at, "R" if turn.is_right else "L", turn.link)

    def play(self, line):
        word, *words = line.split()
        if word == "add":
            self.add(words)
        elif word == "remove":
            self.remove(int(words[0]))
        elif word == "drop":
            place, added = int(words[0]), self.lanes[self.lane]
            self.remove(added[place - 1] if 1 <= place <= len(added) else 0)
        elif word == "lane":
            self.lane = int(words[0])
        elif word == "aim":
            print("aim", self.level.aim())
        elif word == "settle":
            self.published = self.level.settle()
            for job in self.jobs:
                job.close()
            print("settled", self.published)
        elif word == "publish":
            self.publish()
        elif word in ("claim", "back", "submit"):
            self.work(word, int(words[0]))
        elif word == "jump":
            x, z, y, u, w, v, cost = map(int, words)
            self.jumps.append(Jump(Place(x, z, y), Place(u, w, v), cost))
        elif word == "hop":
            self.hop([int(number) for number in words])
        else:
            self.ask(word, [int(number) for number in words])


def main():
    text = sys.stdin.buffer.read()
    try:
        play(text)
    except NavdError as refused:
        if not refused.fault:
            raise
        print("fault", *refused.fault)
        sys.exit(1)


def play(text):
    lines = text.decode().splitlines()
    with Level(text) as level:
        script = next(at for at, line in enumerate(lines) if line.startswith("script "))
        limit = next(int(line.split()[1]) for line in lines if line.startswith("limit "))
        player = Player(level, limit)
        for line in lines[script + 1:]:
            player.play(line)
        counts = level.counts()
        print("done", counts.published, counts.history)


main()
