#!/usr/bin/env python3
"""Makes the largest texts of each hostile kind, runs the built program on them, and prints what it wrote, how long it took and how much memory it
had at most. A run whose script is the dearest that there is takes hours: of these it runs a short script over the same field, and prints what one
line of it took.

usage: large.py NAVD [FOLDER [FROM]]     with NAVD a built program, as crates/navd/out/navd, FOLDER for the texts (some 64 MB each, one at a time),
                                         and FROM the row of the table to begin with
"""
import os
import subprocess
import sys
import tempfile
import time

LIMIT = 67108864
SPANS = 2000000
SCRIPT_LINES = 300000
SECONDS = 900


def header(width, depth, tile, mesh="strips", limit=4, agent="10 4 0", error=169):
    return f"nav 1\nsize {width} {depth}\ntile {tile}\nagent {agent}\nerror {error}\nmesh {mesh}\nlimit {limit}\n"


def columns(width, depth, spans):
    for z in range(depth):
        yield "".join(spans(x, z) for x in range(width))


def flat(x, z):
    return f"span {x} {z} 0 10 63\n"


def field(width, depth, tile, spans=flat, **rest):
    yield header(width, depth, tile, **rest)
    yield from columns(width, depth, spans)
    yield "end\n"


def filled(piece, most=LIMIT):
    """The text again and again, up to the limit."""
    block = piece * (2**20 // len(piece) + 1)
    for _ in range(most // len(block)):
        yield block
    yield block[: most % len(block)]


def backward():
    """As many spans as there may be, each before the one that stands above it."""
    yield header(1000, 1000, 128)
    for z in reversed(range(1000)):
        yield "".join(f"span {x} {z} 20 30 63\nspan {x} {z} 0 10 63\n" for x in reversed(range(1000)))
    yield "end\nscript 1 1\n"


def late(last):
    """As many spans as there may be in order, then a last line."""
    yield header(1000, 1000, 128)
    yield from columns(1000, 1000, lambda x, z: f"span {x} {z} 0 10 63\nspan {x} {z} 20 30 63\n")
    yield last


def script(head, lines, count):
    yield from head
    yield "script 1 1\n"
    for at in range(count):
        yield lines[at % len(lines)]


def checkered(x, z):
    """Each column is a region of its own, since its area is none of its neighbours'."""
    return f"span {x} {z} 0 10 {1 + (x + z) % 2}\n"


def zigzag(x, z):
    """Teeth that hang from the upper side and stand on the lower one, one after another: one region that runs to and fro between them."""
    wall = x % 4 == 0 and z < 1020 or x % 4 == 2 and z > 3
    return f"span {x} {z} 0 40 0\n" if wall else f"span {x} {z} 0 10 63\n"


def saw(x, z):
    """Lanes of two columns between walls of one, all of which go one column to the right and back, row by row: each is a region with four corners a
    row, all of which an error of 0 keeps."""
    return f"span {x} {z} 0 40 0\n" if (x - z % 2) % 3 == 2 else f"span {x} {z} 0 10 63\n"


SMALL = lambda: field(6, 6, 6)
BIG = lambda: field(1024, 1024, 4)
WHOLE = ["add block 0 1023 0 100 0 1023\n", "settle\n", "drop 1\n", "settle\n"]
SAW = lambda: field(128, 128, 128, saw, mesh="contours", error=0)
ABOVE = ["add block 0 127 8000 8001 0 127\n", "settle\n", "drop 1\n", "settle\n"]
FAR = ["path 40 40 10 16280 16280 10\n"]

# what a text is, the word that it is for, its parts, what the first line of the answer must be, and how many lines of how many a script has
TEXTS = [
    ("67108864 line feeds", "play", lambda: filled("\n"), "fault 1 1", None),
    ("one more", "play", lambda: filled("\n", LIMIT + 1), "fault too long", None),
    ("one line without end", "play", lambda: filled("x"), "fault 1 7", None),
    ("one number without end", "play", lambda: (it for part in (["nav 1\nsize "], filled("9", LIMIT - 11)) for it in part), "fault 2 7", None),
    ("spaces, then a line feed", "live", lambda: (it for part in (filled(" ", LIMIT - 1), ["\n"]) for it in part), "fault 1 1", None),
    ("bytes 0", "live", lambda: filled("\0"), "fault 1 7", None),
    ("all `span` lines in reverse order", "play", backward, "fault 9 4", None),
    ("2000000 spans, one out of order behind them", "play", lambda: late("span 0 0 0 10 63\n"), "fault 2000008 6", None),
    ("2000000 spans and one more in order", "play", lambda: late("span 999 999 40 50 63\n"), "fault 2000008 6", None),
    ("2000000 spans and no end", "play", lambda: late(""), "fault 2000008 7", None),
    ("300000 `settle` lines over a small field", "play", lambda: script(SMALL(), ["settle\n"], SCRIPT_LINES), "settled 0", None),
    ("300001 of them", "play", lambda: script(SMALL(), ["settle\n"], SCRIPT_LINES + 1), "fault 300046 11", None),
    ("300000 `settle` lines, 65536 tiles of 4 by 4", "play", lambda: script(BIG(), ["settle\n"], SCRIPT_LINES), "settled 0", None),
    ("a block over one tile of 65536 put up, settled, taken away, settled", "play",
        lambda: script(BIG(), ["add block 5 6 0 100 5 6\n", "settle\n", "drop 1\n", "settle\n"], 2000), "entry 1 added", (2000, SCRIPT_LINES)),
    ("the same in `live`", "live", lambda: script(BIG(), ["add block 5 6 0 100 5 6\n", "settle\n"], 2000), "history 1000", (2000, SCRIPT_LINES)),
    ("a block over all 65536 tiles put up, settled, taken away, settled", "play", lambda: script(BIG(), WHOLE, 16), "entry 1 added", (16, SCRIPT_LINES)),
    ("a path across 1044484 polygons of one column each", "play",
        lambda: script(field(1024, 1024, 128, checkered), FAR, 8), None, (8, SCRIPT_LINES)),
    ("a path through a field of teeth", "play", lambda: script(field(1024, 1024, 128, zigzag), FAR, 8), None, (8, SCRIPT_LINES)),
    ("a block above a tile of 128 by 128 whose regions zigzag put up, settled, taken away, settled", "play",
        lambda: script(SAW(), ABOVE, 4), "entry 1 added", (4, SCRIPT_LINES)),
]


def run(navd, folder, name, word, parts, wanted, share):
    path, out = f"{folder}/text", f"{folder}/answer"
    with open(path, "w") as it:
        for part in parts():
            it.write(part)
    size = os.path.getsize(path)
    assert size <= LIMIT + 1, (name, size)
    begun = time.monotonic()
    with open(path) as source, open(out, "wb") as sink:
        process = subprocess.Popen([navd, word], stdin=source, stdout=sink)
        while True:
            done, status, used = os.wait4(process.pid, os.WNOHANG)
            if done or time.monotonic() - begun > SECONDS:
                break
            time.sleep(0.002)
        if not done:
            process.kill()
            _, status, used = os.wait4(process.pid, 0)
    taken = used.ru_utime + used.ru_stime
    with open(out, "rb") as it:
        first = it.readline(80).decode(errors="replace").strip()
    code = process.returncode = os.waitstatus_to_exitcode(status)
    right = done and code in (0, 1, 5) and (wanted is None or first == wanted)
    note = "" if right else " WRONG" if done else f" not done after {SECONDS} s"
    each = f", {taken / share[0] * 1000:.0f} ms a line at most, so {taken / share[0] * share[1] / 3600:.1f} hours for {share[1]} lines" if share else ""
    print(f"| {name} | {word} | {size} | {code}{note} | `{first}` | {taken:.2f} s{each} | {used.ru_maxrss // 1024} MB |", flush=True)
    return not right


if __name__ == "__main__":
    navd = os.path.abspath(sys.argv[1]) if len(sys.argv) > 1 else sys.exit(__doc__)
    print("| Text | Word | Bytes | Status | First line | Processor time | Memory at most |\n|---|---|---|---|---|---|---|")
    with tempfile.TemporaryDirectory(dir=sys.argv[2] if len(sys.argv) > 2 else None) as folder:
        sys.exit(bool(sum([run(navd, folder, *it) for it in TEXTS[int(sys.argv[3]) - 1 if len(sys.argv) > 3 else 0 :]])))
