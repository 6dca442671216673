#!/usr/bin/env python3
"""Times live runs of a built `navd`, and of an older one beside it where one is given, each three times in turn; the least counts. Prints a
line for each measure, and ends with 1 where one of NAVD is past its limit.

usage: live.py NAVD [OLDER]
"""
import os
import time
import subprocess
import sys
import tempfile
from pathlib import Path

HERE = Path(__file__).resolve().parent
programs = sys.argv[1:3] or sys.exit(__doc__)
work = Path(tempfile.mkdtemp(prefix="navd-live-"))
failed = []


def made(*words):
    path = work / "-".join(map(str, words))
    if not path.exists():
        path.write_bytes(subprocess.run([sys.executable, str(HERE / "live_input.py"), *map(str, words)], capture_output=True, check=True).stdout)
    return path


def once(program, way, path):
    """Seconds by the clock, seconds of the processor, the most memory in bytes, and how long the text is."""
    text = work / "text"
    with open(path, "rb") as stdin, open(text, "wb") as stdout:
        before = time.monotonic()
        child = subprocess.Popen([program, way], stdin=stdin, stdout=stdout)
        _, status, used = os.wait4(child.pid, 0)
        clock = time.monotonic() - before
    if status:
        sys.exit(f"{program} {way} {path.name}: status {status}")
    return clock, used.ru_utime + used.ru_stime, used.ru_maxrss * 1024, text.stat().st_size


def least(program, way, path):
    return [min(column) for column in zip(*(once(program, way, path) for _ in range(3)))]


def told(name, limit, words, measure, at_least=False):
    """Tells a measure of each program, the newest first, and holds that to its limit."""
    found = [measure(program) for program in programs]
    good = found[0] >= limit if at_least else found[0] <= limit
    print(f"{'ok  ' if good else 'PAST'} {name}: " + ", before ".join(f"{x:.2f}" for x in found) + f" ({words} {limit})", flush=True)
    if not good:
        failed.append(name)


def clock(program, way, *words):
    return least(program, way, made(*words))[0]


def beside_questions(program):
    alone = clock(program, "live", "settles", 512, 32, 1, 1, 400)
    return clock(program, "live", "settles", 512, 32, 2, 1, 400, 100) / alone


def wide(program, one, way="live"):
    base = clock(program, "live", "wide", 1024, 32, 1, 1, 0)
    return (clock(program, way, "wide", 1024, 32, 1, one, 12) - base) / (clock(program, "live", "wide", 1024, 32, 1, 4, 12) - base)


def one_tile(program):
    path = made("settles8", 128, 128, 8, 1, 5)
    return least(program, "live", path)[1] / least(program, "play", path)[1]


def questions(program, lanes):
    base = clock(program, "live", "paths", 512, 32, 1, 1, 0)
    return (clock(program, "live", "paths", 512, 32, 1, 1, 2000) - base) / (clock(program, "live", "paths", 512, 32, lanes, 1, 2000) - base)


def memory(program):
    path = made("paths", 512, 32, 16, 1, 2000)
    _, _, live, text = least(program, "live", path)
    return (live - least(program, "play", path)[2]) / text


told("400 settles beside a lane that asks, by the clock, to them alone", 1.3, "at most", beside_questions)
told("12 settles of all 1024 tiles, one thread (a play) to four workers", 2.5, "at least", lambda p: wide(p, 1, "play"), True)
told("the same, one worker to four (a lane builds too, so two actors to five on four processors)", 1.5, "at least", lambda p: wide(p, 1), True)
told("8 lanes that settle 5 times on one tile, processor time to the play's", 1.5, "at most", one_tile)
told("questions of two lanes, the clock of one to it", 0.85, "at least", lambda p: questions(p, 2), True)
told("questions of four lanes, the clock of one to it", 0.85, "at least", lambda p: questions(p, 4), True)
told("memory of 16 lanes with 2000 paths beyond the play's, to the text", 1.2, "at most", memory)
subprocess.run(["rm", "-rf", str(work)])
sys.exit(f"past: {failed}" if failed else 0)
