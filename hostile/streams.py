#!/usr/bin/env python3
"""Fails each read and each write of runs of the built program in turn, whose reads and writes move few bytes at a time; and closes
what it reads from and writes to. A failed read ends in status 3 with nothing written, a failed write in status 4 with the bytes of the writes before
it.

usage: streams.py NAVD     with NAVD a built program, as crates/navd/out/navd
"""
import collections
import os
import subprocess
import sys

from memory import text_of
from preload import Preload

READ_FAULT, WRITE_FAULT = 3, 4


STORED = text_of("play, one tile")
# what a run is called, its words, its input, how many bytes move at a time, its status and its text
CASES = [
    ("play", ["play"], STORED, 1, 0, b"floors 0 1 10 63\nentry 1 added\nsettled 1\nfloors 1 0\ndone 1 1\n"),
    ("play, 64 bytes a call", ["play"], STORED, 64, 0, b"floors 0 1 10 63\nentry 1 added\nsettled 1\nfloors 1 0\ndone 1 1\n"),
    ("no input", ["play"], b"", 1, 1, b"fault 1 7\n"),
    ("an input with a fault", ["live"], STORED + b"jump\n", 7, 1, b"fault 50 8\n"),
    ("words in no form", ["play", "x"], STORED, 1, 2, b"fault usage\n"),
    ("gen 1 32", ["gen", "1", "32"], b"", 1, 0, None),
]


def expect(found, wrong, name, got, wanted):
    found["as it must" if got == wanted else "ELSE"] += 1
    if got != wanted:
        wrong.append((name, got, wanted))


def table(program, name, words, text, piece, status, wanted, wrong):
    got, out, counts = program.run(words, text, None, piece)
    wanted = out if wanted is None else wanted
    assert (got, out) == (status, wanted), (name, got, out)
    rows = {}
    for kind in ("read", "write"):
        rows[kind] = collections.Counter()
        for place in range(1, counts[kind] + 1):
            got, out, _ = program.run(words, text, f"{kind} {place}", piece)
            due = (READ_FAULT, b"") if kind == "read" else (WRITE_FAULT, wanted[: (place - 1) * piece])
            expect(rows[kind], wrong, f"{name}, {kind} {place}", (got, out), due)
    print(f"| {name} | {piece} | {counts['read']} | {counts['write']} | " + " | ".join(str(it["as it must"]) for it in rows.values()) + f" | {sum(it['ELSE'] for it in rows.values())} |", flush=True)


def broken_pipe(program, wrong):
    """A pipe that nobody reads any more, a standard output and a standard input that are closed, a folder as the input, a full disk."""
    navd, found = program.navd, collections.Counter()
    ends = os.pipe()
    os.close(ends[0])
    ran = subprocess.run([navd, "play"], input=STORED, stdout=ends[1], timeout=100)
    expect(found, wrong, "a pipe without a reader", ran.returncode, WRITE_FAULT)
    os.close(ends[1])
    for name, command, due in (
        ("output closed", '"$0" play >&-', WRITE_FAULT),
        ("input closed", '"$0" play <&-', READ_FAULT),
        ("a folder as input", '"$0" play </', READ_FAULT),
        ("a full disk", '"$0" play >/dev/full', WRITE_FAULT),
    ):
        ran = subprocess.run(["sh", "-c", command, navd], input=STORED, stdout=subprocess.PIPE, timeout=100)
        expect(found, wrong, name, (ran.returncode, ran.stdout), (due, b""))
    print(f"\nBroken pipe, closed streams, a folder, a full disk: {found['as it must']} as they must, {found['ELSE']} else")


if __name__ == "__main__":
    program, wrong = Preload(sys.argv[1]), []
    print("| Run | Bytes a call | Reads | Writes | Failed reads as they must | Failed writes as they must | Else |\n|---|---|---|---|---|---|---|")
    for case in CASES:
        table(program, *case, wrong)
    broken_pipe(program, wrong)
    for it in wrong[:20]:
        print("  ", *it)
    sys.exit(bool(wrong))
