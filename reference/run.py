#!/usr/bin/env python3
"""Holds a built `navd` against the second program: the examples, made inputs, random levels of every kind, and live runs. Prints a line
for each, and ends with 1 where one is wrong, whose input and output it leaves in a folder that it names. It leaves nothing else.

usage: reference/run.py NAVD [LEVELS [SEED]]     a built navd, how many random levels and half as many live runs, the seed of the first
                                                 (defaults 20 and 1: half a minute)
"""
import shutil
import subprocess
import sys
import tempfile
from pathlib import Path

HERE = Path(__file__).resolve().parent
TOP = HERE.parent
navd = str(Path(sys.argv[1]).resolve()) if len(sys.argv) > 1 else sys.exit(__doc__)
levels, seed = [int(word) for word in sys.argv[2:4]] + [20, 1][len(sys.argv[2:4]):]
work = Path(tempfile.mkdtemp(prefix="navd-reference-"))
failed = []


def told(name, good, words=""):
    print(f"{'ok   ' if good else 'WRONG'} {name}" + (f": {words}" if words else ""), flush=True)
    if not good:
        failed.append(name)
    return good


def script(name, *words):
    return subprocess.run([sys.executable, str(HERE / name), *map(str, words)], capture_output=True, text=True)


def made(name, *words):
    """What a script of bench/ writes with these arguments, as a file."""
    path = work / "-".join([Path(name).stem, *map(str, words)])
    with open(path, "wb") as file:
        subprocess.run([sys.executable, str(TOP / "bench" / name), *map(str, words)], stdout=file, check=True)
    return path


def play(name, path, out=None, summary=None):
    """Plays an input by both programs. Where the output is known it has to be that, too."""
    ran = subprocess.run([navd, "play"], stdin=open(path, "rb"), capture_output=True)
    output = work / f"{Path(path).name}.output"
    output.write_bytes(ran.stdout)
    if ran.returncode:
        return told(name, False, f"status {ran.returncode}, {ran.stdout[:60]}; see {work}")
    if out is not None and out.read_bytes() != ran.stdout:
        return told(name, False, f"{output} is not {out}")
    checked = script("play_check.py", path, output, *([summary] if summary else []))
    if checked.returncode:
        return told(name, False, f"{(checked.stdout + checked.stderr).strip().splitlines()[-1]}; see {work}")
    if path.parent == work:
        path.unlink()
    output.unlink()
    return told(name, True, f"{ran.stdout.count(10)} lines")


def live(name, *words):
    checked = script("live_check.py", navd, *words)
    return told(name, checked.returncode == 0, (checked.stdout + checked.stderr).strip().splitlines()[-1])


def examples():
    for path in sorted((TOP / "examples").glob("*.nav")):
        out = path.with_suffix(".out")
        if not out.exists():
            live(f"{path.name}, live", path)
        elif out.read_text().startswith("fault "):
            ran = subprocess.run([navd, "play"], stdin=open(path, "rb"), capture_output=True)
            told(path.name, ran.returncode == 1 and ran.stdout == out.read_bytes(), "its fault")
        else:
            play(path.name, path, out)


def made_inputs():
    for number, size in ((1, 32), (2, 48), (7, 96)):
        summary = work / f"summary-{number}-{size}"
        summary.write_bytes(subprocess.run([navd, "gen", str(number), str(size)], capture_output=True).stdout)
        if play(f"gen {number} {size}", made("gen_input.py", number, size), summary=summary):
            summary.unlink()


def second_form(lines, clear):
    """The lines of an input of the first form as those of one of the second, which says this of clearance."""
    return ["nav 2", *lines[1:7], f"clear {clear}", *lines[7:]]


def without_clearance():
    """Inputs that say `clear 0` are played as the examples of the first form, and so are ones with `clear 1` that have no obstacles."""
    for path in sorted((TOP / "examples").glob("*.nav")):
        out, lines = path.with_suffix(".out"), path.read_text().split("\n")
        if lines[0] == "nav 1" and out.exists() and not out.read_text().startswith("fault "):
            ran = subprocess.run([navd, "play"], input="\n".join(second_form(lines, 0)).encode(), capture_output=True)
            told(f"{path.name} with clear 0", ran.returncode == 0 and ran.stdout == out.read_bytes(), "the same")
    for n in range(seed, seed + 4):
        words = [40, 60, n, ("strips", "contours")[n % 2], 169, 0, ("rough", "smooth")[n // 2 % 2], "none", "none", 1]
        path = made("level_input.py", *words)
        lines = [line for line in path.read_text().split("\n") if not line.startswith(("add ", "drop "))]
        texts = ["\n".join([*lines[:7], f"clear {clear}", *lines[8:]]) for clear in (0, 1)]
        ran = [subprocess.run([navd, "play"], input=text.encode(), capture_output=True) for text in texts]
        told(f"level {n} without obstacles", ran[0].returncode == 0 and ran[0].stdout == ran[1].stdout, "the same with clear 0 and with clear 1")
        path.unlink()


def random_levels():
    """Rough and smooth levels by turns, as strips and by outlines, without workers and with them, some with obstacles that set areas, some with
    jumps and hop walks, some where agents keep their radius from obstacles."""
    for n in range(seed, seed + levels):
        mesh = ("strips", "contours")[n % 2]
        words = [(20, 40, 56)[n % 3], 120, n, mesh, (0, 49, 169, 400)[n % 4], (0, 3)[n // 2 % 2], ("rough", "smooth")[n // 4 % 2]]
        words += ["areas" if n % 5 < 2 else "none", "hops" if n % 3 == 1 else "none", ("none", 1, 1, 0, 1, 1, "none")[n % 7]]
        play("level " + " ".join(map(str, words)), made("level_input.py", *words))


examples()
made_inputs()
without_clearance()
random_levels()
live(f"{levels // 2} live runs, seed {seed}", levels // 2, seed)
if failed:
    sys.exit(f"{len(failed)} wrong: {'; '.join(failed)}; what they read and wrote is in {work}")
shutil.rmtree(work)
print("all as the second program has it")
