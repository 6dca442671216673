#!/usr/bin/env python3
"""Tries tools/release.sh without the toolchain: over a stub of the library, which is made of the header and knows the first path and the doors alone
(stand_in.c), it makes a release, twice with the same checksums; and for each thing that it wants of one it stops, with the line that names it, and
leaves nothing.

usage: tools/release/stops.py       ends with 1 where one of these is otherwise
"""
import os
import re
import shutil
import subprocess
import sys
import tempfile
from pathlib import Path

TOP = Path(__file__).resolve().parents[2]
MEMORY = """#include <math.h>
#include <stdbool.h>
#include <string.h>
#include <sys/stat.h>
#include "navd.h"
typedef struct { bool ok; void *block; } navd_tried;
navd_tried rattle_alloc(size_t size, size_t align);
void rattle_dealloc(void *block);
"""
DOORS = (TOP / "tools/release/stand_in.c").read_text()
# What the stub does in the calls of the first path.
BODIES = {
    "navd_open": "navd_tried got = rattle_alloc(64, 8); if (!got.ok || !length) return NAVD_FAULTY; level->at = got.block; level->full = 1; "
    "return NAVD_OK;",
    "navd_close": "if (level->full) rattle_dealloc(level->at); level->full = 0;",
    "navd_find_path": "memset(links, 0, 5 * sizeof *links); memset(turns, 0, turns_room * sizeof *turns); turns[0].at.x = turns[1].at.x = 144; "
    "turns[0].at.z = 64; turns[1].at.z = 96; path->cost = 180; path->links = 5; path->turns = 2; return NAVD_OK;",
}
PROGRAM = 'int puts(const char *); int main(void) { return puts("%s") < 0; }\n'


def run(*words, **more):
    return subprocess.run(list(map(str, words)), capture_output=True, text=True, check=False, **more)


def compiled(*words):
    made = run("cc", "-O1", "-w", *words)
    if made.returncode:
        sys.exit(made.stderr)


def stub(bodies, doors):
    """The stub as C, with these bodies in place of its own; a call without one is left out."""
    text = run(sys.executable, TOP / "tools/release/exports.py", "exact").stdout.replace('#include "navd.h"\n', MEMORY)
    known = {name: None for name in re.findall(r"^\w+ (navd_\w+)\(", doors, re.M)}
    for name, body in (known | bodies).items():
        whole = rf"^(\w+ {name}\([^{{]*\)) \{{.*$"
        text = re.sub(whole, lambda told: f"{told[1]} {{ {body} }}" if body is not None else "", text, flags=re.M)
    return text + doors


def archived(folder, bodies, more="", doors=DOORS):
    folder.mkdir()
    (folder / "nav_ffi.c").write_text(stub(BODIES | bodies, doors) + more)
    compiled("-fPIC", f"-I{TOP}/include", "-c", folder / "nav_ffi.c", "-o", folder / "nav_ffi.o")
    run("ar", "rcsD", folder / "libnav_ffi.a", folder / "nav_ffi.o")
    return folder / "libnav_ffi.a"


def program(folder, text):
    folder.mkdir()
    (folder / "navd.c").write_text(PROGRAM % text.rstrip("\n").replace("\n", "\\n"))
    compiled(folder / "navd.c", "-o", folder / "navd")
    return folder / "navd"


def copied(folder, file=None, old="", new=""):
    """A copy of the repository with one change."""
    run("git", "clone", "-q", TOP, folder)
    names = run("git", "-C", TOP, "ls-files").stdout.split("\n")
    for name in filter(None, names):
        if (TOP / name).is_file():
            shutil.copy2(TOP / name, folder / name)
    if file:
        text = (folder / file).read_text()
        assert old in text, (file, old)
        (folder / file).write_text(text.replace(old, new, 1))
    return folder


def faults(work):
    """For each: the archive, the program, the repository, the compiler, and what the line says."""
    whole, played = archived(work / "whole", {}), (TOP / "examples/detour.out").read_text()
    right = program(work / "right", played)
    (work / "cc").write_text('#!/bin/sh\ncase $* in *-shared*) exec cc "$@" -Wl,--build-id=uuid ;; *) exec cc "$@" ;; esac\n')
    (work / "cc").chmod(0o755)
    yield whole, right, TOP, "cc", None
    yield work / "none", right, TOP, "cc", "there is no archive"
    yield whole, work / "none", TOP, "cc", "there is no program"
    calls = "does not export just the calls of the headers:"
    yield archived(work / "less", {"navd_prepare": None}), right, TOP, "cc", f"libnavd.so {calls} < navd_prepare"
    yield archived(work / "more", {}, "int navd_more(void) { return 0; }"), right, TOP, "cc", f"libnavd.a {calls} > navd_more"
    new = {"navd_prepare": "struct stat told; return (uint32_t)stat((const char *)level, &told);"}
    yield archived(work / "new", new), right, TOP, "cc", "wants GLIBC_2.33, newer than GLIBC_2.17"
    more = {"navd_prepare": "return (uint32_t)hypot(level->full, level->full + 1);"}
    yield archived(work / "maths", more), right, TOP, "cc", "the shared object does not link"
    other = {"navd_find_path": BODIES["navd_find_path"].replace("180", "181")}
    yield archived(work / "other", other), right, TOP, "cc", "the first path in C over the archive is: cost 181"
    yield archived(work / "ends", {"navd_settle": "return NAVD_NO_MEMORY;"}), right, TOP, "cc", "the first path in C over the archive: no path"
    turned = archived(work / "turned", {}, doors=DOORS.replace("{384, 240}", "{384, 256}"))
    yield turned, right, TOP, "cc", "the doors in C over the archive: < frame 37, version 7: a way"
    yield whole, program(work / "wrong", played.replace("180", "181")), TOP, "cc", "bin/navd plays examples/detour.nav in another way"
    yield whole, right, copied(work / "header", "include/navd.h", "uint32_t cx, cz, r,", "uint32_t cz, cx, r,"), "cc", "tools/header.py --check"
    yield whole, right, copied(work / "version", "VERSION", "0.1", "0.2"), "cc", "hosts/rust/Cargo.toml has another version"
    told = copied(work / "told", "include/navd.h", "#define NAVD_VERSION 100u", "#define NAVD_VERSION 101u")
    yield whole, right, told, "cc", "include/navd.h has another version than VERSION"
    if shutil.which("abidiff"):
        moved = copied(work / "abi", "tools/release/navd.abi", "size-in-bits='192'", "size-in-bits='128'")
        yield whole, right, moved, "cc", "the headers have other types"
    yield whole, right, TOP, work / "cc", "two releases of the same files are not the same bytes"


def tried(work, number, archive, binary, top, compiler, wanted):
    """What is wrong with one run, or nothing."""
    out = work / f"out{number}"
    ended = run(top / "tools/release.sh", "--out", out, "--archive", archive, "--program", binary, env=os.environ | {"CC": str(compiler)})
    told = ended.stderr.strip().splitlines()
    if wanted is None:
        return None if ended.returncode == 0 and (out / "SHA256SUMS").is_file() else f"no release: {told}"
    if ended.returncode != 1 or len(told) != 1 or wanted not in told[0]:
        return f"not stopped by `{wanted}`, but ended with {ended.returncode}: {told}"
    return f"a release was left: {wanted}" if out.exists() else None


def main():
    work = Path(tempfile.mkdtemp())
    try:
        ends = [tried(work, number, *fault) for number, fault in enumerate(faults(work))]
    finally:
        shutil.rmtree(work)
    wrong = [end for end in ends if end]
    print("\n".join(wrong) or f"one release, and {len(ends) - 1} that were stopped")
    return 1 if wrong else 0


if __name__ == "__main__":
    sys.exit(main())
