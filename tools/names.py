#!/usr/bin/env python3
"""Names of this repository that say too little or too much. Ends with 1 where a rule is broken.

usage: tools/names.py [--all] [--list]

Rules, for the crates of crates.txt that are no tests and no benches:
  1. a type that a crate hands out (struct, enum, trait, alias) has no name that another crate hands out too
  2. what docs/WORDS.md has in code font is an identifier of the code, a crate or a word of Recast and Detour
  3. crates.txt lists for a crate just the crates that its files name

--all   no two crates have a type of one name, handed out or not; and it tells modules and functions of one name in many crates
--list  tells the files of fewer than 40 lines
"""
import os
import re
import sys
from collections import defaultdict
from pathlib import Path

TOP = Path(__file__).resolve().parent.parent
TYPE = re.compile(r"^(pub(?:\([a-z]+\))? )?(?:unsafe )?(?:struct|enum|trait|type|union) (\w+)", re.M)
# Names of Recast and Detour, which WORDS sets beside ours.
PEER = re.compile(r"^(rc|dt)[A-Z]|^(walkable|find|max|move|raycast)")
# Functions that any crate may have.
COMMON = "new get fmt duplicate drop len of clone eq main act length".split()


def without_comments(text):
    return re.sub(r"//[^\n]*", "", text)


def rows():
    """The crates of crates.txt, each with the crates that it lists."""
    found = {}
    for line in (TOP / "crates.txt").read_text().splitlines():
        if named := re.match(r"(\w+)[^:#]*:([^#]*)", line):
            found[named[1]] = named[2].split()
    return found


def files(crate, *ends):
    found = []
    for folder, inside, names in os.walk(TOP / "crates" / crate):
        inside[:] = [name for name in inside if name != "out"]
        found += [Path(folder, name) for name in names if name.endswith(ends)]
    return sorted(found)


def handed_out(crate):
    """The names that a crate's root hands out, and the modules that it opens whole."""
    path = TOP / "crates" / crate / "src" / "lib.rt"
    text = without_comments(path.read_text()) if path.exists() else ""
    return set(re.findall(r"\w+", " ".join(re.findall(r"^pub use ([^;]+);", text, re.M)))), set(re.findall(r"^pub mod (\w+)", text, re.M)) | {"lib"}


def named_crates(crate, crates):
    """The crates that the files of a crate name."""
    found = set()
    for path in files(crate, ".rt", ".antt"):
        text = path.read_text()
        found |= set(re.findall(r"\bRattle\.([a-z]\w*)\.", text))
        if path.suffix == ".rt":
            found |= set(re.findall(r"(?<![\w:.])([a-z]\w*)(?=::)", without_comments(text)))
    return (found & crates) - {crate}


class Names:
    """Which product crates have a type, a module or a function of a name."""

    def __init__(self, product):
        self.public, self.types, self.modules, self.functions = (defaultdict(set) for _ in range(4))
        for crate in product:
            names, opened = handed_out(crate)
            for path in files(crate, ".rt"):
                if re.match(r"tests?(_\w+)?$", path.stem):
                    continue
                text = without_comments(path.read_text())
                for public, name in TYPE.findall(text):
                    self.types[name].add(crate)
                    if public == "pub " and (name in names or path.stem in opened):
                        self.public[name].add(crate)
                for name in re.findall(r"\bfn (\w+)", text):
                    self.functions[name].add(crate)
                if path.stem not in ("lib", "main"):
                    self.modules[path.stem].add(crate)


def of_types(names, deep):
    for name, crates in sorted((names.types if deep else names.public).items()):
        if len(crates) > 1:
            yield f"type {name}: in {', '.join(sorted(crates))}"


def of_words(crates):
    page = TOP / "docs" / "WORDS.md"
    if not page.exists():
        return
    known = set(crates)
    for crate in crates:
        for path in files(crate, ".rt", ".antt"):
            known |= set(re.findall(r"[A-Za-z_]\w*", path.read_text()))
    for words in sorted(set(re.findall(r"`([^`\n]+)`", page.read_text()))):
        parts = re.findall(r"[A-Za-z_]\w*", words)
        pattern = re.search(r"[_ ]x\b|x_|\bIsX|HasX|AreX", words)
        path = "/" in words or re.search(r"\.(md|py|sh|rt|h|txt)$", words)
        if not PEER.match(words) and not pattern and not path and any(part not in known for part in parts):
            yield f"docs/WORDS.md: `{words}` is named nowhere in the code"


def of_crates(listed):
    crates = set(listed) | {below for row in listed.values() for below in row}
    for crate, row in listed.items():
        named = named_crates(crate, crates)
        if missing := sorted(named - set(row)):
            yield f"crates.txt: {crate} names {' '.join(missing)} and does not list it"
        if more := [below for below in row if below not in named]:
            yield f"crates.txt: {crate} lists {' '.join(more)} and does not name it"


def tell_many(names):
    for kind, table, least in (("module", names.modules, 3), ("fn", names.functions, 5)):
        for name, crates in sorted(table.items(), key=lambda it: -len(it[1])):
            if len(crates) >= least and name not in COMMON:
                print(f"{kind} {name}: in {len(crates)} crates: {', '.join(sorted(crates))}")


def tell_short(product):
    found = [(len(path.read_text().splitlines()), path) for crate in product for path in files(crate, ".rt")]
    short = sorted(it for it in found if it[0] < 40 and it[1].stem not in ("lib", "main"))
    for lines, path in short:
        print(f"{lines:4} {path.relative_to(TOP)}")
    print(f"{len(short)} of {len(found)} files have fewer than 40 lines")


def main(words):
    listed = rows()
    product = [crate for crate in listed if not crate.startswith(("tests_", "bench_"))]
    names = Names(product)
    breaches = [*of_types(names, "--all" in words), *of_words(listed), *of_crates(listed)]
    for breach in breaches:
        print(breach)
    if "--all" in words:
        tell_many(names)
    if "--list" in words:
        tell_short(product)
    print(f"{len(product)} crates, {len(names.public)} public types; {len(breaches)} breaches")
    return 1 if breaches else 0


if __name__ == "__main__":
    sys.exit(main(sys.argv[1:]))
