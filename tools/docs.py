#!/usr/bin/env python3
"""Checks the pages: sizes, links, and paths in code font. Ends with 1 where something is wrong.

  - README.md has at most 9216 bytes, docs/ without pages/ and pictures/ at most 190 KB
  - a link leads to a file that is there, and to a heading of it where it names one
  - a path in code font that begins with a folder of the repository or with a crate is there; `*` and a word in capitals stand
    for any name, and src/, specs/ or proofs/ of a crate may be left out
  - a page of docs/pages takes files that are there, and has as many polygons at each length as it says
"""
import json
import os
import re
import sys
from pathlib import Path

TOP = Path(__file__).resolve().parent.parent
README_LIMIT, DOCS_LIMIT = 9216, 190 * 1024
ENDS = ["", ".rt", ".antt", ".md", ".py", ".sh", ".edit"]


def pages():
    found = []
    for folder, inside, names in os.walk(TOP):
        inside[:] = [name for name in inside if name not in (".git", "out", "target")]
        found += [Path(folder, name) for name in names if name.endswith(".md")]
    return sorted(found)


def of_sizes():
    readme = (TOP / "README.md").stat().st_size
    docs = [path for path in (TOP / "docs").rglob("*") if path.is_file() and not {"pages", "pictures"} & set(path.relative_to(TOP / "docs").parts)]
    total = sum(path.stat().st_size for path in docs)
    print(f"README.md {readme} bytes of {README_LIMIT}, docs {total} of {DOCS_LIMIT}")
    if readme > README_LIMIT:
        yield f"README.md has {readme - README_LIMIT} bytes too many"
    if total > DOCS_LIMIT:
        yield f"docs has {total - DOCS_LIMIT} bytes too many"


def without_blocks(text):
    return re.sub(r"^```.*?^```", "", text, flags=re.M | re.S)


def anchors(path):
    """The names of a page's headings, as links name them."""
    heads = re.findall(r"^#+ (.*)$", without_blocks(path.read_text()), re.M)
    return {re.sub(r"[^\w\- ]", "", head.lower()).replace(" ", "-") for head in heads}


def of_links(page, text):
    for target in re.findall(r'\]\(([^)\s]+)\)|(?:src|href)="([^"]+)"', text):
        target = target[0] or target[1]
        if re.match(r"\w+:", target):
            continue
        name, _, anchor = target.partition("#")
        path = (page.parent / name) if name else page
        if not path.exists():
            yield f"{page.relative_to(TOP)}: {target} is not there"
        elif anchor and path.suffix == ".md" and anchor not in anchors(path):
            yield f"{page.relative_to(TOP)}: {target} names no heading"


def is_there(path):
    """The path, with one of some ends, is in the repository."""
    return any(True for end in ENDS for _ in TOP.glob(path.rstrip("/") + end))


def of_paths(page, text, folders, crates):
    for path in sorted(set(re.findall(r"`([\w.*/\-]+/[\w.*/\-]*)`", text))):
        parts = ["*" if re.fullmatch(r"[A-Z_]{2,}(\.\w+)?", part) and "." not in part else re.sub(r"^[A-Z_]{2,}\.", "*.", part) for part in path.split("/")]
        if "out" in parts or parts[0] not in folders | crates:
            continue
        tried = ["/".join(parts)]
        if parts[0] in crates:
            tried = [f"crates/{parts[0]}/{inside}{'/'.join(parts[1:])}" for inside in ("", "src/", "specs/", "proofs/")]
        # A definition, a lemma or a function of a file stands behind a dot.
        tried += [re.sub(r"\.\w+$", "", one) for one in tried if "." in parts[-1] and not is_there(one)]
        if not any(is_there(one) for one in tried):
            yield f"{page.relative_to(TOP)}: `{path}` is not there"


def of_drawn_pages():
    for page in sorted((TOP / "docs" / "pages").glob("*.html")):
        text = page.read_text()
        yield from of_links(page, re.sub(r"^const DATA = .*$", "", text, flags=re.M))
        found = re.search(r"^const DATA = (.*);$", text, re.M)
        if not found:
            yield f"{page.relative_to(TOP)}: there is no data"
            continue
        data = json.loads(found[1])
        counts = [sum(shape[:1].isdigit() for shape in piece.split(";")) for piece in data["pieces"]]
        for version in data["versions"]:
            if sum(counts[piece] for piece in version["tiles"]) != version["polygons"]:
                yield f"{page.relative_to(TOP)}: other polygons than it says at length {version['length']}"


def main():
    folders = {path.name for path in TOP.iterdir() if path.is_dir()} - {".git"}
    crates = {path.name for path in (TOP / "crates").iterdir()}
    wrong, found = list(of_sizes()), pages()
    for page in found:
        text = without_blocks(page.read_text())
        wrong += [*of_links(page, text), *of_paths(page, text, folders, crates)]
    wrong += of_drawn_pages()
    print("\n".join(wrong + [f"{len(found)} pages; {len(wrong)} breaches"]))
    return 1 if wrong else 0


if __name__ == "__main__":
    sys.exit(main())
