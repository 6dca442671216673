#!/usr/bin/env python3
"""Writes docs/CLAIM.md: the definitions that a reader has to believe for the top call, `pub fn navd` of crates/top_call/src/top.rt.

It reads the clauses of that call and goes on from each name in them to the definition of that name under crates/*/specs, and from
there to the names in that definition, and so on. Of a type of the code it takes what contracts see: the fields, or the value that its
`impl Model` gives. A name counts as cited where it stands in the text of a definition, so the claim can have a definition too many,
where a variable is called like one, and none too few. Words of the toolchain's library are counted and not listed.

The page has the chapters that a play with paths needs, with the text of each definition. All other chapters are printed on demand.
Every definition of the claim stands in one chapter.

usage: tools/claim.py                 writes the page, as --read play does
       tools/claim.py --read CHAPTER  prints a chapter: of what the page has no text of, or one of its own
       tools/claim.py --of NAME       lists what stands behind one definition, as IsRightPath, in reading order
       tools/claim.py --check         ends with 1 where the page is not what the files say
       tools/claim.py --unused        lists the definitions that contracts do not need: those that proofs alone cite, and those that nothing cites
       tools/claim.py --rest          lists the files of definitions that the claim does not need, and whom they serve
       tools/claim.py --calls         lists the public calls of the product with the names of their clauses, to compare before and after
"""
import re
import sys
import textwrap
from collections import defaultdict
from pathlib import Path

TOP = Path(__file__).resolve().parent.parent
PAGE = TOP / "docs" / "CLAIM.md"
ROOT_CRATE, ROOT_FILE, ROOT_CALL = "top_call", "top", "navd"
NAME = r"[A-Za-z_][\w'?]*(?:-[A-Za-z_][\w'?]*)*"
HEADER = re.compile(rf"( *)(?:abbrev |unfoldable )?(?:pub )?(?:record |data )?({NAME})(?= [:({{])")
# What belongs to one part of what the program does: constructors that its lines name, definitions, files and clauses of the call.
PARTS = {
    "obstacles that set an area": "AreaBlock AreaCylinder area_set_by area_given area_under area_forms area_line area_block_line area_cylinder_line "
    "number_after IsArea",
    "jumps and hop walks": "Jump Hop HopStep HopAnswer is_jump lacks_jumps IsJump jump_line hop_line jump_or_hop IsHopAnswered "
    "mesh_types/Hops mesh_types/Stretches nav_record/HopTexts",
    "walkers": "Send March Walked NoWalker WalkAnswer send_line march_line walker_line Standing standing_of standing_after standing_with "
    "IsSentTo IsMarchOf IsMarchTold IsMoved AreMoved surface_move/Moves agent_walks/Marches nav_record/WalkTexts",
    "triangles": "TooManyTriangles IsRasterForm IsFieldDue IsTriFaultDue IsManyDue HasToldMany header_format header_body costs_verdict header_line "
    "IsHeaderText all_header_lines span_text/FieldText.GoesOn top_call/Triangles tri_raster/TriText tri_raster/TriFormat tri_raster/Rasters "
    "tri_raster/Triangles too_many raster_complete raster_wrong raster_many",
    "clearance round obstacles": "AtClear First Second TextForm nav_text margin_of widened clear_places is_crowded is_same_place wide_cells clear_in "
    "clear_line clear_lines touch_window",
}
# The chapters: name, whether the page has its text, heading, what it is about, and its files in reading order, or single definitions as
# crate/File.name. What is of one of PARTS stands in the chapter of that part.
CHAPTERS = [
    ("mesh", True, "What the mesh is",
     "A mesh has a list of tiles and, for each, links over its borders. `build_of` is the mesh of a ground and the first k entries of "
     "a history. A tile's mesh is made of strips (here) or of outlines (`--read outlines`).",
     "mesh_types/Builds mesh_types/WholeMesh mesh_types/ContourMeshes mesh_types/StripMeshes mesh_types/Strips "
     "mesh_types/StripPolygons"),
    ("path", True, "A path, and none",
     "`IsRightPath` says which answers to a path question are right in a mesh. A path is a cheapest walk over links between the two "
     "polygons that locate its ends, with a line that is taut in the portals of those links.",
     "mesh_types/Right mesh_types/Located mesh_types/Corridors mesh_types/Taut mesh_types/Floors"),
    ("obstacles", True, "Obstacles, and what they leave",
     "A history is a list of entries, each a request with its reply. It says which shapes are alive after k entries; a tile's free "
     "cells are those that no shape takes.",
     "nav_ground/History nav_ground/FreeCells"),
    ("version", True, "A version",
     "A book has a history, a target and a published length. `published_mesh` is the mesh that questions see: that of as many entries "
     "as are published. A publish shows the target once no tile is awaited.",
     "nav_book/LevelResults build_queue/BookState build_queue/Steps nav_book/Settling nav_book/Openings"),
    ("play", True, "A play",
     "`IsPlayText` says which texts a play may write: line by line what each step of the book is answered. Only what is written after "
     "a question leaves a choice.",
     "nav_play/PlayRecord nav_play/Answering nav_play/PlayStates"),
    ("links", False, "Links and rims",
     "The links over borders, the links between the strips of a tile, the entries of its rim, and the order of links.",
     "mesh_types/BorderLinks mesh_types/StripLinks mesh_types/StripRim mesh_types/LinkOrder mesh_types/Runs mesh_types/Portals"),
    ("taut", False, "Taut lines",
     "The conditions of a taut line: segments that go through portals, and bends that are held.",
     "mesh_types/Segments mesh_types/Bends mesh_types/Chains"),
    ("rays", False, "Rays", "Where a ray ends.", "mesh_types/Right.IsRay mesh_types/Right.IsRightRay mesh_types/Rays"),
    ("numbers", False, "Points and numbers",
     "Points, the square root, deviations and convex lists.",
     "nav_base/Point nav_base/Convex nav_base/Root nav_base/Deviation nav_base/Number"),
    ("ground", False, "From spans to layers",
     "The filters of spans, cells and their connections, clearance from walls, layers of tiles, limits, and what a shape covers.",
     "nav_ground/Layers nav_ground/Tiling nav_ground/Clearance nav_ground/Connection nav_ground/Filters nav_ground/Column "
     "nav_ground/Cells nav_ground/CellColumns nav_ground/Directions nav_ground/Fields nav_ground/Limits nav_ground/Shapes"),
    ("outlines", False, "A tile's mesh by outlines",
     "Regions, contours, simplified outlines, ears, merged pieces and the doors between them.",
     "mesh_types/ContourMeshes.contour_mesh_of mesh_types/ContourMeshes.parts_mesh mesh_types/Parts mesh_types/Regions "
     "mesh_types/Contours mesh_types/Simplified mesh_types/Ears mesh_types/Rings mesh_types/Choices mesh_types/Merging "
     "mesh_types/Facets mesh_types/Doors mesh_types/DoorRim mesh_types/Crossings mesh_types/Soundness"),
    ("storeys", False, "Storeys",
     "The cells of regions and strips with their floors.",
     "mesh_types/ContourMeshes.part_storeys mesh_types/StripMeshes.strip_storeys mesh_types/Storeys mesh_types/Places"),
    ("workers", False, "Lanes and workers of a play, totals and counts",
     "The numbers of a lane's obstacles, the jobs of workers, equal lists of shapes, the totals of answers and the builds that are "
     "counted.",
     "nav_play/PlayStates.number_added nav_play/PlayStates.number_answered nav_play/PlayStates.number_got nav_play/PlayStates.adds_and "
     "nav_play/PlayStates.number_in nav_play/PlayStates.held_by nav_play/Jobs build_queue/Steps.next_job build_queue/Steps.submission "
     "build_queue/Steps.after_put_back nav_ground/Touching build_queue/SameShapes build_queue/Flags mesh_types/Right.AreAlike "
     "nav_play/PlayTotals nav_play/Work"),
    ("live", False, "Live runs",
     "What lanes in threads may write.",
     "nav_live/LiveRecord nav_live/LaneRecords nav_live/LaneEntries nav_live/LaneWalkers nav_live/LaneTexts"),
    ("texts", False, "The grammar of texts",
     "How texts are read and written, line by line: what FORMATS says in words.",
     "nav_text/Lines nav_text/Forms nav_text/Reading nav_text/Faults span_text/Header span_text/Body span_text/FieldFormat "
     "span_text/FieldText nav_script/WayForms nav_script/Reading nav_script/Lanes nav_script/Forms nav_script/RequestForms "
     "nav_script/QuestionForms nav_script/Limits nav_script/Spelling nav_record/StepTexts nav_record/AnswerTexts nav_record/EntryTexts "
     "nav_record/FrameTexts"),
    ("program", False, "The program",
     "What a run reads, writes and answers: the clauses of the call.",
     "top_call/TopContract top_call/Outsides top_call/Outcomes top_call/Inputs top_call/Words top_call/StepCounts nav_io/Causes nav_base/Counts"),
    ("made", False, "Made inputs",
     "The input and the summary of `navd gen`.",
     "top_call/Made nav_gen/MadeText nav_gen/MadeField nav_gen/MadeScript nav_gen/Draws nav_gen/Summary"),
    ("areas", False, "Obstacles that set an area", "", "part:obstacles that set an area"),
    ("jumps", False, "Jumps and hop walks", "", "part:jumps and hop walks"),
    ("walkers", False, "Walkers", "", "part:walkers"),
    ("raster", False, "Triangles", "", "part:triangles"),
    ("clearance", False, "Clearance round obstacles", "", "part:clearance round obstacles"),
]
# What lines are told apart by on the page, chapter by chapter: constructors that the chapter's lines name. Those of PARTS come to these.
LINES = {"rays": "Ray Reached", "workers": "Claim Back Submit"}
OTHER = ("rest", False, "Files that no chapter names", "", "")
STARTS = re.compile(r" *(?:abbrev|unfoldable|pub|record|data) ")
MODULE = re.compile(r"( *)module _ (.*) where$")


class Item:
    """A definition, or a type, constant or trait of the code: its name, its text, its comment and the names that it cites."""

    def __init__(self, crate, module, name, kind):
        self.crate, self.module, self.name, self.kind = crate, module, name, kind
        self.text, self.comment, self.cites = [], [], set()

    def key(self):
        return self.crate, self.module, self.name


class Module:
    """A file of specs/, or a file of src/: its names from elsewhere, its head comment and its items."""

    def __init__(self, crate, name, path):
        self.crate, self.name, self.path = crate, name, path
        self.names, self.aliases, self.head, self.items, self.opened = {}, {}, [], {}, []


def crates_by_storey():
    """The crates in the order of crates.txt, each with the heading above it there."""
    storey, found = "", {}
    for line in (TOP / "crates.txt").read_text().splitlines():
        if heading := re.match(r"# == (\w+)", line):
            storey = heading[1]
        elif named := re.match(r"(\w+)[^:#]*:", line):
            found[named[1]] = storey
    return found


def uses_of(text, prefix):
    """The imports of a file: (path, names or None, alias or None)."""
    for path, names, alias in re.findall(rf"^ *(?:pub )?{prefix}use ([\w.]+?)(?:\.\{{([^}}]*)\}})?(?: as (\w+))?;?$", text, re.M):
        yield path.split("."), [name.strip() for name in names.split(",")] if names else None, alias or None


def source_of(path):
    """What a path of an import names: ('spec', crate, module), ('type', crate, name), ('const', crate) or ('std', path)."""
    if path[0] != "Rattle" or len(path) < 4 or path[2:3] not in (["specs"], ["proofs"]) or not (TOP / "crates" / path[1]).is_dir():
        return ("std", ".".join(path))
    if path[2] == "proofs":
        return ("proof", path[1], ".".join(path[3:]))
    if path[3] != "declared":
        return ("spec", path[1], ".".join(path[3:]))
    if "TheConstants" in path:
        return ("const", path[1])
    types = [part for part in path[4:] if part[0].isupper() and not part.startswith("The")]
    return ("type", path[1], types[0]) if types else ("std", ".".join(path))


def add_uses(module, text, prefix):
    for path, names, alias in uses_of(text, prefix):
        source = source_of(path)
        if alias:
            module.aliases[alias] = source
        elif names is None:
            module.opened.append(source)
        for name in names or []:
            module.names[name.split(" as ")[-1]] = (source, name.split(" as ")[0])


def read_spec(crate, path):
    name = ".".join(path.relative_to(TOP / "crates" / crate / "specs").with_suffix("").parts)
    module, text = Module(crate, name, path), path.read_text()
    add_uses(module, text, "")
    pending, item, base, outer, seen_use = [], None, 0, [], False
    for line in text.splitlines():
        indent = len(line) - len(line.lstrip())
        if not line.strip():
            pending = []
        elif line.lstrip().startswith("--"):
            (pending if seen_use else module.head).append(line.strip().lstrip("- ").strip())
        elif line.startswith(("use ", "pub use ", "pub mod ", "mod ")):
            seen_use, pending = True, []
        elif block := MODULE.match(line):
            outer = [(at, words) for at, words in outer if at < len(block[1])] + [(len(block[1]), block[2])]
            item = None
        elif STARTS.match(line) and (item is None or indent <= base) and (found := HEADER.match(line)):
            outer = [(at, words) for at, words in outer if at < indent]
            item, base, seen_use = Item(crate, name, found[2], "definition"), indent, True
            item.comment, pending = pending, []
            item.text = [line]
            item.outer = [words for _, words in outer]
            module.items[item.name] = item
        elif item is not None:
            item.text.append(line)
            if re.match(r" +[A-Z]\w* : ", line) and " data " in item.text[0] + " ":
                module.names.setdefault(line.split()[0], (("spec", crate, name), item.name))
    return module


def strip_code(text):
    return re.sub(r"//.*", "", text)


def block_at(text, start):
    """The text from a place to the end of the braces that open behind it, or to a semicolon before them."""
    brace, semi = text.find("{", start), text.find(";", start)
    if brace < 0 or 0 <= semi < brace:
        return text[start:semi + 1]
    depth = 0
    for at in range(brace, len(text)):
        depth += {"{": 1, "}": -1}.get(text[at], 0)
        if depth == 0:
            return text[start:at + 1]
    return text[start:]


def read_code(crate, path):
    """The types, traits and constants of a file of src/, each with what contracts see of it."""
    name = ".".join(path.relative_to(TOP / "crates" / crate / "src").with_suffix("").parts)
    module, full = Module(crate, name, path), path.read_text()
    text = strip_code(full)
    add_uses(module, text, "ghost ")
    for use in re.findall(r"^(?:pub )?use ([^;]+);", text, re.M):
        parts = use.split("::", 1)
        for word in re.findall(r"\b([A-Z]\w*)\b", use):
            owner = crate if parts[0] in ("crate", "super", "self") or (TOP / "crates" / crate / "src" / f"{parts[0]}.rt").exists() else parts[0]
            if (TOP / "crates" / owner).is_dir():
                module.names.setdefault(word, (("type", owner, word), word))
    for found in re.finditer(r"^pub (struct|enum|trait|const|type) (\w+)", text, re.M):
        item = Item(crate, name, found[2], found[1])
        body = block_at(text, found.start())
        model = re.search(rf"^impl[^\n]* Model for {found[2]}\b", text, re.M)
        if model:
            view = block_at(text, model.start())
            uses = " ".join(line for line in view.splitlines() if "ghost Value" in line)
            body = body.split("{")[0] + uses
        before = full[:re.search(rf"^pub {found[1]} {found[2]}\b", full, re.M).start()].rstrip().splitlines()
        while before and before[-1].startswith("#["):
            before.pop()
        while before and before[-1].startswith("///"):
            item.comment.insert(0, before.pop()[3:].strip())
        item.text = [line for line in body.splitlines() if line.strip()]
        module.items[item.name] = item
    return module


class House:
    """All of the repository's definitions and types."""

    def __init__(self):
        self.storeys = crates_by_storey()
        self.specs, self.code, self.types, self.passed = {}, {}, {}, {}
        for crate in self.storeys:
            for path in sorted((TOP / "crates" / crate / "specs").rglob("*.antt")):
                if path.name != "Lib.antt":
                    module = read_spec(crate, path)
                    self.specs[crate, module.name] = module
                    continue
                for passed in re.findall(r"^pub use ([\w.]+)$", path.read_text(), re.M):
                    source = source_of(passed.split("."))
                    if source[0] == "spec":
                        self.passed[crate, source[2].split(".")[-1]] = source[1:]
            for path in sorted((TOP / "crates" / crate / "src").rglob("*.rt")):
                module = read_code(crate, path)
                self.code[crate, module.name] = module
                for item in module.items.values():
                    self.types[crate, item.name] = item
        for module in [*self.specs.values(), *self.code.values()]:
            for item in module.items.values():
                text = "\n".join(item.text + getattr(item, "outer", []))
                item.cites, item.std = self.cited(module, text, item)

    def resolve(self, source, name):
        if source[0] == "spec":
            module = self.specs.get(self.passed.get(source[1:], source[1:]))
            if module and name not in module.items and name in module.names:
                return self.resolve(*module.names[name])
            return module.items.get(name) if module else None
        if source[0] in ("type", "const"):
            return self.types.get((source[1], source[2] if source[0] == "type" else name))
        return None

    def cited(self, module, text, own=None):
        """The items that a text of a module names, and the words of the library."""
        items, std = set(), set()
        for head, tail in re.findall(rf"(?<![\w.'])({NAME})((?:\.{NAME})*)", text):
            item = None
            if head == "Rattle":
                path = (head + tail).split(".")
                item = self.resolve(source_of(path[:-1]), path[-1])
            elif head in module.aliases:
                source = module.aliases[head]
                item = self.resolve(source, tail.split(".")[1] if tail and source[0] == "spec" else "")
            elif head in module.names:
                source, name = module.names[head]
                item = self.resolve(source, name)
                if source[0] == "std":
                    std.add(name)
            elif head in module.items:
                item = module.items[head]
            else:
                found = [self.resolve(source, head) for source in module.opened if source[0] == "spec"]
                item = next((it for it in found if it), None)
            if item is not None and item is not own:
                items.add(item)
        for word, (source, name) in module.names.items():
            if source[0] == "std" and "◌" in word and any(part in text for part in word.split("◌") if part):
                std.add(word)
        return items, std

    def reached(self, roots):
        seen, todo = set(), list(roots)
        while todo:
            item = todo.pop()
            if item not in seen:
                seen.add(item)
                todo += item.cites
        return seen

    def clauses(self, module, call):
        """The signature and the clauses of a call, and its clauses by name."""
        text = strip_code(module.path.read_text())
        start = re.search(rf"^pub fn {call}\b", text, re.M).start()
        head = text[start:text.index("\n{\n", start)]
        parts = re.split(r"\n    (?=requires|ensures)", head)
        named = [(re.match(r"(?:requires|ensures) ?(\w*) ?\{", part), part) for part in parts[1:]]
        return head, [(found[1] if found else "", part) for found, part in named]


def sentence(words, width):
    """The first sentence of a comment, on one line."""
    text = " ".join(words).strip()
    text = re.split(r"(?<=[a-z0-9)`])\. ", text)[0].rstrip(".:")
    return textwrap.shorten(text, width, placeholder=" ..") if text else ""


def order_of(house, items):
    """The spec modules of the items, each after those that it cites, by crates from the lowest."""
    needs = defaultdict(set)
    for item in items:
        if item.kind == "definition":
            key = item.crate, item.module
            needs[key] |= {(it.crate, it.module) for it in item.cites if it.kind == "definition" and (it.crate, it.module) != key}
    place = {crate: at for at, crate in enumerate(house.storeys)}
    ordered, done = [], set()

    def visit(key, path=()):
        if key in done or key in path:
            return
        for below in sorted(needs[key], key=lambda it: (place[it[0]], it[1])):
            if below[0] == key[0]:
                visit(below, path + (key,))
        done.add(key)
        ordered.append(key)

    for key in sorted(list(needs), key=lambda it: (place[it[0]], it[1])):
        visit(key)
    return sorted(ordered, key=lambda it: place[it[0]])


def lines_of(item):
    return sum(1 for line in item.text if line.strip())


def in_order(module, items):
    """The items of a module among some, in the file's order."""
    return [item for item in module.items.values() if item in items]


def wrapped(words, rest=""):
    return textwrap.fill(words, 118, subsequent_indent=rest, break_long_words=False, break_on_hyphens=False)


class Claim:
    """What the top call's clauses stand on, and in which chapter each definition is."""

    def __init__(self, house):
        self.house = house
        self.root = house.code[ROOT_CRATE, ROOT_FILE]
        self.head, self.clauses = house.clauses(self.root, ROOT_CALL)
        roots, self.std = house.cited(self.root, self.head)
        self.items = house.reached(roots)
        for item in self.items:
            self.std |= item.std
        self.definitions = [item for item in self.items if item.kind == "definition"]
        self.types = [item for item in self.items if item.kind != "definition"]
        self.modules = order_of(house, self.items)
        whole, parts = without(house, []), {part: without(house, [part]) for part in PARTS}
        part_of = {item: f"part:{part}" for part in PARTS for item in whole - parts[part]}
        place = {word: chapter[0] for chapter in CHAPTERS for word in (chapter[4].split() if ":" not in chapter[4] else [chapter[4]])}
        self.chapter = {}
        for it in self.definitions:
            names = [part_of.get(it), f"{it.crate}/{it.module}.{it.name}", f"{it.crate}/{it.module}"]
            self.chapter[it] = next((place[name] for name in names if name in place), OTHER[0])

    def of(self, chapter):
        """The definitions of a chapter, file by file in the order of CHAPTERS."""
        files = [word.split(".")[0] for word in chapter[4].split()]
        keys = sorted(self.modules, key=lambda key: files.index("/".join(key)) if "/".join(key) in files else len(files))
        found = [(key, [it for it in in_order(self.house.specs[key], self.items) if self.chapter.get(it) == chapter[0]]) for key in keys]
        return [(key, items) for key, items in found if items]


def count_of(definitions):
    return len(definitions), sum(map(lines_of, definitions))


def shown(item, chapter):
    """A definition with its comment, as the page shows it: without the words that say how proofs see it. Lines that are told in another chapter
    are left out, and that chapter is named."""
    units, fields = units_of(item)
    kept, left = units[:1], []
    for unit in units[1:]:
        found = [name for name in lines_told() if is_named(unit, fields, name)]
        if not found or chapter in found or len(units) == 2:
            kept.append(unit)
        else:
            left += [name for name in found if name not in left]
    lines = [line for unit in kept for line in unit]
    indent = len(lines[0]) - len(lines[0].lstrip())
    lines = [re.sub(r"^( *)(?:(?:abbrev|unfoldable|pub) )+", r"\1", line[indent:]) for line in lines]
    return [f"-- {line}" for line in item.comment] + lines + ([f"-- .. {', '.join(left)}"] if left else [])


def told_lines(item, chapter):
    """The lines of a definition of another chapter that are told in this one."""
    units, fields = units_of(item)
    found = [unit for unit in units[1:] if is_named(unit, fields, chapter) and len(units) > 2]
    return [re.sub(r"^( *)pub ", r"\1", line) for unit in found for line in unit]


def lines_told():
    """The chapters that lines of other chapters belong to, each with the words of these lines."""
    parts = {chapter[0]: PARTS[chapter[4][5:]] for chapter in CHAPTERS if chapter[4].startswith("part:")}
    return {**parts, **LINES}


def is_named(unit, fields, chapter):
    text = "\n".join(unit)
    if fields and chapter in LINES:
        return False
    return bool(any_of(lines_told()[chapter]).search(text if fields else re.split(r" =\s", text)[0]))


def any_of(words, before=r"\w"):
    """Finds any of these words, behind none of these characters; not what names a file, a definition of a file or a clause."""
    words = [word for word in words.split() if "/" not in word and ":" not in word]
    return re.compile(rf"(?<![{before}])(?:" + "|".join(map(re.escape, words)) + r")(?![\w'-])|(?!)")


def kept_of(claim, definitions):
    """What contracts see of the types that definitions cite, one a line."""
    found = sorted({it for item in definitions for it in item.cites if it.kind in ("struct", "enum")}, key=lambda it: it.name)
    rows = []
    for item in found:
        text = re.sub(r"\s+", " ", " ".join(item.text)).replace("pub ", "")
        text = re.sub(r": [ui](?:8|16|32|64)\b|: usize", "", text).replace(", }", " }")
        value = re.search(r"ghost Value = \{(.*?)\}", text) or re.search(r"ghost Value[^{]*\{(.*)\}", text)
        body = re.search(r"\{(.*)\}", text)
        if value:
            rows.append((item, f"{item.name} = {value[1].strip()}"))
        elif body:
            inside = body[1].strip().rstrip(",")
            rows.append((item, f"{item.name} {{ {inside} }}" if item.kind == "struct" else f"{item.name} = {inside}"))
    return rows


def further(claim, found, chapter, told):
    """The words of other chapters that the text of a chapter has, but for those that the page has before."""
    words = defaultdict(set)
    for key, items in found:
        for item in items:
            cites = claim.house.cited(claim.house.specs[key], "\n".join(shown(item, chapter) + item.outer), item)[0]
            for it in cites - told:
                if it in claim.chapter and claim.chapter[it] != chapter:
                    words[claim.chapter[it]].add(it.name)
    order = [one[0] for one in CHAPTERS]
    return [f"{', '.join(f'`{word}`' for word in sorted(words[name]))} ({name})" for name in sorted(words, key=order.index)]


def chapter_text(claim, chapter, level, seen):
    """The text of a chapter; `seen` has the types and the definitions that the page has told before."""
    name, _, heading, words, _ = chapter
    found = claim.of(chapter)
    count = count_of([it for _, items in found for it in items])
    out = [f"{'#' * level} {heading}", "", wrapped(f"{words} {count[0]} definitions, {count[1]} lines.".strip()), ""]
    rows = [row for row in kept_of(claim, [it for _, items in found for it in items]) if row[0] not in seen]
    seen |= {row[0] for row in rows}
    if rows:
        out += ["```", *[line for _, row in rows for line in textwrap.wrap(row, 118, subsequent_indent="    ")], "```", ""]
    for key, items in found:
        out += ["```", f"-- {key[0]}/specs/{key[1].replace('.', '/')}"]
        for item in items:
            out += ["", *shown(item, name)]
        out += ["```", ""]
    if words := further(claim, found, name, seen):
        out += [wrapped(f"Words of other chapters: {'; '.join(words)}."), ""]
    seen |= {it for _, items in found for it in items}
    if name in lines_told() and not chapter[1]:
        rows = [(item, told_lines(item, name)) for item in claim.definitions if claim.chapter[item] != name]
        out += ["```", "-- lines of other definitions"]
        for item, lines in sorted(rows, key=lambda it: it[0].name):
            out += ["", f"-- {item.crate}/specs/{item.module.replace('.', '/')}, {item.name}", *lines] if lines else []
        out += ["```", ""]
    return out


def page(house):
    claim = Claim(house)
    everything = [item for module in house.specs.values() for item in module.items.values()]
    parts = [chapter for chapter in [*CHAPTERS, OTHER] if claim.of(chapter)]
    text = {chapter[0] for chapter in parts if chapter[1]}
    out = ["# The claim: what has to be believed", ""]
    out += [wrapped(f"`{ROOT_CALL}` of `crates/{ROOT_CRATE}/src/{ROOT_FILE}.rt` promises all that the program does. Its clauses are proved. What is left to "
                    "believe is that they say what was meant: they, and the definitions that their words stand for. This page has the definitions "
                    "for plays with paths, core first. It has no proof and no code."), ""]
    out += [wrapped("`tools/claim.py` writes the page from the files; do not edit it. The words `abbrev`, `unfoldable` and `pub` are left out. "
                    "A line `-- .. jumps` says which lines of a definition stand in another chapter; behind a chapter stand the words that it "
                    "takes from others."), ""]
    all_rows = count_of(claim.definitions)
    out += ["| Chapter | on this page | definitions | lines |", "|---|---|---|---|"]
    for chapter in parts:
        count = count_of([it for _, items in claim.of(chapter) for it in items])
        where = "yes" if chapter[1] else f"`tools/claim.py --read {chapter[0]}`" + (", or [FORMATS](FORMATS.md)" if chapter[0] == "texts" else "")
        out.append(f"| {chapter[2]} | {where} | {count[0]} | {count[1]} |")
    shown_rows = count_of([it for it in claim.definitions if claim.chapter[it] in text])
    out += [f"| all of the claim | {shown_rows[0]} definitions | {all_rows[0]} | {all_rows[1]} |",
            f"| all of `specs/` | | {len(everything)} | {sum(map(lines_of, everything))} |", ""]
    out += [wrapped(f"Beside these the claim has {len(claim.types)} types, traits and constants of the code, and {len(claim.std)} words of the "
                    "toolchain's library. "
                    "A chapter begins with the types that it needs, as contracts see them; a part without a type is a number."), ""]
    out += ["## The clauses", "", wrapped(f"Of each clause of `{ROOT_CALL}` the words that this repository defines, and how many definitions stand behind them. "
            "From `ok`, a field of `TellsWhatWasDone`, the way leads over `HasDone`, `IsTextDue`, `IsRunText` and `IsTextOf` (`--read program`) "
            "to `IsPlayText`."), ""]
    rows = []
    for name, words in claim.clauses:
        cited = sorted({it.name for it in house.cited(claim.root, words)[0] if it.kind == "definition"})
        behind = [it for it in house.reached(house.cited(claim.root, words)[0]) if it.kind == "definition"]
        rows.append(f"`{name}`: " + (", ".join(f"`{word}`" for word in cited) or "words of the library alone") + f" ({len(behind)})")
    out += [wrapped("; ".join(rows) + "."), ""]
    seen = set()
    for chapter in CHAPTERS:
        if chapter[1]:
            out += chapter_text(claim, chapter, 2, seen)
    return "\n".join(out)


def rest(house):
    """The files of definitions that the claim does not need, and whom they serve."""
    kinds, modules = house_uses(house), set(Claim(house).modules)
    for (crate, name), module in house.specs.items():
        if (crate, name) not in modules and module.items:
            serves = min((kinds.get(item, "nothing") for item in module.items.values()), key=ORDER.index)
            print(f"{crate}/specs/{name.replace('.', '/')}  {serves}  {sentence(module.head, 84)}")


def units_of(item):
    """A definition's text in parts that can fall alone: its head, and each equation, field or variant behind it."""
    text = [line for line in item.text if line.strip()]
    base = len(text[0]) - len(text[0].lstrip())
    fields = bool(re.match(r" *(?:pub )?(?:record|data) ", text[0]))
    units = [text[:1]]
    for line in text[1:]:
        if len(line) - len(line.lstrip()) == base + 2 * fields and not line.lstrip().startswith("}"):
            units.append([line])
        else:
            units[-1].append(line)
    return units, fields


def without(house, parts):
    """The definitions that the claim would have if these parts were not there: their definitions fall, with each equation for a constructor of
    theirs, each field or variant that names something of theirs, and all that nothing else names."""
    words = {word for part in parts for word in PARTS[part].split()}
    gone = {item for module in house.specs.values() for item in module.items.values()
            if words & {item.name, f"{item.crate}/{item.module}", f"{item.crate}/{item.module}.{item.name}"}}
    named = [any_of(PARTS[part], r"\w.") for part in parts]
    root = house.code[ROOT_CRATE, ROOT_FILE]
    head, clauses = house.clauses(root, ROOT_CALL)
    texts = [head[:head.index(clauses[0][1])]] + [text for _, text in clauses]
    todo = [item for text in texts for item in house.cited(root, text)[0]]
    seen = set()
    while todo:
        item = todo.pop()
        if item in seen or item in gone:
            continue
        seen.add(item)
        cites = item.cites
        if item.kind == "definition" and words:
            units, fields = units_of(item)
            units = units[:1] + [it for it in units[1:] for text in ["\n".join(it) if fields else re.split(r" =\s", "\n".join(it))[0]]
                                 if not any(names.search(text) for names in named)]
            cites = house.cited(house.specs[item.crate, item.module], "\n".join([line for unit in units for line in unit] + item.outer), item)[0]
        todo += cites
    return {item for item in seen if item.kind == "definition"}


ORDER = ["calls", "inside", "tests", "proofs", "nothing"]


def exported(house, crate):
    """The names that a crate's root hands out, and the modules that it opens whole."""
    path = next((it for it in (TOP / "crates" / crate / "src" / "lib.rt", TOP / "crates" / crate / "src" / "main.rt") if it.exists()), None)
    text = strip_code(path.read_text()) if path else ""
    names = set(re.findall(r"\w+", " ".join(re.findall(r"^pub use ([^;]+);", text, re.M))))
    return names, set(re.findall(r"^pub mod (\w+)", text, re.M)), path


def house_uses(house):
    """For each definition the nearest of ORDER that needs it."""
    roots = {kind: set() for kind in ORDER}
    for (crate, name), module in house.code.items():
        names, opened, lib = exported(house, crate)
        text = strip_code(module.path.read_text())
        product = not crate.startswith(("tests_", "bench_"))
        pieces = re.split(r"\n(?=impl|pub |fn |struct |enum |trait |#\[)", text)
        for piece in pieces:
            subject = re.match(r"(?:impl(?:<[^{]*?>)? (?:[\w:<>', ]+ for )?(\w+)|pub (?:struct|enum|trait|fn|const) (\w+))", piece)
            word = subject and (subject[1] or subject[2])
            public = word is not None and (word in names or name in opened or module.path == lib)
            for part in re.split(r"\n    (?=pub fn|fn|ghost invariant|ghost view)", piece):
                inside = re.match(r"fn |ghost (invariant|view)", part) and " for " not in piece.split("{")[0]
                inside = inside or re.match(r"ghost (invariant|view)", part)
                kind = "tests" if not product else "calls" if public and not inside else "inside"
                roots[kind] |= house.cited(module, part)[0]
    for path in (TOP / "crates").rglob("proofs/**/*.antt"):
        text = path.read_text()
        proof = Module(path.relative_to(TOP / "crates").parts[0], "", path)
        add_uses(proof, text, "")
        body = re.sub(r"^use .*$", "", text, flags=re.M)
        roots["proofs"] |= house.cited(proof, body)[0]
    kinds = {}
    for kind in ORDER:
        for item in house.reached(roots[kind]):
            kinds.setdefault(item, kind)
    return kinds


def unused(house):
    kinds = house_uses(house)
    for kind in ("proofs", "tests", "nothing"):
        found = [item for module in house.specs.values() for item in module.items.values() if kinds.get(item, "nothing") == kind]
        print(f"{kind}: {len(found)} definitions, {sum(map(lines_of, found))} lines")
        for item in found:
            print(f"  {item.crate}/specs/{item.module.replace('.', '/')}: {item.name}")


def behind(house, name):
    """What has to be believed for one definition."""
    roots = [item for module in house.specs.values() for item in module.items.values() if item.name == name]
    items = house.reached(roots)
    definitions = [item for item in items if item.kind == "definition"]
    for key in order_of(house, items):
        for item in in_order(house.specs[key], items):
            print(f"{item.crate}/specs/{item.module.replace('.', '/')}  {item.name}: {sentence(item.comment, 100) or 'the same comment, above'}")
    print(f"{len(definitions)} definitions, {sum(map(lines_of, definitions))} lines, and the types " + ", ".join(sorted(it.name for it in items if it.kind != "definition")))


def calls(house):
    """Each public call with the names of its conditions and its promises; a clause without a name is told as `_`."""
    for (crate, name), module in house.code.items():
        if crate.startswith(("tests_", "bench_")):
            continue
        names, opened, lib = exported(house, crate)
        text = strip_code(module.path.read_text())
        if module.path == lib:
            names = names | set(re.findall(r"^pub (?:struct|enum|trait|fn) (\w+)", text, re.M))
        for piece in re.split(r"\n(?=impl|pub |fn |struct |enum |trait |#\[|const |static )", text):
            owner = re.match(r"(?:impl(?:<[^{]*?>)? (?:[\w:<>', ]+ for )?|pub trait )(\w+)", piece)
            for call in re.finditer(r"^( *)(pub )?fn (\w+)(.*?)(?:\n\1\{|\n\1\}|;\n)", piece + "\n}", re.M | re.S):
                word = owner[1] if owner else call[3]
                trait = owner and (" for " in piece.split("{")[0] or piece.startswith("pub trait"))
                if (call[2] or trait) and (word in names or name in opened or module.path == lib):
                    ways = [",".join(found or "_" for found in re.findall(rf"{kind} (\w*) ?\{{", call[4])) for kind in ("requires", "ensures")]
                    print(f"{crate} {owner[1] + '::' if owner else ''}{call[3]} requires {ways[0] or '-'} ensures {ways[1] or '-'}")


def main():
    house = House()
    if "--of" in sys.argv[:-1]:
        behind(house, sys.argv[sys.argv.index("--of") + 1])
        return 0
    if "--calls" in sys.argv:
        calls(house)
        return 0
    if "--unused" in sys.argv:
        unused(house)
        return 0
    if "--rest" in sys.argv:
        rest(house)
        return 0
    if "--read" in sys.argv and sys.argv[-1] != "play":
        chapter = next((it for it in [*CHAPTERS, OTHER] if it[0] == sys.argv[-1]), None)
        if chapter is None:
            print("chapters: play (the page) " + " ".join(it[0] for it in CHAPTERS))
            return 1
        print("\n".join(chapter_text(Claim(house), chapter, 1, set())))
        return 0
    text = page(house)
    if "--check" in sys.argv:
        same = PAGE.exists() and PAGE.read_text() == text
        print("docs/CLAIM.md is what the files say" if same else "docs/CLAIM.md is stale: run tools/claim.py")
        return 0 if same else 1
    PAGE.write_text(text)
    print(next(line for line in text.splitlines() if line.startswith("| all of the claim")), f"{len(text.encode())} bytes")
    return 0


if __name__ == "__main__":
    try:
        sys.exit(main())
    except BrokenPipeError:
        sys.stderr.close()
