#!/usr/bin/env python3
"""Tests of tools/header.py: the places agree, and one thing that is changed in a copy of one of them is found and told in a line.

usage: python3 tools/tests/test_header.py
"""
import os
import shutil
import subprocess
import sys
import tempfile
import unittest
from pathlib import Path

TOP = Path(__file__).resolve().parent.parent.parent
TOOL = TOP / "tools" / "header.py"
sys.path.insert(0, str(TOOL.parent))
sys.dont_write_bytecode = True
import header

SOURCES = [path for folder in header.LIBRARY for path in sorted((TOP / folder).glob("*.rt"))]
FILES = [*header.WORLD_HOSTS, header.WORLD, header.HEADER, header.RUST, header.PYTHON, header.CSHARP, header.CPP, header.VERSION, *(str(path.relative_to(TOP)) for path in SOURCES)]
PLACES = {"header": "include/", "library": "crates/", "rust": "hosts/rust/", "python": "hosts/python/", "csharp": "hosts/csharp/",
          "cpp": "hosts/cpp/", "file": "VERSION"}

# The place, what stands there, what is put in its stead, and what is told of it.
ROWS = [
    # the order of fields
    ("header", "uint32_t tile, index;", "uint32_t index, tile;", "field 1 of polygon is tile: u32, the header has index: u32"),
    ("header", "    navd_point left, right;\n} navd_link;", "    navd_point right, left;\n} navd_link;",
     "field 4 of link is left: point, the header has right: point"),
    ("library", "    pub tile: u32,\n    pub index: u32,", "    pub index: u32,\n    pub tile: u32,",
     "field 1 of polygon is index: u32, the header has tile: u32"),
    ("library", "    pub third: NavdCorner,\n    pub fourth", "    pub fourth: NavdCorner,\n    pub third",
     "the fields of face are 9, in the header 5"),
    ("library", "    at: *mut u8,\n    full: u32,", "    full: u32,\n    at: *mut u8,",
     "field 1 of level is full: u32, the header has at: pointer"),
    ("rust", "    pub num: i64,\n    pub den: i64,", "    pub den: i64,\n    pub num: i64,",
     "field 4 of ray is den: i64, the header has num: i64"),
    ("python", '("tile", c_uint32), ("index", c_uint32)', '("index", c_uint32), ("tile", c_uint32)',
     "field 1 of polygon is index: u32, the header has tile: u32"),
    # the types of fields
    ("header", "uint64_t cost;\n    navd_polygon first;\n    size_t links", "uint32_t cost;\n    navd_polygon first;\n    size_t links",
     "field 1 of path is cost: u64, the header has cost: u32"),
    ("header", "navd_corner corner[6];", "navd_corner corner[5];", "is corner: [corner; 6], the header has corner: [corner; 5]"),
    ("library", "pub cost: u64,\n    pub first: NavdPolygon,\n    pub links", "pub cost: i64,\n    pub first: NavdPolygon,\n    pub links",
     "field 1 of path is cost: i64, the header has cost: u64"),
    ("rust", "pub corner: [Corner; 6],", "pub corner: [Corner; 7],",
     "field 2 of face is corner: [corner; 7], the header has corner: [corner; 6]"),
    ("python", '("links", c_size_t), ("turns", c_size_t)', '("links", c_uint64), ("turns", c_size_t)',
     "field 3 of path is links: u64, the header has links: usize"),
    # structs
    ("header", "} navd_shown;", "} navd_seen;", "the struct seen is missing"),
    ("library", "#[repr(C)]\n#[derive(Clone, Copy)]\npub struct NavdRay", "#[derive(Clone, Copy)]\npub struct NavdRay",
     "the struct ray is missing"),
    ("rust", "pub struct Floor {", "pub struct Storey {", "the struct storey is not in the header"),
    ("python", "class _Turn(Structure)", "class _Turned(Structure)", "name '_Turn' is not defined"),
    # numbers
    ("header", "#define NAVD_WALL 13u", "#define NAVD_WALL 12u", "WALL is 13, the header has 12"),
    ("library", "pub const WALL: u32 = 13;", "pub const WALL: u32 = 12;", "WALL is 12, the header has 13"),
    ("rust", "pub const BUSY: u32 = 17;", "", "the number BUSY is missing"),
    ("python", "NO_START, NO_GOAL, NO_PATH, WALL, NO_ROOM, \\", "NO_START, NO_GOAL, WALL, NO_PATH, NO_ROOM, \\",
     "NO_PATH is 13, the header has 12"),
    # the version
    ("header", "#define NAVD_VERSION 100u", "#define NAVD_VERSION 101u", "VERSION is 100, the header has 101"),
    ("file", "0.1.0", "0.2.0", "VERSION: the version is 200, the header has 100"),
    ("library", "pub const VERSION: u32 = 100;", "pub const VERSION: u32 = 99;", "VERSION is 99, the header has 100"),
    ("csharp", "public const uint Wanted = 100;", "public const uint Wanted = 99;", "VERSION is 99, the header has 100"),
    ("cpp", "navd_version() == NAVD_VERSION", "navd_version() == 100", "the number VERSION is missing"),
    # parameters
    ("header", "uint32_t navd_floors(navd_level *level, uint32_t x, uint32_t z,",
     "uint32_t navd_floors(navd_level *level, uint32_t z, uint32_t x,", "parameter 2 of navd_floors is x: u32, the header has z: u32"),
    ("header", "navd_cast_ray(navd_level *level, const navd_way *way,", "navd_cast_ray(navd_level *level, navd_way *way,",
     "parameter 2 of navd_cast_ray is way: *const way, the header has way: *mut way"),
    ("header", "navd_open(navd_level *level, const uint8_t *text, size_t length,",
     "navd_open(navd_level *level, const uint8_t *text, uint32_t length,", "parameter 3 of navd_open is _: usize, the header has length: u32"),
    ("library", "navd_build(alloc: Global, job: &mut NavdJob)", "navd_build(alloc: Global, job: &mut NavdView)",
     "parameter 1 of navd_build is job: *mut view, the header has job: *mut job"),
    ("library", "    jumps: &[NavdJump],\n    steps: &mut [NavdStep],", "    steps: &mut [NavdStep],\n    jumps: &[NavdJump],",
     "parameter 3 of navd_find_hop is steps: *mut step, the header has jumps: *const jump"),
    ("library", "    level: &mut NavdLevel,\n    block: &NavdBlock,", "    level: &mut NavdLevel,\n    block: &mut NavdBlock,",
     "parameter 2 of navd_add_block is block: *mut block, the header has block: *const block"),
    ("rust", "navd_claim(level: *mut Handle, job: *mut Handle,", "navd_claim(job: *mut Handle, level: *mut Handle,",
     "parameter 1 of navd_claim is job: *mut handle, the header has level: *mut handle"),
    ("rust", "navd_count(level: *mut Handle, counts: *mut Counts)", "navd_count(level: *mut Handle)",
     "the parameters of navd_count are 1, in the header 2"),
    ("python", '"navd_cast_ray": [handle, POINTER(_Way), POINTER(_Ray)]', '"navd_cast_ray": [handle, POINTER(_Ray), POINTER(_Way)]',
     "parameter 2 of navd_cast_ray is _: * ray, the header has way: * way"),
    # calls and what they give back
    ("header", "uint32_t navd_put_back_all(navd_level *level);", "", "the call navd_put_back_all is not in the header"),
    ("header", "void navd_view_close(", "uint32_t navd_view_close(", "the result of navd_view_close is nothing, the header has u32"),
    ("library", '#[unsafe(no_mangle)]\npub extern "C" fn navd_prepare(', "fn navd_prepare(", "the call navd_prepare is missing"),
    ("rust", "    pub fn navd_look(view: *mut Handle, level: *mut Handle, published: *mut u32) -> u32;\n", "",
     "the call navd_look is missing"),
    ("rust", "navd_build(job: *mut Handle) -> u32;", "navd_build(job: *mut Handle);",
     "the result of navd_build is nothing, the header has u32"),
    ("python", '        "navd_remove": [handle, c_uint32, number],\n', "", "the call navd_remove is missing"),
    ("python", "found.navd_close, found.navd_view_close,", "found.navd_close,", "the call navd_view_close is missing"),
    # what has another form
    ("header", "#define NAVD_BUSY 17u", "#define NAVD_BUSY (16u + 1u)", "of 28 places like"),
    ("library", "#[repr(C)]\n#[derive(Clone, Copy)]\npub struct NavdRay", "#[repr(C, packed)]\n#[derive(Clone, Copy)]\npub struct NavdRay",
     "of 60 places like"),
    # C#: each kind of difference once more
    ("csharp", "public uint Tile, Index;", "public uint Index, Tile;", "field 1 of polygon is index: u32, the header has tile: u32"),
    ("csharp", "internal UIntPtr Links, Turns;", "internal ulong Links, Turns;",
     "field 3 of path is links: u64, the header has links: usize"),
    ("csharp", "Corner First, Second, Third, Fourth, Fifth, Sixth;", "Corner First, Second, Third, Fourth, Fifth;",
     "field 2 of face is corner: [corner; 5], the header has corner: [corner; 6]"),
    ("csharp", "internal struct NavdHop", "internal struct NavdWalk", "the struct walk is not in the header"),
    ("csharp", "    [StructLayout(LayoutKind.Sequential)]\n    public struct Ray", "    public struct Ray", "of 56 places like"),
    ("csharp", "Wall = 13,", "Wall = 12,", "WALL is 12, the header has 13"),
    ("csharp", "        Busy = 17,\n", "", "the number BUSY is missing"),
    ("csharp", "navd_claim(LevelHandle level, JobHandle job,", "navd_claim(JobHandle job, LevelHandle level,",
     "parameter 1 of navd_claim is job: * handle, the header has level: * handle"),
    ("csharp", "navd_view_count(ViewHandle view, out", "navd_view_count(LevelHandle view, out",
     "parameter 1 of navd_view_count is view: level_handle, the header has view: * handle"),
    ("csharp", "navd_remove(LevelHandle level, uint number, out uint entry)", "navd_remove(LevelHandle level, uint number, uint entry)",
     "parameter 3 of navd_remove is entry: u32, the header has entry: * u32"),
    ("csharp", "extern Status navd_build(", "extern void navd_build(", "the result of navd_build is nothing, the header has u32"),
    ("csharp", "        [DllImport(Library)]\n        internal static extern Status navd_prepare(LevelHandle level);\n", "",
     "the call navd_prepare is missing"),
    ("csharp", "[DllImport(Library)]\n        internal static extern Status navd_aim",
     '[DllImport("other")]\n        internal static extern Status navd_aim', "of 105 places like"),
    # C++: its compiler compares the rest
    ("cpp", "navd_view_find_hop;", "navd_find_hop;", "the call navd_view_find_hop is missing"),
    ("cpp", "stale = NAVD_STALE, ", "", "the number STALE is missing"),
    # worlds: each host names all their calls
    ("header", "double navd_route_cost(", "double navd_route_length(",
     "hosts/rust/src/world_sys.rs: the call navd_route_cost is not in include/navd_world.h"),
    ("cpp", "navd_world_set_user(world.get(), id, user)", "NAVD_EMPTY", "hosts/cpp/navd_world.hpp: the call navd_world_set_user is missing"),
    ("csharp", "extern double navd_route_cost(", "extern double navd_route_costs(", "hosts/csharp/NavdWorld.cs: the call navd_route_cost is missing"),
    ("python", '("navd_world_remove", [held, c_uint64], c_uint32),', "", "hosts/python/navd_world.py: the call navd_world_remove is missing"),
    ("rust", "pub fn navd_world_mesh(", "pub fn navd_world_meshes(",
     "hosts/rust/src/world_sys.rs: the call navd_world_meshes is not in include/navd_world.h"),
]


def copied(folder):
    for name in FILES:
        path = Path(folder) / name
        path.parent.mkdir(parents=True, exist_ok=True)
        shutil.copyfile(TOP / name, path)


def told(folder):
    """The lines of the tool, run in this process."""
    try:
        return header.differences(Path(folder))[0]
    except (header.Unreadable, NameError) as error:
        return [str(error)]


class Comparing(unittest.TestCase):
    def setUp(self):
        self.folder = tempfile.mkdtemp()
        copied(self.folder)

    def tearDown(self):
        shutil.rmtree(self.folder)

    def run_tool(self, *words):
        return subprocess.run([sys.executable, "-B", TOOL, *words], capture_output=True, text=True)

    def change(self, place, old, new):
        """Changes the first such place; the file and what stood in it."""
        for name in FILES:
            path = Path(self.folder) / name
            text = path.read_text()
            if name.startswith(PLACES[place]) and old in text:
                path.write_text(text.replace(old, new, 1))
                return path, text
        self.fail(f"{place} has no `{old}`")

    def test_all_agree(self):
        ran = self.run_tool("--check")
        self.assertEqual((ran.returncode, ran.stderr), (0, ""), ran.stdout)
        self.assertRegex(ran.stdout, r"^the header, the library, .* alike: 105 calls .*, 60 structs .*, 27 status numbers and the version\n$")

    def test_each_change_is_told(self):
        for place, old, new, due in ROWS:
            with self.subTest(place=place, old=old):
                path, text = self.change(place, old, new)
                lines = told(self.folder)
                path.write_text(text)
                self.assertTrue(any(due in line for line in lines), lines)
        self.assertEqual(told(self.folder), [])

    def test_a_difference_ends_with_1(self):
        self.change("library", "pub const WALL: u32 = 13;", "pub const WALL: u32 = 12;")
        ran = self.run_tool("--check", self.folder)
        self.assertEqual((ran.returncode, ran.stdout, ran.stderr), (1, "the library: WALL is 12, the header has 13\n", ""))

    def test_wrong_words(self):
        for words in ((), ("--all",), ("--check", self.folder, "more")):
            self.assertEqual(self.run_tool(*words).returncode, 2)
        os.unlink(Path(self.folder) / header.RUST)
        ran = self.run_tool("--check", self.folder)
        self.assertEqual((ran.returncode, ran.stderr), (1, ""))
        self.assertIn("sys.rs", ran.stdout)


if __name__ == "__main__":
    unittest.main()
