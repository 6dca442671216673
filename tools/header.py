#!/usr/bin/env python3
"""Compares the five places that say how a host calls the library, which people write by hand: include/navd.h, the exports and #[repr(C)]
structs of the library (CRATES), hosts/rust/src/sys.rs, hosts/python/navd.py and hosts/csharp/Navd.cs. The linker compares names
alone. hosts/cpp/navd.hpp includes the header: of it each call and each status number is wanted, and its compiler compares the rest. Of the calls
of include/navd_world.h each of the four hosts names all; hosts/check.sh compares how their structs lie.

The header is the measure. Each of the others must have the same calls, with the same parameters in the same order, the same structs, field by
field, the same status numbers, and the same version, which the file VERSION has too. What a place cannot say is not asked of it:

  - a slice of the library is an address and a count, and the count has no name there; ghost fields and an allocator have no bytes
  - the library has no arrays in structs: fields called first, second and so on stand for one, which is called like its elements
  - the hosts have one struct for the five handles; Python has no names of parameters, C# no arrays in structs, and neither has const

usage: tools/header.py --check [FOLDER]    of the repository in FOLDER, or of this one; ends with 1, and a line for each difference
"""
import ctypes
import re
import sys
from collections import namedtuple
from pathlib import Path
from types import SimpleNamespace
from unittest import mock

HEADER, RUST, PYTHON = "include/navd.h", "hosts/rust/src/sys.rs", "hosts/python/navd.py"
CSHARP, CPP, VERSION = "hosts/csharp/Navd.cs", "hosts/cpp/navd.hpp", "VERSION"
WORLD = "include/navd_world.h"
# Where the hosts name its calls, and how.
WORLD_HOSTS = {"hosts/cpp/navd_world.hpp": r"\b(navd_(?:status|world|snapshot|route)_\w+)\(", "hosts/csharp/NavdWorld.cs": r"\bextern \w+ (navd_\w+)\(",
               "hosts/python/navd_world.py": r'"(navd_\w+)", \[', "hosts/rust/src/world_sys.rs": r"\bpub fn (navd_\w+)\("}
CRATES = ("nav_ffi", "nav_handle", "way_handle", "place_handle", "place_way_handle", "wall_handle", "line_handle", "crowd_handle", "registry_handle", "kinds_handle", "mesh_handle",
          "world_grid")
LIBRARY = tuple(f"crates/{name}/src" for name in CRATES)
C_TYPES = {"uint8_t": "u8", "uint32_t": "u32", "int32_t": "i32", "uint64_t": "u64", "int64_t": "i64", "size_t": "usize", "float": "f32",
           "void": "nothing"}
CSHARP_TYPES = {"byte": "u8", "uint": "u32", "int": "i32", "ulong": "u64", "long": "i64", "UIntPtr": "usize", "float": "f32", "IntPtr": "pointer",
                "void": "nothing", "Status": "u32"}
ORDINALS = ("first", "second", "third", "fourth", "fifth", "sixth", "seventh", "eighth", "")
HANDLES = ("level", "view", "job", "registry", "kinds")
# Numbers by name; fields by struct and parameters by call, each a name, or None where the place has none, and a type; what each call gives back.
Border = namedtuple("Border", "place numbers structs calls results")


class Unreadable(Exception):
    """Something that has another form than those which this tool knows."""


def plain(name):
    """The name of a type as all places have it: navd_step_taken, NavdStep, Step and _Step are one."""
    if name in C_TYPES.values():
        return name
    snake = re.sub(r"(?<=[a-z])(?=[A-Z])", "_", name).lower().strip("_")
    return {"step_taken": "step"}.get(snake.removeprefix("navd_"), snake.removeprefix("navd_"))


def found(place, text, loose, strict):
    """What a pattern finds; nothing that has the looser form may be left over."""
    matches = list(re.finditer(strict, text, re.M | re.S))
    count = len(re.findall(loose, text, re.M))
    if count != len(matches):
        raise Unreadable(f"{place}: of {count} places like `{loose}` only {len(matches)} can be read")
    return matches


def parts(place, text, separator, pattern):
    """The parts of a text between separators, each read by a pattern."""
    for part in filter(None, map(str.strip, text.split(separator))):
        match = re.fullmatch(pattern, part)
        if not match:
            raise Unreadable(f"{place}: `{part}` cannot be read")
        yield match


# == The header ==


def c_type(name, is_pointer=False, is_const=False):
    if is_pointer and name == "void":
        return "pointer"
    base = C_TYPES.get(name) or plain(name)
    return f"{'*const' if is_const else '*mut'} {base}" if is_pointer else base


def c_fields(text):
    """Fields by their declarations, of which one may declare several names."""
    for declared in parts(HEADER, text, ";", r"(\w+) (.*)"):
        for field in parts(HEADER, declared[2], ",", r"(\*?)(\w+)(?:\[(\d+)\])?"):
            base = c_type(declared[1], field[1])
            yield field[2], f"[{base}; {field[3]}]" if field[3] else base


def c_parameters(text):
    for word in parts(HEADER, re.sub(r"\s+", " ", "" if text == "void" else text), ",", r"(const )?(\w+) (\*?)(\w+)"):
        yield word[4], c_type(word[2], word[3], word[1])


def without_comments(path):
    return re.sub(r"/\*.*?\*/|//[^\n]*", "", path.read_text(), flags=re.S)


def of_header(top):
    text = without_comments(top / HEADER)
    numbers = found(HEADER, text, r"^#define NAVD_\w+[ (]", r"^#define NAVD_(\w+) (\d+)u\s*$")
    structs = found(HEADER, text, r"^typedef", r"^typedef struct \{(.*?)\} (\w+);")
    calls = found(HEADER, text, r"\bnavd_\w+ *\(", r"^(\w+) (navd_\w+)\(([^;{]*?)\);")
    return Border(
        HEADER,
        {one[1]: int(one[2]) for one in numbers},
        {plain(one[2]): list(c_fields(one[1])) for one in structs},
        {one[2]: list(c_parameters(one[3])) for one in calls},
        {one[2]: c_type(one[1]) for one in calls},
    )


# == The library and the host in Rust ==


def rust_type(text):
    if text == "*mut c_void":
        return "pointer"
    return re.sub(r"\b(?!mut\b|const\b)[A-Za-z_]\w*", lambda name: plain(name[0]), text)


def rust_structs(place, text):
    """The structs that are laid out as C does, without what has no bytes."""
    wanted = r"#\[repr\(C\)\]\s*(?:#\[derive\([^)]*\)\]\s*)?pub struct (\w+) \{(.*?)^\}"
    structs = {}
    for one in found(place, text, r"#\[repr\(", wanted):
        fields = parts(place, one[2], "\n", r"(?:pub(?:\(crate\))? )?(ghost )?(\w+): (.*?),?")
        told = [(field[2], "pointer" if field[3] == "*mut u8" else rust_type(field[3])) for field in fields if not field[1] and field[3] != "Global"]
        structs[plain(one[1])] = told
    return structs


def with_arrays(fields):
    """The fields, with an array in place of those that are called by ordinals."""
    told, place = [], 0
    while place < len(fields):
        base, count = fields[place][1], 0
        while fields[place + count : place + count + 1] == [(ORDINALS[count], base)]:
            count += 1
        told.append((base, f"[{base}; {count}]") if count > 1 else fields[place])
        place += max(1, count)
    return told


def lent(place, text):
    """The parameters of an export: a slice is an address and a count."""
    for word in parts(place, text, ",", r"(\w+): (&mut |&)?(\[)?(\w+)\]?"):
        if word[4] == "Global":
            continue
        star = {None: "", "&": "*const ", "&mut ": "*mut "}[word[2]]
        yield word[1], star + plain(word[4])
        if word[3]:
            yield None, "usize"


def of_library(top):
    place = "the library"
    files = [path for folder in LIBRARY for path in sorted((top / folder).glob("*.rt"))]
    text = "\n".join(re.sub(r"//[^\n]*", "", path.read_text()) for path in files)
    numbers = found(place, text, r"^pub const \w+: u32", r"^pub const (\w+): u32 = (\d+);")
    wanted = r'#\[unsafe\(no_mangle\)\]\s*pub extern "C" fn (\w+)\(([^)]*)\)(?: -> (\w+))?'
    calls = found(place, text, "no_mangle", wanted)
    return Border(
        place,
        {one[1]: int(one[2]) for one in numbers},
        {name: with_arrays(fields) for name, fields in rust_structs(place, text).items()},
        {one[1]: list(lent(place, one[2])) for one in calls},
        {one[1]: one[3] or "nothing" for one in calls},
    )


def of_rust(top):
    text = re.sub(r"//[^\n]*", "", (top / RUST).read_text())
    numbers = found(RUST, text, r"^pub const \w+: u32", r"^pub const (\w+): u32 = (\d+);")
    calls = found(RUST, text, r"\bfn ", r"\bpub fn (\w+)\(([^)]*)\)(?: -> (\w+))?;")
    words = {one[1]: parts(RUST, one[2], ",", r"(\w+): (.*)") for one in calls}
    return Border(
        RUST,
        {one[1]: int(one[2]) for one in numbers},
        rust_structs(RUST, text),
        {name: [(word[1], rust_type(word[2])) for word in told] for name, told in words.items()},
        {one[1]: one[3] or "nothing" for one in calls},
    )


# == The host in Python ==


class Size(ctypes.c_size_t):
    """A size_t that can be told from a uint64_t, which is the same type on some machines."""


class Library:
    """Stands in for the library: it keeps what the host declares of each call."""

    def __init__(self, _=None):
        self.declared = {}

    def __getattr__(self, name):
        return self.declared.setdefault(name, SimpleNamespace(argtypes=(), restype=Library))


def python_type(told):
    numbers = {Size: "usize", ctypes.c_char_p: "* u8", ctypes.c_void_p: "pointer", ctypes.c_float: "f32", None: "nothing"}
    for bits in (8, 32, 64):
        numbers |= {getattr(ctypes, f"c_uint{bits}"): f"u{bits}", getattr(ctypes, f"c_int{bits}"): f"i{bits}"}
    if told in numbers:
        return numbers[told]
    if issubclass(told, ctypes._Pointer):
        return "* " + python_type(told._type_)
    if issubclass(told, ctypes.Array):
        return f"[{python_type(told._type_)}; {told._length_}]"
    return plain(told.__name__)


def of_python(top):
    """What the host says once it was run: it is given a library that keeps what is declared of it."""
    names = {"__name__": "navd", "__file__": str(top / PYTHON)}
    library = Library()
    with mock.patch.object(ctypes, "CDLL", lambda _: library), mock.patch.object(ctypes, "c_size_t", Size):
        exec(compile((top / PYTHON).read_text(), str(top / PYTHON), "exec"), names)
        names["_library"]()
    structs = [one for one in names.values() if isinstance(one, type) and issubclass(one, ctypes.Structure) and one is not ctypes.Structure]
    return Border(
        PYTHON,
        {name: number for name, number in names.items() if name.isupper() and isinstance(number, int)},
        {plain(one.__name__): [(field[0].rstrip("_"), python_type(field[1])) for field in one._fields_] for one in structs},
        {name: [(None, python_type(word)) for word in call.argtypes] for name, call in library.declared.items()},
        {name: python_type(call.restype) for name, call in library.declared.items()},
    )


# == The host in C# ==


def snake(name):
    return re.sub(r"(?<=[a-z])(?=[A-Z])", "_", name).lower()


def csharp_type(name):
    return CSHARP_TYPES.get(name) or plain(name)


def csharp_fields(text):
    for declared in parts(CSHARP, text, ";", r"(?:public|internal) (\w+) (.*)"):
        for field in parts(CSHARP, declared[2], ",", r"\w+"):
            yield snake(field[0]), csharp_type(declared[1])


def csharp_parameters(text):
    """The parameters of a call. The owner of a handle stands for its address, and so does an IntPtr where that handle is closed."""
    for word in parts(CSHARP, re.sub(r"\s+", " ", text), ",", r"(?:(?:\[In\])?\[Out\] )?(ref |out )?(\w+)(\[\])? (\w+)"):
        base, name = csharp_type(word[2]), snake(word[4])
        owners = (f"{name}_handle", "pointer") if name in HANDLES else [f"{handle}_handle" for handle in HANDLES]
        is_handle = base in owners
        yield name, "* handle" if is_handle else f"* {base}" if word[1] or word[3] else base


def of_csharp(top):
    text = re.sub(r"//[^\n]*", "", (top / CSHARP).read_text())
    wanted = r"\[StructLayout\(LayoutKind\.Sequential\)\]\s*(?:public|internal) struct (\w+)\s*\{(.*?)\}"
    structs = found(CSHARP, text, r"\bstruct \w+\s*\{", wanted)
    statuses = found(CSHARP, text, r"\benum ", r"enum Status : uint\s*\{(.*?)\}")
    numbers = [one for told in statuses for one in parts(CSHARP, told[1], ",", r"(\w+) = (\d+)")]
    version = found(CSHARP, text, r"\bconst uint ", r"public const uint Wanted = (\d+);")
    calls = found(CSHARP, text, r"\bextern ", r"\[DllImport\(Library\)\]\s*internal static extern (\w+) (\w+)\(([^;{]*?)\);")
    return Border(
        CSHARP,
        {snake(one[1]).upper(): int(one[2]) for one in numbers} | {"VERSION": int(one[1]) for one in version},
        {plain(one[1]): with_arrays(list(csharp_fields(one[2]))) for one in structs},
        {one[2]: list(csharp_parameters(one[3])) for one in calls},
        {one[2]: csharp_type(one[1]) for one in calls},
    )


# == Comparing ==


def for_hosts(header, eased):
    """The header as a host sees it, which has one struct for all handles."""

    def typed(told):
        return eased(re.sub(rf"\b({'|'.join(HANDLES)})$", "handle", told))

    def all_typed(fields):
        return [(name, typed(told)) for name, told in fields]

    structs = {"handle" if name in HANDLES else name: all_typed(fields) for name, fields in header.structs.items()}
    return header._replace(structs=structs, calls={name: all_typed(words) for name, words in header.calls.items()})


def of_names(place, kind, ours, theirs):
    yield from (f"{place}: {kind} {name} is missing" for name in ours if name not in theirs)
    yield from (f"{place}: {kind} {name} is not in the header" for name in theirs if name not in ours)


def of_lists(place, kind, ours, theirs):
    """Lists of fields or of parameters, one by one, where both have them."""
    for name in ours:
        if name not in theirs:
            continue
        if len(ours[name]) != len(theirs[name]):
            yield f"{place}: the {kind}s of {name} are {len(theirs[name])}, in the header {len(ours[name])}"
            continue
        for number, ((our, our_type), (their, their_type)) in enumerate(zip(ours[name], theirs[name]), 1):
            if our_type != their_type or their not in (our, None):
                yield f"{place}: {kind} {number} of {name} is {their or '_'}: {their_type}, the header has {our}: {our_type}"


def of_values(place, kind, ours, theirs):
    for name, our in ours.items():
        if theirs.get(name, our) != our:
            yield f"{place}: {kind}{name} is {theirs[name]}, the header has {our}"


def compared(header, other):
    place = other.place
    yield from of_names(place, "the number", header.numbers, other.numbers)
    yield from of_values(place, "", header.numbers, other.numbers)
    yield from of_names(place, "the struct", header.structs, other.structs)
    yield from of_lists(place, "field", header.structs, other.structs)
    yield from of_names(place, "the call", header.calls, other.calls)
    yield from of_lists(place, "parameter", header.calls, other.calls)
    yield from of_values(place, "the result of ", header.results, other.results)


def of_cpp(top, header):
    """Calls and status numbers of the header that the host in C++ does not name."""
    words = set(re.findall(r"\w+", re.sub(r"//[^\n]*", "", (top / CPP).read_text())))
    yield from (f"{CPP}: the call {name} is missing" for name in header.calls if name not in words)
    yield from (f"{CPP}: the number {name} is missing" for name in header.numbers if f"NAVD_{name}" not in words)


def of_worlds(top):
    """Calls of the header of worlds that a host does not name, or names and are not there."""
    calls = {one[1] for one in found(WORLD, without_comments(top / WORLD), r"\bnavd_\w+ *\(", r"\b(navd_\w+)\(")}
    for host, form in WORLD_HOSTS.items():
        named = set(re.findall(form, re.sub(r"//[^\n]*", "", (top / host).read_text())))
        yield from (f"{host}: the call {name} is missing" for name in sorted(calls - named))
        yield from (f"{host}: the call {name} is not in {WORLD}" for name in sorted(named - calls))


def of_version(top, header):
    """The version of the header is that of the file, as one number."""
    major, minor, patch = (int(part) for part in (top / VERSION).read_text().split("."))
    number = major * 10000 + minor * 100 + patch
    if header.numbers.get("VERSION") != number:
        yield f"{VERSION}: the version is {number}, the header has {header.numbers.get('VERSION')}"


def differences(top):
    """A line for each difference, and what was compared."""
    header = of_header(top)
    lines = [*compared(header, of_library(top))]
    lines += compared(for_hosts(header, lambda told: told), of_rust(top))
    eased = for_hosts(header, lambda told: re.sub(r"\*(const|mut) ", "* ", told))
    lines += [*compared(eased, of_python(top)), *compared(eased, of_csharp(top)), *of_cpp(top, header), *of_worlds(top), *of_version(top, header)]
    words, fields = (sum(map(len, lists.values())) for lists in (header.calls, header.structs))
    said = f"{len(header.calls)} calls with {words} parameters, {len(header.structs)} structs with {fields} fields, "
    return lines, said + f"{len(header.numbers) - 1} status numbers and the version"


def main(words):
    if words[:1] != ["--check"] or len(words) > 2:
        print(__doc__.strip().splitlines()[-1], file=sys.stderr)
        return 2
    try:
        lines, said = differences(Path(words[1]) if len(words) == 2 else Path(__file__).resolve().parent.parent)
    except (Unreadable, OSError) as error:
        lines, said = [str(error)], ""
    print("\n".join(lines) or f"the header, the library, and the hosts in Rust, Python, C# and C++ are alike: {said}")
    return 1 if lines else 0


if __name__ == "__main__":
    sys.exit(main(sys.argv[1:]))
