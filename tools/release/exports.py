#!/usr/bin/env python3
"""What the release takes from include/navd.h and include/navd_world.h.

usage: tools/release/exports.py names      the calls of both, sorted
       tools/release/exports.py script     a version script that exports them and nothing else
       tools/release/exports.py stub       a C file with a body for each call, whose debug data has the types of the headers
       tools/release/exports.py exact      the same with the calls of navd.h alone
"""
import re
import sys
from pathlib import Path

TOP = Path(__file__).resolve().parents[2]
sys.dont_write_bytecode = True
sys.path.insert(0, str(TOP / "tools"))
import header  # noqa: E402  beside this folder

WORLD = "include/navd_world.h"
# Goes up with the number of the shared object.
NODE = "NAVD_0"


def declared(place):
    """The result, the name and the parameters of each call of a header."""
    text = re.sub(r"/\*.*?\*/", "", (TOP / place).read_text(), flags=re.S)
    return header.found(place, text, r"\bnavd_\w+ *\(", r"^((?:const )?\w+ \*?)(navd_\w+)\(([^;{]*?)\);")


def names():
    return sorted([*header.of_header(TOP).calls, *(call[2] for call in declared(WORLD))])


def script():
    return [NODE + " {", "    global:", *(f"        {name};" for name in names()), "    local:", "        *;", "};"]


def stub(places=(header.HEADER, WORLD)):
    """The declarations of the headers, each with a body in place of its end."""
    yield from (f'#include "{Path(place).name}"' for place in places)
    for call in (call for place in places for call in declared(place)):
        unused = "".join(f"(void){word}; " for word in re.findall(r"(\w+)(?:,|$)", call[3]) if word != "void")
        yield f"{call[0][:-1]} {{ {unused}{'return;' if call[1] == 'void ' else 'return 0;'} }}"


def exact():
    return stub((header.HEADER,))


def main(words):
    told = {"names": names, "script": script, "stub": stub, "exact": exact}
    if len(words) != 1 or words[0] not in told:
        print(__doc__.strip(), file=sys.stderr)
        return 2
    print("\n".join(told[words[0]]()))
    return 0


if __name__ == "__main__":
    sys.exit(main(sys.argv[1:]))
