"""What `play_check.py` makes of a level's text, for checks that ask the library: its names, with the functions that work a mesh out. Shapes that are
published there may be prisms and discs too, as `solids.py` has them."""
import io
import sys
from pathlib import Path
from unittest import mock

import solids

PROGRAM = Path(__file__).with_name("play_check.py")
CODE = compile(PROGRAM.read_text(), "play_check.py", "exec")


def names_of(text):
    """The names of the program after a play of a field text that asks for nothing."""
    files = {"in": text + "script 1 1\n", "out": "done 0 0\n"}
    names = {"__name__": "play_check", "__file__": str(PROGRAM), "open": lambda path: io.StringIO(files[path])}
    with mock.patch.object(sys, "argv", [str(PROGRAM), *files]):
        exec(CODE, names)
    covers, touches = names["covers"], names["touches"]
    names["covers"] = lambda shape, *cell: (solids.covers if shape[0] in ("prism", "disc") else covers)(shape, *cell)
    names["touches"] = lambda shape, tile: (solids.touches(shape, names["window"](tile), names["margin"]) if shape[0] in ("prism", "disc")
                                            else touches(shape, tile))
    return names
