"""The first path in Python: a level is opened, a crate put across its room, and the way round it asked for.

    python3 first.py examples/detour.nav       cost 180, 5 links, 2 turns: (144, 64) (144, 96)
"""
import sys
from pathlib import Path

from navd import Block, Level, Place

with Level(Path(sys.argv[1]).read_bytes()) as level:
    level.add_block(Block(x=(1, 8), y=(0, 100), z=(4, 5)))
    level.settle()
    path = level.find_path(Place(40, 40, 10), Place(40, 120, 10))
    turns = " ".join(f"({turn.at[0]}, {turn.at[1]})" for turn in path.turns)
    print(f"cost {path.cost}, {len(path.links)} links, {len(path.turns)} turns: {turns}")
