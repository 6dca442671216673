"""What the checks of the library share: the library that one is about, by the host in Python, and how many random levels it looks at, from which seed on,
which are the words behind its name; and the random levels."""
import contextlib
import functools
import io
import os
import random
import signal
import sys
from collections import Counter
from multiprocessing import Pool
from pathlib import Path
from unittest import mock

TOP = Path(__file__).resolve().parent.parent
code = {}


def host_and_levels(usage, most):
    """The host's module over the library named first, and the counts behind it; where they are left out, `most` levels from seed 1."""
    if len(sys.argv) < 2:
        sys.exit(usage)
    os.environ["NAVD_LIBRARY"] = str(Path(sys.argv[1]).resolve())
    sys.path.insert(0, str(TOP / "hosts" / "python"))
    import navd
    navd._library = functools.cache(navd._library)  # the host looks it up for each level and view, which takes milliseconds
    levels, first_seed = [int(word) for word in sys.argv[2:4]] + [most, 1][len(sys.argv[2:4]):]
    return navd, levels, first_seed


def processes():
    """How many processes share the levels: the number behind `--jobs`, which is taken out of the words, or one."""
    if "--jobs" not in sys.argv:
        return 1
    place = sys.argv.index("--jobs")
    number = int(sys.argv[place + 1])
    del sys.argv[place:place + 2]
    return number


def count_all(run, seeds, number, chunksize=1):
    """What `run` tells of each seed, added up, by so many processes; ends the program where it tells a text, which says what is wrong."""
    total = Counter()
    signal.signal(signal.SIGINT, signal.default_int_handler)  # also where a shell starts it in the background
    try:
        with Pool(number) as pool:
            for told in pool.imap(run, seeds, chunksize):
                if isinstance(told, str):
                    sys.exit(f"WRONG: {told}")
                total += told
    except KeyboardInterrupt:
        print("interrupted")
    for name, count in sorted(total.items()):
        print(f"{count:10} {name}")
    return total


def refuser(navd):
    """Tests that a call with numbers out of their limits is told so."""
    def refused(call, *words):
        try:
            call(*words)
            assert False, f"{words} are answered"
        except navd.NavdError as refusal:
            assert refusal.status == navd.OUT_OF_RANGE, refusal.status
    return refused


def script(path, *words):
    """Runs a script with words behind its name: its names, and what it writes."""
    if path not in code:
        code[path] = compile(path.read_text(), path.name, "exec")
    names, out = {"__name__": path.stem, "__file__": str(path)}, io.StringIO()
    with mock.patch.object(sys, "argv", [path.name, *map(str, words)]), contextlib.redirect_stdout(out):
        exec(code[path], names)
    return names, out.getvalue()


def level_text(*words):
    """The field text that bench/level_input.py writes for these words."""
    state = random.getstate()
    text = script(TOP / "bench" / "level_input.py", *words)[1]
    random.setstate(state)
    return text[:text.index("end\n") + 4]
