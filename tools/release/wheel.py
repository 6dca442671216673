#!/usr/bin/env python3
"""Makes a wheel of a folder in which its files lie: adds the list of their checksums, and packs all by name, each with the same date and mode.

usage: tools/release/wheel.py FOLDER WHEEL     the date is that of SOURCE_DATE_EPOCH
"""
import base64
import hashlib
import os
import sys
import time
import zipfile
from pathlib import Path


def files(folder):
    return sorted(path.relative_to(folder).as_posix() for path in Path(folder).rglob("*") if path.is_file())


def record(folder, place):
    """A line for each file: its name, its checksum and its size; none of the list itself."""
    for name in files(folder):
        told = Path(folder, name).read_bytes()
        checksum = base64.urlsafe_b64encode(hashlib.sha256(told).digest()).rstrip(b"=").decode()
        yield f"{name},sha256={checksum},{len(told)}\n"
    yield f"{place},,\n"


def pack(folder, wheel):
    date = time.gmtime(int(os.environ["SOURCE_DATE_EPOCH"]))[:6]
    [told] = Path(folder).glob("*.dist-info")
    Path(told, "RECORD").write_text("".join(record(folder, f"{told.name}/RECORD")))
    with zipfile.ZipFile(wheel, "w", zipfile.ZIP_DEFLATED, compresslevel=9) as packed:
        for name in files(folder):
            entry = zipfile.ZipInfo(name, date)
            entry.create_system, entry.external_attr, entry.compress_type = 3, 0o100644 << 16, zipfile.ZIP_DEFLATED
            packed.writestr(entry, Path(folder, name).read_bytes())


if __name__ == "__main__":
    if len(sys.argv) != 3:
        sys.exit(__doc__.strip())
    pack(*sys.argv[1:])
