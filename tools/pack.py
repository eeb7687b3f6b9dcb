#!/usr/bin/env python3
"""Packs the cases of tests/ into what the replay program reads and must print.

usage: pack.py            writes crates/replay/stdin and crates/replay/stdout
       pack.py --check    tells whether the two are up to date

A case is NAME.glsl or NAME.tok, with its listing in NAME.txt. The container has of each case, in the order of the names,
the length of the name (2 bytes), the length of the token file (4 bytes), both lowest byte first, the name and the file.
"""

import struct
import sys
from pathlib import Path

import lex

ROOT = Path(__file__).resolve().parent.parent
TESTS = ROOT / "tests"
REPLAY = ROOT / "crates" / "replay"


class BadCase(Exception):
    pass


def token_file(case):
    data = case.read_bytes()
    if case.suffix == ".tok":
        return data
    try:
        return lex.encode(lex.scan(data))
    except lex.LexError as error:
        raise BadCase(f"{case}:{error.line}: {error}") from None


def cases():
    """Each case as its name, its token file and its listing."""
    found = {}
    for path in sorted(TESTS.glob("*/*")):
        if path.suffix not in (".glsl", ".tok", ".txt"):
            raise BadCase(f"{path}: neither a case nor a listing")
        files = found.setdefault(path.relative_to(TESTS).with_suffix("").as_posix(), {})
        files["listing" if path.suffix == ".txt" else path.suffix] = path
    for name, files in sorted(found.items()):
        listing = files.pop("listing", None)
        if listing is None or len(files) != 1:
            raise BadCase(f"{name}: not one case with one listing")
        yield name, token_file(*files.values()), listing.read_bytes()


def pack():
    """What the replay program reads, what it must print, and the number of cases."""
    container, listings, count = [], [], 0
    for name, file, listing in cases():
        spelling = name.encode("ascii")
        container += [struct.pack("<HI", len(spelling), len(file)), spelling, file]
        listings += [b"== ", spelling, b"\n", listing]
        count += 1
    return b"".join(container), b"".join(listings), count


def main(arguments):
    if arguments not in ([], ["--check"]):
        print("usage: pack.py [--check]", file=sys.stderr)
        return 2
    try:
        container, listings, count = pack()
    except BadCase as error:
        print(f"pack.py: {error}", file=sys.stderr)
        return 2
    wanted = {REPLAY / "stdin": container, REPLAY / "stdout": listings}
    if not arguments:
        for path, data in wanted.items():
            path.write_bytes(data)
        print(f"{count} cases packed")
        return 0
    old = [path for path, data in wanted.items() if not path.is_file() or path.read_bytes() != data]
    for path in old:
        print(f"{path.relative_to(ROOT)} is out of date", file=sys.stderr)
    if not old:
        print(f"{count} cases, up to date")
    return 1 if old else 0


if __name__ == "__main__":
    sys.exit(main(sys.argv[1:]))
