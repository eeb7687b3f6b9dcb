"""Cases, their token files and the container that holds them; what the rules refuse a token file for."""

import re
import struct
import sys
from pathlib import Path
from typing import NamedTuple

sys.path.insert(0, str(Path(__file__).resolve().parent.parent / "tools"))
import lex  # noqa: E402

NAME, INTEGER, FLOAT, PUNCT, HASH, LINE_END = range(6)
PUNCTS = lex.PUNCTS
WORDS = (
    b"error line define undef if ifdef ifndef elif else endif version extension pragma defined __LINE__".split()
)

# Calls; a host definition is a Define.
NEXT, ALL = 0, 1


class Define(NamedTuple):
    file: bytes  # a token file: the name, then the body


class Case(NamedTuple):
    name: str
    file: bytes
    calls: tuple = (ALL,)


class Token(NamedTuple):
    """One token of a file. A name's value is its bytes."""

    kind: int
    value: object
    start: int = 0
    end: int = 0
    line: int = 1
    whitespace: bool = True
    line_start: bool = False
    comments: bool = False
    signed: bool = False
    width: int = 0


def lexed(text):
    """The tokens of a text, or lex.LexError."""
    tokens = (Token(*token) for token in lex.scan(text))
    return [t._replace(value=t.value.encode("ascii")) if t.kind == NAME else t for t in tokens]


def lawful(tokens):
    """The tokens made to keep the laws of a source that is closed by the End."""
    out, fresh, comments = [], True, False
    for token in tokens:
        comments = comments or token.comments
        out.append(token._replace(line_start=token.line_start and fresh, comments=comments))
        fresh = token.kind == LINE_END
    if not fresh:
        last = out[-1]
        out.append(Token(LINE_END, 0, last.end, last.end, last.line, False, False, comments))
    return out


def encode(tokens, names=()):
    """The token file. The names given are in it whether a token uses them or not; all places of a name are used in turn."""
    spellings, places, records = list(names), {}, []
    for number, name in enumerate(spellings):
        places.setdefault(name, []).append(number)
    for t in tokens:
        value = t.value
        if t.kind == NAME:
            if value not in places:
                places[value] = [len(spellings)]
                spellings.append(value)
            value = places[value][len(records) % len(places[value])]
        marks = t.whitespace | t.line_start << 1 | t.comments << 2 | t.signed << 3
        records.append(struct.pack("<BBHQIII", t.kind, marks, t.width, value, t.start, t.end, t.line))
    lengths = [struct.pack("<H", min(len(s), 0xFFFF)) for s in spellings]
    return b"".join([struct.pack("<II", len(spellings), len(records)), *lengths, *spellings, *records])


def decode(file):
    """The tokens of an accepted file."""
    count, tokens = struct.unpack_from("<II", file)
    lengths = struct.unpack_from(f"<{count}H", file, 8)
    at, names = 8 + 2 * count, []
    for length in lengths:
        names.append(file[at : at + length])
        at += length
    out = []
    for kind, marks, width, value, start, end, line in struct.iter_unpack("<BBHQIII", file[at : at + 24 * tokens]):
        bits = [bool(marks >> bit & 1) for bit in range(4)]
        out.append(Token(kind, names[value] if kind == NAME else value, start, end, line, *bits, width))
    return out


def refusal(file):
    """The number with which the rules refuse a token file, or None: section 13 of docs/RULES.md."""
    if not 8 <= len(file) <= 65536:
        return 41
    count, tokens = struct.unpack_from("<II", file)
    if 8 + 2 * count > len(file):
        return 41
    lengths = struct.unpack_from(f"<{count}H", file, 8)
    at = 8 + 2 * count
    if at + sum(lengths) + 24 * tokens != len(file):
        return 41

    fresh, comments, last = True, False, LINE_END
    for kind, marks, width, value, *_ in struct.iter_unpack("<BBHQIII", file[at + sum(lengths) :]):
        most = {NAME: count - 1, INTEGER: 2**64 - 1, FLOAT: 2**32 - 1, PUNCT: len(PUNCTS) - 1, HASH: 0, LINE_END: 0}
        if kind not in most or value > most[kind] or marks > 15:
            return 41
        if marks & 8 and kind != INTEGER or width and kind not in (INTEGER, FLOAT):
            return 41
        if marks & 2 and not fresh or comments and not marks & 4:
            return 41
        fresh, comments, last = kind == LINE_END, bool(marks & 4), kind
    if last != LINE_END:
        return 41

    if any(not 1 <= length <= 1024 for length in lengths):
        return 31
    table = set(WORDS)
    used = sum(map(len, table))
    for length in lengths:
        name = file[at : at + length]
        at += length
        if name not in table:
            if len(table) == 1024 or used + length > 16384:
                return 32
            table.add(name)
            used += length
    return None


def pack(cases):
    """The container of the cases."""
    parts = []
    for case in cases:
        calls = b"" if case.calls == (ALL,) else b"".join(map(pack_call, case.calls))
        name = case.name.encode("ascii")
        parts += [struct.pack("<HII", len(name), len(case.file), len(calls)), name, case.file, calls]
    return b"".join(parts)


def pack_call(call):
    if isinstance(call, Define):
        return struct.pack("<BI", 2, len(call.file)) + call.file
    return bytes([call])


def unpack(container):
    """The cases of a container."""
    cases, at = [], 0
    while at < len(container):
        lengths = struct.unpack_from("<HII", container, at)
        at += 10
        name, file, calls = (container[at + sum(lengths[:i]) : at + sum(lengths[: i + 1])] for i in range(3))
        at += sum(lengths)
        cases.append(Case(name.decode("ascii"), file, tuple(unpack_calls(calls)) or (ALL,)))
    return cases


def unpack_calls(calls):
    at = 0
    while at < len(calls):
        if calls[at] == 2:
            (length,) = struct.unpack_from("<I", calls, at + 1)
            yield Define(calls[at + 5 : at + 5 + length])
            at += 5 + length
        else:
            yield calls[at]
            at += 1


def pack_listed(cases):
    """The container of the replay program, which has no calls."""
    parts = []
    for case in cases:
        name = case.name.encode("ascii")
        parts += [struct.pack("<HI", len(name), len(case.file)), name, case.file]
    return b"".join(parts)


def spelling(token):
    if token.kind == NAME:
        return token.value.decode("ascii") if re.fullmatch(rb"\w+", token.value) else f"<{token.value.hex()}>"
    if token.kind == INTEGER:
        return str(token.value)
    if token.kind == FLOAT:
        return f"f{token.value:08x}"
    return {PUNCT: PUNCTS[token.value % len(PUNCTS)], HASH: "#", LINE_END: "\n"}[token.kind]


def text(tokens):
    """What the tokens look like as a text, in lines."""
    pieces = ((" " if t.whitespace and not t.line_start and t.kind != LINE_END else "") + spelling(t) for t in tokens)
    return "".join(pieces).split("\n")[:-1]


def show(tokens):
    """A line a token: kind, marks, place and value. Marks are w whitespace, s line start, c comments."""
    lines = []
    for t in tokens:
        kind = ("name", "integer", "float", "punct", "hash", "line end")[t.kind]
        marks = "".join(m for m, on in zip("wsc", (t.whitespace, t.line_start, t.comments)) if on) or "-"
        line = f"{kind:8} {marks:4} {t.start:>6} {t.end:>6} {t.line:>4}"
        if t.kind not in (HASH, LINE_END):
            line += "  " + spelling(t)
        if t.kind == INTEGER:
            line += " signed" if t.signed else " unsigned"
        if t.kind in (INTEGER, FLOAT):
            line += f" width {t.width}"
        lines.append(line)
    return lines
