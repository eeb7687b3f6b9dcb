#!/usr/bin/env python3
"""Turns GLSL text into a token file, giving the tokens of pp-rs's Lexer on ASCII text.

usage: lex.py SCRIPT.glsl OUT.tok     (OUT.tok may be - for standard output)

tokens(text)    the list of tokens, or LexError
scan(text)      the same one by one, so that the tokens before an error can be had
encode(tokens)  the bytes of a token file
"""

import re
import string
import struct
import sys
from typing import NamedTuple

NAME, INTEGER, FLOAT, PUNCT, HASH, LINE_END = range(6)

# In the order of Punct: an index here is the value in the token file.
PUNCTS = (
    "+= -= *= /= %= <<= >>= &= ^= |= "
    "++ -- && || ^^ <= >= == != << >> "
    "{ } ( ) [ ] "
    "< > ; , : . = ! - ~ + * / % | ^ & ?"
).split()

# The PreprocessorErrors that a lexer raises, with their fault numbers.
INTEGER_OVERFLOW = 1
FLOAT_PARSING_ERROR = 2
UNEXPECTED_CHARACTER = 3
NOT_SUPPORTED_16_BIT_LITERAL = 21
NOT_SUPPORTED_64_BIT_LITERAL = 22

MESSAGES = {
    INTEGER_OVERFLOW: "not an integer of 64 bits",
    FLOAT_PARSING_ERROR: "not a float",
    UNEXPECTED_CHARACTER: "unexpected character",
    NOT_SUPPORTED_16_BIT_LITERAL: "16-bit literals are not supported",
    NOT_SUPPORTED_64_BIT_LITERAL: "64-bit literals are not supported",
}

DIGITS = string.digits
HEX_DIGITS = string.hexdigits
NAME_START = string.ascii_letters + "_"
NAME_REST = NAME_START + string.digits
# A float not of this form has hexadecimal letters or an exponent without digits.
FLOAT_FORM = re.compile(r"([0-9]*)\.?([0-9]*)(?:e(?:(-)|\+)?([0-9]+))?")
COMMENT = "\r"  # no other \r is left once line ends are joined
WHITESPACE = " \t\x0b\x0c" + COMMENT


class Token(NamedTuple):
    kind: int
    value: object  # a name's text, an integer, a float's bits, an index of PUNCTS, else 0
    start: int
    end: int
    line: int
    whitespace: bool  # whitespace stands before it
    line_start: bool
    comments: bool  # a comment was seen up to here
    signed: bool = False
    width: int = 0


class LexError(Exception):
    """A lexical fault: its number and the line on which its token begins."""

    def __init__(self, number, line):
        super().__init__(MESSAGES[number])
        self.number = number
        self.line = line


class Char(NamedTuple):
    char: str
    at: int  # where the character before it ended, so a removed backslash-newline counts to what follows
    line: int


def joined_line_ends(text):
    """\\r\\n, \\n\\r, \\r and \\n each become one \\n; lines are counted here."""
    line, i = 1, 0
    while i < len(text):
        char, at = text[i], i
        i += 1
        if char not in "\r\n":
            yield Char(char, at, line)
            continue
        if text[i : i + 1] == ("\n" if char == "\r" else "\r"):
            i += 1
        yield Char("\n", at, line)
        line += 1


def spliced_lines(chars):
    """A backslash right before a line end is removed, and the line end with it."""
    chars, i, at = list(chars), 0, None
    while i < len(chars):
        here = chars[i]
        if at is None:
            at = here.at
        if here.char == "\\" and i + 1 < len(chars) and chars[i + 1].char == "\n":
            i += 2
            continue
        yield here._replace(at=at)
        i, at = i + 1, None


def replaced_comments(chars):
    """Each comment becomes one COMMENT; an open /* runs to the end of the text."""
    chars, i = list(chars), 0

    def pair(i):
        return "".join(c.char for c in chars[i : i + 2])

    while i < len(chars):
        here = chars[i]
        if here.char == "/" and pair(i) == "//":
            while i < len(chars) and chars[i].char != "\n":
                i += 1
            yield here._replace(char=COMMENT)
        elif here.char == "/" and pair(i) == "/*":
            i += 2
            while i < len(chars) and pair(i) != "*/":
                i += 1
            i += 2
            yield here._replace(char=COMMENT)
        else:
            i += 1
            yield here


class Reader:
    """Characters with one place to look ahead from."""

    def __init__(self, text):
        self.chars = list(replaced_comments(spliced_lines(joined_line_ends(text))))
        self.position = 0

    def peek(self, ahead=0):
        i = self.position + ahead
        return self.chars[i].char if i < len(self.chars) else ""

    def take(self, allowed):
        """Takes the next character if it is one of those allowed."""
        char = self.peek()
        if char and char in allowed:
            self.position += 1
            return char
        return ""

    def take_all(self, allowed):
        taken = []
        while char := self.take(allowed):
            taken.append(char)
        return "".join(taken)

    def last_end(self):
        return self.chars[self.position - 1].at + 1 if self.position else 0


class Fault(Exception):
    """A fault number on its way to the LexError that knows the line."""


def scan(text):
    """Yields the tokens of the text (bytes, or a str taken as UTF-8)."""
    if isinstance(text, str):
        text = text.encode("utf-8")
    reader = Reader(text.decode("latin-1"))
    whitespace = line_start = True
    comments = False
    while char := reader.peek():
        if char in WHITESPACE:
            comments = comments or char == COMMENT
            whitespace = True
            reader.position += 1
            continue
        first = reader.chars[reader.position]
        try:
            kind, value, signed, width = read_value(reader)
        except Fault as fault:
            raise LexError(fault.args[0], first.line) from None
        yield Token(kind, value, first.at, reader.last_end(), first.line, whitespace, line_start, comments, signed, width)
        whitespace = line_start = kind == LINE_END
    if not line_start:
        end = reader.last_end()
        yield Token(LINE_END, 0, end, end, reader.chars[-1].line, whitespace, False, comments)


def tokens(text):
    return list(scan(text))


def read_value(reader):
    """Takes one token: its kind, value, sign and width."""
    char = reader.peek()
    if char == "\n":
        reader.position += 1
        return LINE_END, 0, False, 0
    if char in DIGITS or (char == "." and reader.peek(1) and reader.peek(1) in DIGITS):
        return read_number(reader)
    if char in NAME_START:
        return NAME, reader.take_all(NAME_REST), False, 0
    if char == "#":
        reader.position += 1
        return HASH, 0, False, 0
    for size in (3, 2, 1):
        spelling = "".join(reader.peek(i) for i in range(size))
        if len(spelling) == size and spelling in PUNCTS:
            reader.position += size
            return PUNCT, PUNCTS.index(spelling), False, 0
    raise Fault(UNEXPECTED_CHARACTER)


def read_number(reader):
    """As parse_number does: the x of a hexadecimal number is dropped, so 0x1.5 reads as 01.5."""
    raw, radix = reader.take("." + DIGITS), 10
    is_float = raw == "."
    if raw == "0":
        if reader.take("xX"):
            raw += reader.take_all(HEX_DIGITS)
            radix = 16
        elif reader.peek() and reader.peek() in DIGITS:
            radix = 8
    if not is_float:
        raw += reader.take_all(DIGITS)
        is_float = bool(reader.take("."))
        raw += "." if is_float else ""
    if is_float:
        raw += reader.take_all(DIGITS)
    if (is_float or radix != 16) and reader.take("eE"):
        is_float = True
        raw += "e" + reader.take("+-") + reader.take_all(DIGITS)

    if is_float:
        if reader.peek() in ("l", "L"):
            raise Fault(NOT_SUPPORTED_64_BIT_LITERAL)
        if reader.peek() in ("h", "H"):
            raise Fault(NOT_SUPPORTED_16_BIT_LITERAL)
        reader.take("fF")
        return FLOAT, float_bits(raw), False, 32

    signed = not reader.take("uU")
    if reader.peek() in ("l", "L"):
        raise Fault(NOT_SUPPORTED_64_BIT_LITERAL)
    if reader.peek() in ("s", "S"):
        raise Fault(NOT_SUPPORTED_16_BIT_LITERAL)
    return INTEGER, integer(raw if radix == 10 else raw[1:], radix), signed, 32


def integer(digits, radix):
    """The value of the digits; no digit, a digit beyond the radix or a value of 2^64 is a fault."""
    if not digits:
        raise Fault(INTEGER_OVERFLOW)
    value = 0
    for digit in digits:
        value = value * radix + int(digit, 16)
        if int(digit, 16) >= radix or value >= 1 << 64:
            raise Fault(INTEGER_OVERFLOW)
    return value


def float_bits(raw):
    """The bits of the f32 nearest to a decimal number, ties to even, worked out in whole numbers."""
    form = FLOAT_FORM.fullmatch(raw)
    if not form:
        raise Fault(FLOAT_PARSING_ERROR)
    before, after, minus, power = form.groups(default="")

    digits = (before + after).lstrip("0")
    if not digits:
        return 0
    # An exponent of ten digits lies outside f32 whatever they are.
    power = power.lstrip("0") or "0"
    power = int(power) if len(power) < 10 else 10**10
    power = (-power if minus else power) - len(after)
    if len(digits) + power > 40:
        return 0x7F800000
    if len(digits) + power < -50:
        return 0
    # No tie of f32 has 200 digits, so of a longer tail it matters only whether it is zero.
    if len(digits) > 200:
        power += len(digits) - 201
        digits = digits[:200] + ("1" if digits[200:].strip("0") else "0")

    above, below = int(digits) * 10 ** max(power, 0), 10 ** max(-power, 0)
    # The largest scale with 2^scale <= value, but not under the scale of subnormal numbers.
    scale = above.bit_length() - below.bit_length()
    if above << max(-scale, 0) < below << max(scale, 0):
        scale -= 1
    scale = max(scale, -126)
    # The significand counts units of 2^(scale - 23).
    shift = scale - 23
    significand, rest = divmod(above << max(-shift, 0), below << max(shift, 0))
    half = (below << max(shift, 0)) - 2 * rest
    if half < 0 or (half == 0 and significand % 2):
        significand += 1
    return min(((scale + 126) << 23) + significand, 0x7F800000)


def encode(tokens):
    """The token file: counts of names and tokens, the names' lengths, the names, 24 bytes a token."""
    names, records = {}, []
    for t in tokens:
        value = names.setdefault(t.value, len(names)) if t.kind == NAME else t.value
        marks = t.whitespace | t.line_start << 1 | t.comments << 2 | t.signed << 3
        records.append(struct.pack("<BBHQIII", t.kind, marks, t.width, value, t.start, t.end, t.line))
    spellings = [name.encode("ascii") for name in names]
    # A longer name makes the file larger than is accepted anyway.
    lengths = [struct.pack("<H", min(len(s), 0xFFFF)) for s in spellings]
    return b"".join([struct.pack("<II", len(names), len(records)), *lengths, *spellings, *records])


def main(arguments):
    if len(arguments) != 2:
        print("usage: lex.py SCRIPT.glsl OUT.tok", file=sys.stderr)
        return 2
    script, out = arguments
    try:
        with open(script, "rb") as file:
            text = file.read()
        try:
            data = encode(scan(text))
        except LexError as error:
            print(f"{script}:{error.line}: {error}", file=sys.stderr)
            return 1
        if out == "-":
            sys.stdout.buffer.write(data)
            sys.stdout.buffer.flush()
        else:
            with open(out, "wb") as file:
                file.write(data)
    except OSError as error:
        print(f"lex.py: {error.filename or out}: {error.strerror}", file=sys.stderr)
        return 2
    return 0


if __name__ == "__main__":
    sys.exit(main(sys.argv[1:]))
