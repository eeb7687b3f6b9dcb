#!/usr/bin/env python3
"""Checks the oracle itself: its answers to cases that were worked out by hand, and how answers are judged.

usage: check.py PPRS_FOLDER
"""

import sys

import cases as c
import compare
from build import BuildError, build
from cases import ALL, HASH, INTEGER, LINE_END, NAME, NEXT, Case, Define, Token


def file(text):
    return c.encode(c.lexed(text))


def define(text):
    return Define(file(text))


ODD = [
    Token(NAME, b"\x00\xff", 5, 3, 0, whitespace=False, comments=True),
    Token(INTEGER, 2**64 - 1, 1, 2, 2**32 - 1, comments=True, signed=True, width=65535),
    Token(c.FLOAT, 0x7F800001, 2**32 - 1, 0, 7, comments=True, width=3),
    Token(LINE_END, 0, 9, 9, 9, comments=True),
]
UNMARKED = [Token(HASH, 0, 0, 1, 1, line_start=False), Token(NAME, b"if", 1, 3, 1), Token(LINE_END, 0, 3, 4, 1)]

# A name, a token file, its calls and the answers.
BY_HAND = [
    ("empty", bytes(8), (), "end"),
    ("places", file("#define A 2\n  A + bc\n"), (),
     "token 10 11 1 integer 2 1 32; token 16 17 2 punct +; token 18 20 2 ident 6263; end"),
    ("values", file("1u 0x10 1.5 <<=\n"), (),
     "token 0 2 1 integer 1 0 32; token 3 7 1 integer 16 1 32; token 8 11 1 float 3fc00000 32; token 12 15 1 punct <<=; end"),
    ("odd", c.encode(ODD), (),
     "token 5 3 0 ident 00ff; token 1 2 4294967295 integer 18446744073709551615 1 65535; "
     "token 4294967295 0 7 float 7f800001 3; end"),
    ("unmarked hash", c.encode(UNMARKED), (), "fault 5 0 1 1"),
    ("nexts", file("a b c"), (NEXT, NEXT), "token 0 1 1 ident 61; token 2 3 1 ident 62"),
    ("after the end", file("a"), (ALL, NEXT, ALL), "token 0 1 1 ident 61; end; end; end"),
    ("first version", file("#version 3 // c\n"), (), "token 1 8 1 version 1 1 1;   9 10 1 integer 3 1 32; end"),
    ("late version", file("a\n#version\n"), (), "token 0 1 1 ident 61; token 3 10 2 version 0 0 0; end"),
    ("extension", file("#extension x :\n"), (), "token 1 10 1 extension 0 2;   11 12 1 ident 78;   13 14 1 punct :; end"),
    ("late extension", file("a\n#extension\n"), (), "token 0 1 1 ident 61; token 3 12 2 extension 1 0; end"),
    ("pragma in a call", file("#define f(x) x\nf(\n#pragma y\n)"), (),
     "token 19 25 3 pragma 1;   26 27 3 ident 79; end"),
    ("line", file("#line 10\n__LINE__"), (), "token 9 17 2 integer 11 0 32; end"),
    ("host", file("A B A"), (define("A 7\nx"), NEXT, define("B 2.5"), ALL),
     "defined; token 2 3 1 integer 7 1 32; defined; token 4 5 2 ident 78; token 2 5 1 float 40200000 32; "
     "token 2 3 1 integer 7 1 32; token 4 5 2 ident 78; end"),
    ("refused host", file("A"), (define("A 1"), define("A 2 # 3"), ALL),
     "defined; refused 5 4 5 1; token 2 3 1 integer 1 1 32; end"),
    ("replacing host", file("#define f(x) x\nf(1) f"), (NEXT, define("f 9"), ALL),
     "token 17 18 2 integer 1 1 32; defined; token 2 3 1 integer 9 1 32; end"),
    ("4 at a name", file("#ifdef A B\n"), (), "fault 4 9 10 1 ident 42"),
    ("4 at an integer", file("x\n#if 1 2u\n"), (), "token 0 1 1 ident 78; fault 4 8 10 2 integer 2 0 32"),
    ("4 at a float", file("#if 2.5\n"), (), "fault 4 4 7 1 float 40200000 32"),
    ("4 at a punct", file("#define A 2\n#if A * 2 == 4\n"), (), "fault 4 18 19 2 punct *"),
    ("7 at a comma", file("#define f(x) x\nf(1,\n"), (), "fault 7 18 19 2"),
    ("no more after a fault", file("a #\n"), (NEXT, NEXT, NEXT, define("A 1"), ALL),
     "token 0 1 1 ident 61; fault 5 2 3 1"),
    ("negated", file("y\n#if -9223372036854775808\n"), (), "token 0 1 1 ident 79; negated"),
    ("endless", file("#define f(x) x\n#define g(x) f ( ( g ( x ) )\nz g(1) )\n"), (),
     "token 44 45 3 ident 7a; no answer"),
    ("after it", file("a"), (), "token 0 1 1 ident 61; end"),
    ("cut off", file("a")[:-1], (), "bad file"),
]

ONE_CALL = Case("one call", file("#if 1\nx\n#endif"))
TWO_CALLS = ONE_CALL._replace(calls=(ALL, NEXT))
HOST_LATER = ONE_CALL._replace(calls=(NEXT, NEXT, define("A 1")))

# A case, the port's answers, pp-rs's and the verdict.
JUDGED = [
    (ONE_CALL, "token 1; end", "token 1; end", "agreed"),
    (ONE_CALL, "token 1; end", "token 1", "differed"),
    (ONE_CALL, "token 1", "token 1; end", "differed"),
    (ONE_CALL, "token 1; fault 36 1 1 1", "token 1; token 2; end", "limit 36"),
    (ONE_CALL, "token 9; fault 36 1 1 1", "token 1; token 2; end", "differed"),
    (ONE_CALL, "token 1; fault 40 1 1 1", "token 1; token 2; no answer", "no answer"),
    (ONE_CALL, "token 1; token 2; fault 40 1 1 1", "token 1; no answer", "no answer"),
    (ONE_CALL, "token 1; token 2; end", "token 1; no answer", "differed"),
    (ONE_CALL, "fault 1 1 3 1", "negated", "negation"),
    (ONE_CALL, "fault 1 1 3 2", "negated", "differed"),
    (ONE_CALL, "fault 7 1 3 1", "negated", "differed"),
    (ONE_CALL, "fault 7 1 3 1; end", "fault 7 1 3 1", "differed"),
    (TWO_CALLS, "fault 7 1 3 1; fault 7 1 3 1", "fault 7 1 3 1", "agreed"),
    (TWO_CALLS, "fault 7 1 3 1", "fault 7 1 3 1", "differed"),
    (HOST_LATER, "token 1; fault 7 1 3 1; refused 7 1 3 1", "token 1; fault 7 1 3 1", "agreed"),
    (HOST_LATER, "token 1; fault 7 1 3 1; defined", "token 1; fault 7 1 3 1", "differed"),
    (HOST_LATER, "token 1; end; refused 33 0 0 1", "token 1; end; defined", "limit 33"),
    (ONE_CALL._replace(file=b""), "fault 41", "bad file", "refused file"),
    (ONE_CALL._replace(file=b""), "end", "bad file", "differed"),
]


def main(arguments):
    if len(arguments) != 1:
        print("usage: check.py PPRS_FOLDER", file=sys.stderr)
        return 2
    try:
        rust = compare.Rust(build(arguments[0]), 1.0)
    except (BuildError, OSError) as error:
        print(f"check.py: {error}", file=sys.stderr)
        return 2
    cases = [Case(name, data, calls or (ALL,)) for name, data, calls, _ in BY_HAND]
    checks = [(name, "; ".join("; ".join(answers).split("\n")), wanted)
              for (name, _, _, wanted), answers in zip(BY_HAND, rust(cases))]
    trace = compare.Trace(None)
    for case, ours, theirs, wanted in JUDGED:
        verdict = compare.judge(trace, case, ours.split("; "), theirs.split("; "))
        checks.append((f"{ours} against {theirs}", verdict, wanted))
    wrong = [check for check in checks if check[1] != check[2]]
    for name, answered, wanted in wrong:
        print(f"{name}\n  answered {answered}\n  wanted   {wanted}")
    print(f"{len(checks) - len(wrong)} passed, {len(wrong)} failed")
    return 1 if wrong else 0


if __name__ == "__main__":
    sys.exit(main(sys.argv[1:]))
