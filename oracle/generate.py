#!/usr/bin/env python3
"""Random cases for the port and the real Rust. The same seed gives the same cases.

usage: generate.py [--seed N] [--cases N] [--kinds KIND,KIND...]     a container on standard output

scripts     definitions, calls within and over lines, blocks and directives inside calls, #line, passed directives
broken      scripts with pieces of text dropped, doubled, swapped or replaced
conditions  a few macros and conditions made of every operator, calls and `defined` in every position
macros      a few macros and calls of all of them, complete or not
soup        tokens in any order, with odd names, numbers, marks and places, within the laws of a source
shaken      scripts whose marks, places and numbers are odd
sessions    host definitions between nexts, some of them with a hash
damaged     token files with bad fields, against the laws, of wrong size or with bad names
"""

import argparse
import random
import re
import struct
import sys

import cases as c
import lex
from cases import ALL, NEXT, Case, Define, Token

OBJECTS = ["A", "B", "C", "D"]
FUNCTIONS = ["f", "g", "h", "k"]
PLAIN = ["x", "y", "z", "w", "vec4"]
BINARY = "|| && | ^ & == != < > <= >= << >> + - * / %".split()
UNARY = "- ! ~ +".split()
# Conditions that are mostly answered without a fault.
SIMPLE = (
    "0; 1; 2; 0 == A; 1 || B; f(1) || 1; (A); __LINE__ > 5; 2 - 1 == 1; -1 < 0; defined A; !defined(g); defined f && 1; "
    "0 < A; 3 + f(2) > 1; A; B; !A; defined(f); !defined B; 1 == 1"
).split("; ")
NUMBERS = (
    "0x1F 017 0 1u 2.5 1e3 4294967295 4294967296 9223372036854775807 9223372036854775808 18446744073709551615 "
    "0x8000000000000000 63 64 0x7fffffffffffffff 1.0f .5 0u"
).split()
# What conditions of any form are made of.
WILD = "defined ( ) A B f g f( (A) 1 0 2 - ! ~ + * == && || x , __LINE__ defined( C h << % / 2.5 -- f(1) g(1,2) line".split()
STOCK = (
    "A B C f g f( g( ( ) , x 1 2 0 - ! + * / % << >> == != < >= && || & | ^ ~ defined __LINE__ D E f(1) f(A) g(1,2) (A) "
    "defined( 9223372036854775808"
).split() + ["A B", "defined A", "-(1 << 63)"]
LINES = "A; __LINE__ + 1; f(3); A 2; f(3) 2; A B; 10 0 0; x; 7 x; B + 1; __LINE__ 1".split("; ")
BAD_LINES = "#error; #error x y; #foo; #foo A; #; # 1; #+; ##; # #if 1; x # y; 1 #define A 1".split("; ")
# What texts of any form are made of.
PIECES = (
    "# define undef if ifdef ifndef elif else endif line pragma version extension error defined __LINE__ ( ) , A B f g x "
    "1 0 2 + - * == && || ! f( (x) /**/"
).split() + (
    ["\n", "\n", "\n#", "\n#define", "\n#if", "\n#endif", "\n#else", "\n#elif", "\n#line", "\n#undef", "\n#ifdef"]
    + ["\n#define f(x)", "\n#define A", "\n#define g(x,y)", "f (", "//", "\\\n"]
)
TEXT_PIECE = re.compile(r"\n|[ \t]+|\w+|.", re.S)


class Script:
    """One random script. A careful one has few mistakes, so that it is answered to its end."""

    def __init__(self, r):
        self.r = r
        self.careful = r.random() < 0.5
        self.arity = {}
        self.bodies = {}
        self.one_line = False

    def pick(self, *choices):
        return self.r.choice(choices)

    def chance(self, p):
        return self.r.random() < p

    def slip(self, p):
        """A mistake, rarer in a careful script."""
        return self.r.random() < (p / 8 if self.careful else p)

    def join(self, make, most, least=0):
        return " ".join(make() for _ in range(self.r.randint(least, most)))

    # Text

    def number(self):
        return str(self.r.randint(0, 12)) if self.chance(0.7) else self.r.choice(NUMBERS)

    def word(self):
        roll = self.r.random()
        if roll < 0.3:
            return self.pick(*OBJECTS)
        if roll < 0.45:
            return self.pick(*FUNCTIONS)
        if roll < 0.9:
            return self.pick(*PLAIN)
        if roll < 0.95:
            return "__LINE__"
        return self.pick("defined", "error", "line", "define", "if", "else", "endif", "version", "pragma", "undef")

    def argument(self, depth):
        return " ".join(self.item(depth + 1) for _ in range(self.pick(0, 1, 1, 1, 2, 3)))

    def arguments(self, name, depth):
        count = self.arity.get(name, 1)
        if self.slip(0.06):
            count = max(0, count + self.pick(-1, 1, 2))
        if count == 0:
            return self.argument(depth) if self.slip(0.04) else self.pick("", " ")
        return self.pick(",", ", ", " , ").join(self.argument(depth) for _ in range(count))

    def call(self, depth):
        name = self.pick(*FUNCTIONS)
        gap = self.pick("", " ", "", "" if depth or self.one_line else "\n")
        return f"{name}{gap}({self.arguments(name, depth)})"

    def item(self, depth=0):
        roll = self.r.random()
        if depth < 4 and roll < 0.25:
            return self.call(depth)
        if roll < 0.55:
            return self.word()
        if roll < 0.7:
            return self.number()
        if roll < 0.76:
            return "__LINE__"
        if depth < 4 and roll < 0.82:
            return f"({self.join(lambda: self.item(depth + 1), 3)}{self.pick('', '', ', ' + self.item(depth + 1))})"
        if roll < 0.84:
            return self.pick("(", ")", ",", "f", "f (", "g(", "k", "h ( ", "f(f", "g(f)(1", "f(g)(2)")
        if roll < 0.86 and not self.one_line:
            return "\n"
        if roll < 0.87:
            return self.pick("/* c */", "/**/")
        return self.pick(*"+ - * ; = [ ] { } . == ++ < > ? : && | ~ ! ^^ <<= % /".split())

    def text(self):
        return " ".join(self.item() for _ in range(self.pick(1, 1, 2, 3, 5)))

    # Definitions

    def body(self, parameters):
        self.one_line = True
        items = []
        for _ in range(self.pick(0, 1, 1, 2, 3, 4, 6)):
            roll = self.r.random()
            if parameters and roll < 0.45:
                items.append(self.pick(*parameters))
            elif roll < 0.5:
                items.append(self.pick("f", "g", "h", "k", "f (", "g(", "(", ")", ",", "__LINE__"))
            else:
                items.append(self.item(1))
        self.one_line = False
        return " ".join(items)

    def define(self):
        as_function = self.chance(0.5)
        name = self.pick(*(FUNCTIONS if as_function else OBJECTS))
        if self.slip(0.05):
            name = self.pick(*OBJECTS, *FUNCTIONS)
        if not as_function and self.slip(0.04):
            name = self.pick("defined", "__LINE__", "x", "line")
        before = ""
        if self.careful or name in self.bodies and self.chance(0.8):
            if name in self.bodies and self.chance(0.3):
                return f"#define {name}{self.bodies[name]}"
            before = f"#undef {name}\n"
        self.bodies[name] = self.function(name) if as_function else self.object()
        return f"{before}#define {name}{self.bodies[name]}"

    def object(self):
        roll = self.r.random()
        if roll < 0.07:
            return ""
        body = self.body([]) if roll < 0.5 else self.sum(1) if roll < 0.75 else self.number()
        return " " + body

    def function(self, name):
        count = self.pick(0, 1, 1, 1, 2, 2, 3)
        parameters = self.r.sample(["x", "y", "z", "w", "A", "f", "a", "b"], count)
        self.arity[name] = count
        if count and self.slip(0.02):
            parameters[-1] = parameters[0]
        if self.slip(0.02):
            parameters.append(self.pick("", "1", "+"))
        body = self.body(parameters) if self.chance(0.7) else self.sum(1, parameters)
        return f"({self.pick(',', ', ').join(parameters)}){self.pick(' ', ' ', '')}{body}"

    # Conditions

    def sum(self, depth, leaves=()):
        """An expression of numbers, and of the names given."""
        roll = self.r.random()
        if depth > 3 or roll < 0.3:
            if leaves and self.chance(0.6):
                return self.pick(*leaves)
            return self.number() if self.chance(0.3) else str(self.r.randint(0, 4))
        if roll < 0.65:
            return f"{self.sum(depth + 1, leaves)} {self.pick(*BINARY)} {self.sum(depth + 1, leaves)}"
        if roll < 0.8:
            return f"({self.sum(depth + 1, leaves)})"
        return self.pick(*UNARY) + self.sum(depth + 1, leaves)

    def expression(self, depth=0):
        """An expression with macros, calls and `defined`."""
        roll = self.r.random()
        if depth > 3 or roll < 0.22:
            return self.number() if self.chance(0.4) else str(self.r.randint(0, 3))
        if roll < 0.3:
            return self.pick(*OBJECTS, "x", "__LINE__")
        if roll < 0.36:
            name = self.pick(*OBJECTS, *FUNCTIONS, "x", self.pick("y", "z", "__LINE__", "defined"))
            return self.pick("defined {}", "defined({})", "defined ( {} )").format(name)
        if roll < 0.42:
            name = self.pick(*FUNCTIONS)
            count = self.arity.get(name, 1) + self.slip(0.05)
            return f"{name}({', '.join(self.expression(depth + 1) for _ in range(count))})"
        if roll < 0.75:
            return f"{self.expression(depth + 1)} {self.pick(*BINARY)} {self.expression(depth + 1)}"
        if roll < 0.9:
            return f"({self.expression(depth + 1)})"
        return self.pick(*UNARY) + self.expression(depth + 1)

    def wild(self):
        return self.join(lambda: "#" if self.chance(0.002) else self.pick(*WILD), 7)

    def condition(self):
        roll = self.r.random() * (0.35 if self.careful else 1)
        if roll < 0.3:
            return self.pick(*SIMPLE)
        if roll < 0.55:
            return self.sum(0)
        if roll < 0.9:
            return self.expression()
        return self.wild()

    # Directives

    def line(self):
        roll = self.r.random()
        if roll < 0.5:
            value = self.pick("0", "1", "5", "10", "100", "1000")
        elif self.careful:
            value = self.pick("A", "7", "__LINE__", "f(3)", "(5)", "10 3", "2 A", "9 f(1)")
        elif roll < 0.6:
            value = self.pick("4294967295", "4294967290", "4294967296", "-1", "2147483648", "0x7fffffff")
        elif roll < 0.75:
            value = self.pick(*LINES)
        else:
            value = self.condition()
        if self.chance(0.2):
            value += " " + self.pick("1", "2", "A", "f(1)", self.condition())
        return "#line " + value

    def other(self):
        roll = self.r.random()
        if roll < 0.3:
            return "#pragma " + self.pick("", "x", "A f(1)", "__LINE__", "a , b )", "(", "1u 2.5")
        if roll < 0.5:
            return "#version " + self.pick("", "300 es", "450", "A", "100 core", "1 // c")
        if roll < 0.7:
            return "#extension " + self.pick("", "x : enable", "all : disable", "A : f(1)")
        if roll < 0.76 and not self.careful:
            return self.pick(*BAD_LINES)
        if roll < 0.85:
            return "#undef " + self.pick("x", "B", "f", "__LINE__", "defined", "A x" if self.slip(0.1) else "A")
        return self.pick("// c", "/* a */ #define A 1", "  # define Q 1", "# \\\ndefine Q 1", "/* m\n n */", "")

    def block(self, depth):
        if self.chance(0.6):
            lines = ["#if " + self.condition()]
        else:
            name = self.pick(*OBJECTS, *FUNCTIONS, "x", "__LINE__")
            lines = [f"{self.pick('#ifdef', '#ifndef')} {name}{self.pick(' x', ' 1') if self.slip(0.02) else ''}"]
        lines += self.lines(depth + 1)
        for _ in range(self.pick(0, 0, 0, 1, 1, 2)):
            lines += ["#elif " + self.condition(), *self.lines(depth + 1)]
        if self.chance(0.5):
            lines += ["#else x" if self.slip(0.02) else "#else", *self.lines(depth + 1)]
        if self.slip(0.03):
            lines += [self.pick("#else", "#elif 1", "#elif"), *self.lines(depth + 1)]
        if not self.slip(0.015):
            lines.append("#endif x" if self.slip(0.03) else "#endif")
        return lines

    def split_call(self, depth):
        """A call over several lines, with directives and blocks inside it."""
        name = self.pick(*FUNCTIONS)
        if self.chance(0.3):
            lines = [name, *(self.lines(depth + 1)[:2] if self.chance(0.5) else []), "("]
        else:
            lines = [name + self.pick("(", " (")]
        for i in range(max(0, self.arity.get(name, 1) + (self.pick(-1, 1) if self.slip(0.05) else 0))):
            lines += [","] if i else []
            for _ in range(self.pick(0, 1, 1, 2)):
                roll = self.r.random()
                if roll < 0.5:
                    lines.append(self.text())
                elif roll < 0.62:
                    lines.append(self.define())
                elif roll < 0.75:
                    lines.append("#undef " + self.pick(name, name, *OBJECTS, *FUNCTIONS))
                elif roll < 0.8:
                    lines.append(self.line())
                elif roll < 0.85:
                    lines.append(self.other())
                else:
                    lines += self.block(depth + 1) if depth < 3 else ["x"]
        if not self.slip(0.03):
            lines.append(")" + self.pick("", " " + self.text()))
        return lines

    def lines(self, depth=0):
        lines = []
        for _ in range(self.pick(0, 1, 1, 2, 2, 3) if depth else self.r.randint(3, 14)):
            roll = self.r.random()
            if roll < 0.28:
                lines.append(self.define())
            elif roll < 0.34:
                name = self.pick(*OBJECTS, *FUNCTIONS)
                self.bodies.pop(name, None)
                lines.append("#undef " + name)
            elif roll < 0.62:
                lines.append(self.text())
            elif roll < 0.72 and depth < 4:
                lines += self.block(depth)
            elif roll < 0.82 and depth < 4:
                lines += self.split_call(depth)
            elif roll < 0.9:
                lines.append(self.line())
            elif roll < 0.94:
                lines.append(self.other())
            else:
                lines.append(self.pick("__LINE__", "A __LINE__ f(__LINE__)", "f(", "f", "A B C D", "f(A) g(B,C)", "f\n(1)"))
        return lines

    def whole(self):
        lines = [self.define() for _ in range(self.pick(0, 2, 3, 5))] + self.lines()
        text = "\n".join(lines) + self.pick("\n", "\n", "")
        return text.replace("\n", self.pick("\r\n", "\r", "\n\r")) if self.chance(0.02) else text

    def broken(self):
        if self.chance(0.2):
            pieces = PIECES if self.chance(0.5) else self.r.sample(PIECES, self.r.randint(5, 20))
            return "".join(self.pick(*pieces) + self.pick(" ", " ", "") for _ in range(self.r.randint(3, 50)))
        pieces = TEXT_PIECE.findall(self.whole())
        for _ in range(self.r.randint(1, 4) if pieces else 0):
            i, j, roll = self.r.randrange(len(pieces)), self.r.randrange(len(pieces)), self.r.random()
            if roll < 0.3 and len(pieces) > 3:
                del pieces[i : i + self.r.randint(1, 3)]
            elif roll < 0.5:
                pieces.insert(i, pieces[j])
            elif roll < 0.7:
                pieces[i] = self.pick(*PIECES)
            elif roll < 0.85:
                pieces.insert(i, f" {self.pick(*PIECES)} ")
            else:
                pieces[i], pieces[j] = pieces[j], pieces[i]
        return "".join(pieces)

    def arithmetic(self):
        """Conditions that mostly have a value: macros stand in parentheses, and no parameter is used."""
        leaves = ["(A)", "(B)", "(f(2))", "defined A", "defined(x)", "__LINE__", "x", "1", "7u", "0x8000000000000000"]
        lines = [f"#define A {self.number()}", f"#define B {self.sum(2)}", "#define f(x) 5 - 9"]
        for _ in range(self.r.randint(2, 8)):
            lines += ["#if " + self.sum(self.pick(0, 0, 1), leaves), "yes"]
            lines += ["#elif " + self.sum(1, leaves), "other"] if self.chance(0.3) else []
            lines += ["#else", "no", "#endif"]
        return "\n".join(lines)

    def conditions(self):
        if self.chance(0.4):
            return self.arithmetic()
        stock = STOCK
        if self.chance(0.4):
            stock = self.r.sample(stock, self.r.randint(5, 14)) + ["1"]

        def some(most, stock=stock):
            return self.join(lambda: self.pick(*stock), most)

        lines = []
        for name in "ABCDE":
            if self.chance(0.6):
                short = ["1", "", "A", "B", "C", "D", "E", "f", "2"]
                lines.append(f"#define {name} {some(self.pick(0, 1, 1, 2, 4), self.pick(stock, short))}")
        if self.chance(0.8):
            lines.append("#define f(x) " + some(4, stock + ["x"] * 6))
        if self.chance(0.6):
            lines.append("#define g(x,y) " + some(4, stock + ["x", "y"] * 3))
            self.arity["g"] = 2
        for _ in range(self.pick(1, 1, 2)):
            value = self.pick(some(9), some(9), self.expression(), self.expression() + " " + some(4))
            if self.chance(0.25):
                lines += ["#line " + value, "__LINE__ f(__LINE__) A"]
                continue
            lines += ["#if " + (value if self.chance(0.8) else "0"), "yes"]
            if self.chance(0.4):
                lines += ["#elif " + some(6), "other"]
            if self.chance(0.6):
                lines += ["#else", "no"]
            lines.append("#endif")
        return "\n".join(lines) + "\n"

    def macros(self):
        stock = "f g h A B ( ) , f( g( h( x y __LINE__ + 1 f(x) g(x,y) h() (f) f(f) f(g) g(f,A) f(A)(1) B(".split() + ["f ("]
        if self.chance(0.6):
            stock = self.r.sample(stock, self.r.randint(4, 12)) + ["x", ")"]
        heads = {"A": "A", "B": "B", "f": "f(x)", "g": "g(x,y)", "h": "h()"}

        def some(most, more=()):
            return self.join(lambda: self.pick(*stock, *more), most)

        def define(name):
            return f"#define {heads[name]} {some(5, {'f': 'xx', 'g': 'xyxy'}.get(name, ''))}"

        lines = [define(name) for name in heads if self.chance(0.75)]
        for _ in range(self.r.randint(1, 7)):
            roll = self.r.random()
            if roll < 0.7:
                lines.append(some(8))
            elif roll < 0.78:
                name = self.pick(*heads)
                lines += ["#undef " + name, *([define(name)] if self.chance(0.6) else [])]
            elif roll < 0.86:
                lines += [self.pick("#ifdef A", "#ifndef A", "#ifdef f", "#if 1", "#if 0", "#if A || 1"), some(5)]
                lines += ["#else", some(5)] if self.chance(0.5) else []
                lines.append("#endif")
            elif roll < 0.93:
                lines.append(f"#line {self.r.randint(0, 50)}")
            else:
                lines.append(self.pick("#pragma x y", "#version 1", "#extension z"))
        if self.chance(0.6):
            lines.append(")" * self.r.randint(1, 6))
        return "\n".join(lines) + "\n"


# Tokens made without a text

# No name has a line end in it, as the listing shows names as they are.
ODD_NAMES = [b"\x00", b"\xff\xfe", b"\xc3\xa4", b" ", b"defined ", b"__LINE_"]
ODD_NAMES += [b"SUPPLY_A1", b"SUPPLY_A2", b"q" * 100, b"q" * 99 + b"r"]
ODD_INTEGERS = [2**31, 2**32 - 1, 2**32, 2**63 - 1, 2**63, 2**63 + 1, 2**64 - 1]
ODD_FLOATS = [0, 0x80000000, 0x7F800000, 0xFF800000, 0x7FC00000, 0x7F800001, 0xFFFFFFFF, 1, 0x3F800000]
ODD_PLACES = [0, 1, 2**31 - 1, 2**31, 2**32 - 1]


def odd_value(r):
    """A token of any kind, without marks and places."""
    roll = r.random()
    if roll < 0.35:
        names = [b"A", b"B", b"f", b"g", b"x", b"y", *c.WORDS]
        return Token(c.NAME, r.choice(names if r.random() < 0.9 else ODD_NAMES))
    if roll < 0.5:
        value = r.choice(ODD_INTEGERS) if r.random() < 0.2 else r.randint(0, 3)
        width = r.choice([0, 1, 16, 64, 0x7FFF, 0x8000, 0xFFFF]) if r.random() < 0.2 else 32
        return Token(c.INTEGER, value, signed=r.random() < 0.5, width=width)
    if roll < 0.54:
        return Token(c.FLOAT, r.choice(ODD_FLOATS), width=r.choice([0, 32, 32, 32, 0xFFFF]))
    if roll < 0.99:
        frequent = "( ( ) ) , + - * == && || ! ~ < >>".split()
        return Token(c.PUNCT, c.PUNCTS.index(r.choice(frequent if r.random() < 0.8 else c.PUNCTS)))
    return Token(c.HASH, 0)


def a_name(spelling):
    return Token(c.NAME, spelling.encode("ascii"))


def a_punct(spelling):
    return Token(c.PUNCT, c.PUNCTS.index(spelling))


def soup_line(r, blocks):
    """The tokens of a line, without its line end. It mostly closes no block where none is open."""
    start, macro = Token(c.HASH, 0), a_name(r.choice("ABfgx"))
    rest = [odd_value(r) for _ in range(r.choice([0, 1, 2, 3, 5, 8]))]
    roll = r.random()
    if roll < 0.4:
        return rest
    if roll < 0.55:
        parameters = [a_punct("("), a_name("x"), *r.choice([[], [a_punct(","), a_name("y")]]), a_punct(")")]
        return [start, a_name("define"), macro, *(parameters if r.random() < 0.6 else []), *rest]
    if roll < 0.65:
        return [start, a_name("undef"), macro] + (rest if r.random() < 0.1 else [])
    if roll < 0.7:
        return [start, a_name("line"), Token(c.INTEGER, r.choice([0, 1, 7, 2**32 - 3, 2**32]), width=32), *rest[:1]]
    if roll < 0.77:
        return [start, a_name(r.choice(["if", "elif"] if blocks else ["if"])), *r.choice([rest, [Token(c.INTEGER, 1)]])]
    if roll < 0.84:
        return [start, a_name(r.choice(["ifdef", "ifndef"])), macro]
    if roll < 0.94 and (blocks or r.random() < 0.05):
        return [start, a_name(r.choice(["else", "endif", "endif"])), *(rest if r.random() < 0.05 else [])]
    return [start, a_name("error" if r.random() < 0.05 else r.choice(["version", "extension", "pragma"])), *rest]


def odd_marks(r, tokens):
    """The tokens with random marks."""
    comments_from = r.choice([0, r.randint(0, len(tokens)), len(tokens)])
    seldom = r.choice([0, 0, 0.02, 0.3])
    out, fresh = [], True
    for i, token in enumerate(tokens):
        started = fresh and r.random() >= seldom
        out.append(token._replace(whitespace=r.random() < 0.4, line_start=started, comments=i >= comments_from))
        fresh = token.kind == c.LINE_END
    return out


def odd_places(r, tokens):
    """The tokens with random places; mostly no two have the same, so that none is taken for another."""

    def odd(usual):
        return r.choice(ODD_PLACES) if r.random() < 0.05 else usual

    out, line = [], r.choice([0, 1, 1, 1, 100, 2**32 - 8])
    for i, token in enumerate(tokens):
        start = 1000 + 10 * i
        out.append(token._replace(start=odd(start), end=odd(start + r.randint(-5, 5)), line=odd(min(line, 2**32 - 1))))
        if r.random() < 0.15 or token.kind == c.LINE_END:
            line = max(0, line + r.choice([0, 1, 1, 1, 1, 2, -3]))
    return out


def file_of(r, tokens):
    """The token file; its names are sometimes out of order, twice in it or without use."""
    names = []
    if r.random() < 0.2:
        used = [t.value for t in tokens if t.kind == c.NAME]
        names = r.sample(used, min(3, len(used))) + r.sample(ODD_NAMES + c.WORDS, 3)
        r.shuffle(names)
    return c.encode(tokens, names)


def soup(r):
    tokens, blocks = [], 0
    for _ in range(r.randint(1, 16)):
        line = soup_line(r, blocks)
        tokens += [*line, Token(c.LINE_END, 0)]
        word = line[1].value if len(line) > 1 and line[0].kind == c.HASH else b""
        blocks += (word in (b"if", b"ifdef", b"ifndef")) - (word == b"endif")
    if r.random() < 0.9:
        tokens += [Token(c.HASH, 0), a_name("endif"), Token(c.LINE_END, 0)] * blocks
    return file_of(r, c.lawful(odd_places(r, odd_marks(r, tokens))))


def text_file(make):
    """The token file of a text, made again until it can be lexed."""
    while True:
        try:
            return c.lexed(make())
        except lex.LexError:
            continue


def shaken(r):
    tokens = text_file(lambda: r.choice([Script.whole, Script.conditions, Script.macros])(Script(r)))
    if r.random() < 0.6:
        tokens = odd_places(r, tokens)
    if r.random() < 0.4:
        tokens = odd_marks(r, tokens)
    for i, token in enumerate(tokens):
        if token.kind == c.INTEGER and r.random() < 0.2:
            odd = r.choice([token.value, r.choice(ODD_INTEGERS)])
            tokens[i] = token._replace(value=odd, signed=r.random() < 0.5, width=r.choice([0, 32, 64, 0xFFFF]))
        elif token.kind == c.FLOAT and r.random() < 0.5:
            tokens[i] = token._replace(value=r.choice(ODD_FLOATS))
    return file_of(r, c.lawful(tokens))


def host_definition(r):
    script = Script(r)
    name = script.pick(*OBJECTS, *FUNCTIONS, "x", script.pick("__LINE__", "defined", "if", "fresh"))

    def text():
        body = script.pick(script.number(), script.body([]), script.sum(1), "", script.word())
        if script.chance(0.15):
            body += script.pick(" # ", "\n# ", "#") + script.body([])
        return name + " " + (body.replace(" ", "\n", 1) if script.chance(0.1) else body)

    tokens = text_file(text)
    if script.chance(0.5):
        tokens = odd_places(r, tokens)
    return Define(file_of(r, c.lawful(tokens)))


def calls(r):
    out = []
    for _ in range(r.choice([1, 1, 2, 3, 6])):
        out += [NEXT] * r.choice([0, 0, 1, 2, 5, 20])
        out.append(host_definition(r))
    out.append(ALL if r.random() < 0.8 else NEXT)
    if r.random() < 0.3:
        out += [host_definition(r), NEXT, ALL]
    return tuple(out)


def session(r):
    make = r.choice([Script.whole, Script.whole, Script.macros, Script.conditions])
    return file_of(r, text_file(lambda: make(Script(r)))), calls(r)


# Damage

def damaged(r):
    file = soup(r) if r.random() < 0.5 else c.encode(text_file(Script(r).whole))
    return r.choice([damaged_bytes, damaged_field, damaged_field, damaged_laws, damaged_names])(r, file)


def damaged_bytes(r, file):
    data = bytearray(file)
    roll = r.random()
    if roll < 0.3:
        return bytes(data[: r.randrange(len(data))])
    if roll < 0.5:
        return bytes(data) + bytes(r.choice([1, 2, 23, 24, 25]))
    if roll < 0.6:
        count = r.choice([0, 4])
        struct.pack_into("<I", data, count, r.choice([0, 1, 2**32 - 1, 2**31, r.randint(0, 50)]))
        return bytes(data)
    for _ in range(r.choice([1, 1, 2, 5])):
        data[r.randrange(len(data))] = r.randrange(256)
    return bytes(data)


def damaged_field(r, file):
    data = bytearray(file)
    count = len(c.decode(file))
    if not count:
        return file
    at = len(data) - 24 * r.randint(1, count)
    offset, form, values = r.choice(
        [
            (0, "B", [0, 1, 2, 3, 4, 5, 6, 255]),
            (1, "B", [0, 1, 2, 4, 6, 8, 9, 15, 16, 128]),
            (2, "H", [0, 1, 32, 0xFFFF]),
            (4, "Q", [0, 1, 44, 45, 2**32 - 1, 2**32, 2**63, len(file)]),
            (12, "I", ODD_PLACES),
            (20, "I", ODD_PLACES),
        ]
    )
    struct.pack_into("<" + form, data, at + offset, r.choice(values))
    return bytes(data)


def damaged_laws(r, file):
    tokens = c.decode(file)
    if not tokens:
        return file
    i = r.randrange(len(tokens))
    roll = r.random()
    if roll < 0.3:
        tokens[i] = tokens[i]._replace(line_start=True)
    elif roll < 0.6:
        tokens[i] = tokens[i]._replace(comments=not tokens[i].comments)
    elif roll < 0.8:
        tokens = tokens[: i + 1]
    else:
        del tokens[i]
    return c.encode(tokens)


def damaged_names(r, file):
    tokens = c.decode(file)
    names = r.choice(
        [
            [b""],
            [b"n" * r.choice([1023, 1024, 1025])],
            [b"%d" % i for i in range(r.choice([990, 1000, 1015]))],
            [b"%c" % (i + 65) * 1024 for i in range(r.choice([14, 15, 16]))],
            [b"same"] * 1100,
        ]
    )
    return c.encode(tokens, names)


KINDS = {
    "scripts": lambda r: (c.encode(text_file(lambda: Script(r).whole())), (ALL,)),
    "broken": lambda r: (c.encode(text_file(lambda: Script(r).broken())), (ALL,)),
    "conditions": lambda r: (c.encode(text_file(lambda: Script(r).conditions())), (ALL,)),
    "macros": lambda r: (c.encode(text_file(lambda: Script(r).macros())), (ALL,)),
    "soup": lambda r: (soup(r), (ALL,)),
    "shaken": lambda r: (shaken(r), (ALL,)),
    "sessions": session,
    "damaged": lambda r: (damaged(r), (ALL,)),
}


def generate(seed, count, kinds=tuple(KINDS)):
    """Yields the cases, of each kind in turn."""
    for number in range(count):
        yield named(f"{kinds[number % len(kinds)]}-{seed}-{number}")


def named(name):
    """The case of a name, which is its kind, the seed and its number. It depends on nothing else."""
    return Case(name, *KINDS[name.split("-")[0]](random.Random(name)))


def kinds_of(text):
    kinds = tuple(text.split(","))
    for kind in kinds:
        if kind not in KINDS:
            raise argparse.ArgumentTypeError(f"no kind {kind}; there are {', '.join(KINDS)}")
    return kinds


def main():
    parser = argparse.ArgumentParser(description="Random cases, as a container on standard output.")
    parser.add_argument("--seed", type=int, default=1)
    parser.add_argument("--cases", type=int, default=100)
    parser.add_argument("--kinds", type=kinds_of, default=tuple(KINDS))
    options = parser.parse_args()
    sys.stdout.buffer.write(c.pack(generate(options.seed, options.cases, options.kinds)))


if __name__ == "__main__":
    main()
