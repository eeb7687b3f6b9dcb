#!/usr/bin/env python3
"""Compares the port with pp-rs itself on random cases.

usage: compare.py PPRS_FOLDER [--seed N] [--cases N] [--kinds KIND,KIND...] [--case NAME] [--tests] [--container FILE]
                  [--seconds S] [--trace PROGRAM] [--replay PROGRAM]

PPRS_FOLDER  the sources of pp-rs 0.2.1: token.rs, pp.rs and pp/if_parser.rs
--case       one random case again, by its name; its answers are printed
--tests      the cases of tests/ in the place of random ones
--container  the cases of a container in the place of random ones
--seconds    the time that pp-rs has for a case
--trace, --replay   the port's program, crates/trace/out/trace or, if that is not there, crates/replay/out/replay

The status is 1 if a case differs.
"""

import argparse
import collections
import re
import subprocess
import sys
import time
from pathlib import Path

import cases as c
import generate
from build import BuildError, build
from cases import ALL, NEXT, Case, Define

ROOT = Path(__file__).resolve().parent.parent
SAVED = ROOT / "oracle" / "target" / "saved"
BATCH = 500
PATIENCE = 10  # times the seconds of a case, where pp-rs gave no answer and the port met no limit
PORT_SECONDS = 120
SHRUNK = 5  # the differing cases that are made smaller and shown
SHRINK_SECONDS = 60
NAMED = 5  # the cases of each limit that are named
LIMITS = range(31, 42)


class Failed(Exception):
    pass


def run(program, data, seconds):
    try:
        done = subprocess.run(program, input=data, stdout=subprocess.PIPE, stderr=subprocess.PIPE, timeout=seconds)
    except subprocess.TimeoutExpired:
        raise Failed(f"no end within {seconds} s") from None
    if done.returncode != 0:
        raise Failed(f"status {done.returncode} {done.stderr[:200].decode('latin-1')}")
    return done.stdout


def parts(output, cases):
    """The output of each case as lines."""
    out = output.decode("latin-1")
    heads = [f"== {case.name}\n" for case in cases]
    starts, at = [], 0
    for head in heads:
        at = out.find(head, at)
        if at < 0 or at and out[at - 1] != "\n":
            raise Failed(f"no answers under {head.strip()}")
        starts.append(at)
        at += len(head)
    ends = starts[1:] + [len(out)]
    return [out[start + len(head) : end].split("\n")[:-1] for head, start, end in zip(heads, starts, ends)]


def answers(lines):
    """A directive's tokens are part of its answer."""
    out = []
    for line in lines:
        if line.startswith("  ") and out:
            out[-1] += "\n" + line
        else:
            out.append(line)
    return out


class Rust:
    """pp-rs itself."""

    def __init__(self, program, seconds):
        self.program, self.seconds = program, seconds

    def __call__(self, cases, seconds=None):
        seconds = seconds or self.seconds
        output = run([self.program, str(seconds)], c.pack(cases), 60 + 2 * seconds * len(cases))
        return [answers(lines) for lines in parts(output, cases)]


class Port:
    """One of the port's programs; a case on which it fails is answered by what happened."""

    def __init__(self, program):
        self.program = program

    def __call__(self, cases):
        try:
            return [self.answers(lines) for lines in parts(run([self.program], self.pack(cases), PORT_SECONDS), cases)]
        except Failed as failed:
            if len(cases) == 1:
                return [[f"failed: {failed}"]]
        middle = len(cases) // 2
        return self(cases[:middle]) + self(cases[middle:])


class Trace(Port):
    """Shows all that pp-rs answers."""

    shows = "places, values and host definitions"
    pack = staticmethod(c.pack)
    answers = staticmethod(answers)

    def case(self, case):
        return case

    def shown(self, rust):
        return rust

    def tail(self, case, fault, before):
        return same_fault(case, fault, before)


class Replay(Port):
    """Shows the line and the spelling of each token, and the number and the line of a fault."""

    shows = "lines and spellings only, no places, marks and host definitions"
    pack = staticmethod(c.pack_listed)

    @staticmethod
    def answers(lines):
        # A fault of a run also has its layer, which pp-rs does not know.
        return [re.sub(r"^fault (\d+) \d+ (\d+)$", r"fault \1 \2", line) for line in lines]

    def case(self, case):
        return case._replace(calls=(ALL,))

    def shown(self, rust):
        return "\n".join(listed(answer) for answer in rust).split("\n")

    def tail(self, case, fault, before):
        return []


def listed(answer):
    """An answer of the oracle as a line of the listing."""
    words = answer.split("\n")[0].split(" ")
    if words[0] == "fault":
        return f"fault {words[1]} {words[4]}"
    if words[0] != "token":
        return answer
    line, kind, value = words[3], words[4], words[5]
    if kind == "ident":
        value = bytes.fromhex(value).decode("latin-1")
    elif kind == "float":
        value = "f" + value
    elif kind in ("version", "extension", "pragma"):
        value = f"{kind} {words[-1]}"
    return f"{line} {value}"


def same_fault(case, fault, before):
    """What must follow a fault: that fault again, to every later call."""
    before, at = before + [fault], 0
    for number, call in enumerate(case.calls):
        at += 1
        while call == ALL and before[at - 1] != "end" and at < len(before):
            at += 1
        if at == len(before):
            return ["refused" + fault[5:] if isinstance(later, Define) else fault for later in case.calls[number + 1 :]]
    return []


def number(answer):
    """The number of a fault or refusal, else 0."""
    found = re.match(r"(?:fault|refused) (\d+)", answer)
    return int(found[1]) if found else 0


def judge(port, case, ours, rust):
    """agreed, differed, no answer, refused file, negation or limit N."""
    refused = c.refusal(case.file)
    if refused:
        return "refused file" if ours == [f"fault {refused}"] else "differed"
    theirs = port.shown(rust)
    at = 0
    while at < len(ours) and at < len(theirs) and ours[at] == theirs[at] and not ours[at].startswith("fault "):
        at += 1
    if at == len(ours) == len(theirs):
        return "agreed"
    mine = ours[at] if at < len(ours) else ""
    met = theirs[at] if at < len(theirs) else ""
    if met == "no answer":
        return "no answer" if any(number(answer) in LIMITS for answer in ours[at:]) else "differed"
    if mine.startswith("fault ") and ours[at + 1 :] != port.tail(case, mine, ours[:at]):
        return "differed"
    if mine == met:
        return "agreed"
    if number(mine) in LIMITS:
        return "no answer" if theirs[-1] == "no answer" else f"limit {number(mine)}"
    if met == "negated" and number(mine) == 1 and at_expression(case, mine):
        return "negation"
    return "differed"


def at_expression(case, fault):
    """Whether a fault's place is that of a word before an expression."""
    place = fault.split(" ")[2:]
    words = [t for t in c.decode(case.file) if t.kind == c.NAME and t.value in (b"if", b"elif", b"line")]
    return any(place == [str(n) for n in (t.start, t.end, t.line)][-len(place) :] for t in words)


class Comparison:
    def __init__(self, port, rust):
        self.port, self.rust = port, rust

    def verdicts(self, cases):
        """Each case with its verdict, the port's answers and pp-rs's."""
        ours = self.port(cases)
        judged = [case for case in cases if c.refusal(case.file) is None]
        theirs = dict(zip((case.name for case in judged), self.rust(judged))) if judged else {}
        for case, mine in zip(cases, ours):
            rust = theirs.get(case.name, [])
            verdict = judge(self.port, case, mine, rust)
            if verdict == "differed" and rust[-1:] == ["no answer"]:
                (rust,) = self.rust([case], self.rust.seconds * PATIENCE)
                verdict = judge(self.port, case, mine, rust)
            yield case, verdict, mine, rust

    def differs(self, case):
        ((_, verdict, _, _),) = self.verdicts([case])
        return verdict == "differed"

    def shrunk(self, case):
        """A smallest case that still differs: no call, line or token can be left out."""
        if c.refusal(case.file) is not None:
            return case
        until = time.monotonic() + SHRINK_SECONDS

        def reduce(case, items, put):
            """Leaves out as many items as can be, many at once first; if need be, as many nexts with them."""
            size = max(1, len(items) // 2)
            while size and time.monotonic() < until:
                at, less = 0, False
                while at < len(items) and time.monotonic() < until:
                    fewer = items[:at] + items[at + size :]
                    smaller = next(filter(self.differs, fewer_nexts(put(case, fewer), size)), None)
                    if smaller:
                        case, items, less = smaller, fewer, True
                    else:
                        at += size
                size = size if less and size == 1 else size // 2
            return case

        before = None
        while case != before and time.monotonic() < until:
            before = case
            case = reduce(case, list(case.calls), with_calls)
            case = reduce(case, lines_of(c.decode(case.file)), with_lines)
            case = reduce(case, c.decode(case.file), with_tokens)
            for which, define in enumerate(defines(case)):
                name, *body = c.decode(define.file)
                case = reduce(case, body, with_body(which, name))
        return case


def with_calls(case, calls):
    return case._replace(calls=tuple(calls) or (ALL,))


def with_tokens(case, tokens):
    return case._replace(file=c.encode(c.lawful(tokens)))


def with_lines(case, lines):
    return with_tokens(case, [token for line in lines for token in line])


def defines(case):
    return [call for call in case.calls if isinstance(call, Define)]


def with_body(which, name):
    """Puts another body into one of the host definitions."""

    def put(case, body):
        news = defines(case)
        news[which] = Define(c.encode(c.lawful([name, *body])))
        return case._replace(calls=tuple(news.pop(0) if isinstance(call, Define) else call for call in case.calls))

    return put


def fewer_nexts(case, count):
    """The case, and the case with some nexts less in one row of nexts."""
    yield case
    at = 0
    while at < len(case.calls):
        row = 0
        while at + row < len(case.calls) and case.calls[at + row] == NEXT:
            row += 1
        if row >= count:
            yield case._replace(calls=case.calls[:at] + case.calls[at + count :] or (ALL,))
        at += row + 1


def lines_of(tokens):
    lines = [[]]
    for token in tokens:
        lines[-1].append(token)
        if token.kind == c.LINE_END:
            lines.append([])
    return lines if lines[-1] else lines[:-1]


def report(case, ours, rust):
    """Prints a case with both answers and saves it."""
    SAVED.mkdir(parents=True, exist_ok=True)
    path = SAVED / f"{case.name.replace('/', '-')}.case"
    path.write_bytes(c.pack([case]))
    print(f"\n{case.name}, saved as {path.relative_to(ROOT)}")
    if c.refusal(case.file) is None:
        tokens = c.decode(case.file)
        print("\n".join("  " + line for line in c.text(tokens) + [""] + c.show(tokens)))
    else:
        print(f"  the rules refuse the file with {c.refusal(case.file)}")
    for call in case.calls if case.calls != (ALL,) else ():
        print("  call " + ("define" if isinstance(call, Define) else {NEXT: "next", ALL: "all"}[call]))
        if isinstance(call, Define):
            print("\n".join("    " + line for line in c.show(c.decode(call.file))))
    for side, lines in (("port", ours), ("pp-rs", rust)):
        print(f"  {side}:")
        print("\n".join("    " + line for answer in lines for line in answer.split("\n")))


def fixed_cases(options):
    """The case named, the cases of tests/ or of a container; None for random ones."""
    if options.case:
        return [generate.named(options.case)]
    if options.tests:
        import pack

        return [Case(name, file) for name, file, _ in pack.cases()]
    if options.container:
        return c.unpack(options.container.read_bytes())
    return None


def port_of(options):
    trace = options.trace or ROOT / "crates" / "trace" / "out" / "trace"
    replay = options.replay or ROOT / "crates" / "replay" / "out" / "replay"
    if options.trace or trace.is_file() and not options.replay:
        return Trace(trace)
    if not replay.is_file():
        raise BuildError("neither crates/trace/out/trace nor crates/replay/out/replay is there: build one by `rt run` in its folder")
    return Replay(replay)


def listed_counts(counts):
    return ", ".join(f"{name} {count}" for name, count in sorted(counts.items(), key=lambda item: (-item[1], item[0])))


def compare(comparison, source):
    """Prints the first differing cases.

    Answers the counts of verdicts, of last answers that agree and of those before them, and who met which limit.
    """
    verdicts, last_answers, earlier = collections.Counter(), collections.Counter(), 0
    limits = collections.defaultdict(list)
    while batch := [comparison.port.case(case) for _, case in zip(range(BATCH), source)]:
        for case, verdict, ours, rust in comparison.verdicts(batch):
            verdicts[verdict] += 1
            if verdict == "agreed":
                at = next((i for i, answer in enumerate(ours) if answer.startswith("fault ")), len(ours) - 1)
                last_answers[" ".join(ours[at].split(" ")[: 2 if number(ours[at]) else 1])] += 1
                earlier += at
            if verdict.startswith("limit "):
                limits[verdict].append(case.name)
            if verdict == "differed" and verdicts["differed"] <= SHRUNK:
                small = comparison.shrunk(case)
                ((_, _, ours, rust),) = comparison.verdicts([small])
                report(small, ours, rust)
    return verdicts, last_answers, earlier, limits


def case_name(text):
    if text.split("-")[0] not in generate.KINDS:
        raise argparse.ArgumentTypeError(f"{text} is no name of a random case")
    return text


def main():
    parser = argparse.ArgumentParser(description="Compares the port with pp-rs itself on random cases.")
    parser.add_argument("folder", metavar="PPRS_FOLDER", type=Path)
    parser.add_argument("--seed", type=int, default=1)
    parser.add_argument("--cases", type=int, default=2000)
    parser.add_argument("--kinds", type=generate.kinds_of, default=tuple(generate.KINDS))
    parser.add_argument("--case", type=case_name)
    parser.add_argument("--tests", action="store_true")
    parser.add_argument("--container", type=Path)
    parser.add_argument("--seconds", type=float, default=1.0)
    parser.add_argument("--trace", type=Path)
    parser.add_argument("--replay", type=Path)
    options = parser.parse_args()
    try:
        comparison = Comparison(port_of(options), Rust(build(options.folder), options.seconds))
        print(f"compared by {comparison.port.program.name}: {comparison.port.shows}")
        fixed = fixed_cases(options)
        source = fixed if fixed is not None else generate.generate(options.seed, options.cases, options.kinds)
        verdicts, last_answers, earlier, limits = compare(comparison, iter(source))
        if options.case:
            for case, _, ours, rust in comparison.verdicts([comparison.port.case(fixed[0])]):
                report(case, ours, rust)
    except (BuildError, Failed, OSError) as error:
        print(f"compare.py: {error}", file=sys.stderr)
        return 2

    aside = {v: n for v, n in verdicts.items() if v == "negation" or v in limits}
    if fixed is None:
        print(f"seed {options.seed}, kinds {', '.join(options.kinds)}")
    print(f"cases         {sum(verdicts.values())}")
    print(f"agreed        {verdicts['agreed']}, last answers: {listed_counts(last_answers)}; {earlier} answers before them")
    print(f"refused files {verdicts['refused file']}, as the rules say")
    print(f"left aside    {sum(aside.values())}{': ' + listed_counts(aside) if aside else ''}")
    for limit, names in sorted(limits.items()):
        print(f"  {limit}: {', '.join(names[:NAMED])}{', ...' if len(names) > NAMED else ''}")
    print(f"no answer     {verdicts['no answer']}")
    print(f"differed      {verdicts['differed']}")
    return 1 if verdicts["differed"] else 0


if __name__ == "__main__":
    sys.exit(main())
