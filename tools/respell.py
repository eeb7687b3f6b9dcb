#!/usr/bin/env python3
"""Respells the repository's own definitions and lemmas: words in snake case, types and facts in camel case.

usage: python3 tools/respell.py [--dry]     at the top of the repository, once, on what the kit's port.py leaves

Names that Rattle makes (goals, steps, fields of generated records) and names of src/ stay as they are.
It stops, and writes nothing, where two names would fall together.
"""

import os
import re
import sys

# A name of antt: what stands between blanks, brackets, dots and commas.
WORD = re.compile(r"[^\s(){}\[\].,;«»⌜⌝\"]+")
DEFINED = re.compile(r"^\s*(?:(?:abbrev|unfoldable|pub|record|data|ruleset) )*([^\s:(){}.]+)((?: [({].*)?) : (.*)$")

# Where the plain rule would give the name of a function of src/, or one name to two things.
CHOSEN = {
    "callSlot": "slot_of_call",
    "ends-line": "ends_line_lem",
    "file-tokens": "file_tokens_lem",
    "freshAfter": "fresh_behind",
    "isNewLine": "is_newline",
    "levelOf": "operator_level",
    "punctOf": "punct_numbered",
    "sameInteger": "integers_agree",
    "sameTokens": "token_lists_agree",
    "sameValue": "values_agree",
    "seenAfter": "seen_behind",
    "tokenOf": "decoded_token",
}


def texts(ending):
    for folder, dirs, files in os.walk("crates"):
        dirs[:] = sorted(d for d in dirs if d != "out")
        for f in sorted(files):
            if f.endswith(ending):
                yield os.path.join(folder, f)


def read(path):
    with open(path, encoding="utf-8") as f:
        return f.read()


def respelled(name):
    """The name as it should be: SameNumber for Same-number, by_test for by-test, token_of for tokenOf."""
    if name in CHOSEN:
        return CHOSEN[name]
    if name[0].isupper():
        return "".join(w[:1].upper() + w[1:] for w in name.split("-"))
    out = re.sub(r"(?<=[a-z0-9])([A-Z])", lambda m: "_" + m.group(1).lower(), name)
    return out.replace("-", "_")


def own_names():
    """The definitions and lemmas that the repository writes: of specs/, of proofs/, and helpers beside answers."""
    names = {}
    for path in texts(".antt"):
        for line in read(path).splitlines():
            m = DEFINED.match(line)
            if not m or line.lstrip().startswith("--"):
                continue
            name, _, said = m.groups()
            if "goal." in said or name in ("let", "use") or name.startswith(("λ", "→")):
                continue
            if respelled(name) != name:
                names.setdefault(name, set()).add(path)
    return names


def turned(text, names):
    """The text with each of the names respelled, but for those behind a dot: these are fields, and Rattle's.

    In a source file none of them can be a name of Rust, as each has a dash or a capital inside."""

    def one(m):
        word = m.group(0)
        if word not in names:
            return word
        before = text[: m.start()]
        if before.endswith(".") and not re.search(r"Rattle\.[\w.+-]*\.$", before):
            return word
        return respelled(word)

    return WORD.sub(one, text)


def fallen_together(names):
    """Pairs of names that would be one, in a file where both stand."""
    bad = []
    found = {respelled(n): n for n in names}
    for path in list(texts(".antt")) + list(texts(".rt")):
        words = set(WORD.findall(re.sub(r"--[^\n]*|//[^\n]*", "", read(path))))
        for new, old in found.items():
            if old in words and new in words:
                bad.append((path, old, new))
    seen = {}
    for n in sorted(names):
        seen.setdefault(respelled(n), []).append(n)
    bad += [("two names", *v) for v in seen.values() if len(v) > 1]
    return bad


def main(argv):
    names = own_names()
    bad = fallen_together(names)
    for b in bad:
        print("falls together:", *b)
    if "--dry" in argv:
        for n in sorted(names):
            print(n, "->", respelled(n))
    if bad:
        return 1
    if "--dry" in argv:
        return 0
    count = 0
    for path in list(texts(".antt")) + list(texts(".rt")):
        old = read(path)
        new = turned(old, names)
        if new != old:
            with open(path, "w", encoding="utf-8") as f:
                f.write(new)
            count += 1
    print(f"{len(names)} names respelled, in {count} files")
    return 0


if __name__ == "__main__":
    sys.exit(main(sys.argv[1:]))
