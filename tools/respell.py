#!/usr/bin/env python3
"""Brings the repository's own definitions, lemmas, fields and local facts to one spelling.

usage: python3 tools/respell.py [--list]        in the repository, after port.py: rewrites crates/ and the names in docs/ in place

A fact (what ends in a Type) and a record are in upper camel case, everything else in snake case.
It takes no name that Rattle makes (a goal, an invariant, a measure), none of src/'s code, no string and no hyphen of a comment.
It stops where two names would fall together in one file, unless one of them is a function of src/, which a clause cannot name.
"""

import glob
import re
import sys

# A fact whose new spelling is a type's name already.
CHOSEN = {"Holds-bytes": "HoldsFileBytes"}
# Names that a λ or the left side of an equation binds.
BOUND = ["a-is", "at-is", "e-is", "e₀-is", "f-is", "load-i", "load-k", "no-entry", "no-use", "none-p", "none-q", "none-reach", "not-out"]
WORD = r"[\w'₀-₉\-]"
MADE = re.compile(r"\bgoal\.")
TOP = re.compile(r"^(?:(?:abbrev|unfoldable|pub|record|data)\s+)*([^\s:(){}=,;]+)\s*(?:[({].*?)?:\s*(.*)$")
FIELD = re.compile(r"^\s+(?:pub )?([^\s:()]+) :")
LOCAL = re.compile(r"\blet ([^\s:()=]+) (?::|=)")


def antts():
    return sorted(f for f in glob.glob("crates/*/specs/**/*.antt", recursive=True) + glob.glob("crates/*/proofs/**/*.antt", recursive=True) if "/out/" not in f)


def is_fact(line):
    return bool(re.match(r"(?:pub )?(?:record|data) ", line)) or bool(re.search(r"Type [01](?: where)?\s*$", line))


def camel(name):
    return "".join(p[:1].upper() + p[1:] for p in re.split(r"[-_]", name))


def snake(name):
    name = re.sub(r"(?<=[a-z0-9])([A-Z])", lambda m: "-" + m.group(1).lower(), name)
    return name.replace("-", "_")


def named():
    """The names to turn, each with its new spelling."""
    turns = {a: snake(a) for a in BOUND}
    for f in antts():
        for line in open(f, encoding="utf-8"):
            line = line.rstrip("\n")
            if line.startswith(("use ", "--", "mod ", "pub mod ", "unfolding", "open ")) or MADE.search(line):
                continue
            m = TOP.match(line) if not line.startswith(" ") else None
            if m:
                name = m.group(1)
                turns[name] = camel(name) if is_fact(line) else snake(name)
            for m in [FIELD.match(line)] if FIELD.match(line) else LOCAL.finditer(line):
                turns.setdefault(m.group(1), snake(m.group(1)))
    return {a: CHOSEN.get(a, b) for a, b in turns.items() if a != b and re.search(r"[a-z][A-Z]|-", a)}


def turned(text, turns):
    return re.sub(rf"(?<![◌«]){WORD}+", lambda m: turns.get(m.group(0), m.group(0)), text)


def pieces(line, mark):
    """A line's code, and its comment from mark on."""
    inside = False
    for i, c in enumerate(line):
        if c == '"':
            inside = not inside
        if not inside and line.startswith(mark, i):
            return line[:i], line[i:]
    return line, ""


def rewrite(path, mark, turns):
    lines = open(path, encoding="utf-8").read().split("\n")
    plain = {a: b for a, b in turns.items() if "-" not in a}
    out = []
    for line in lines:
        code, comment = pieces(line, mark)
        parts = re.split(r'("(?:[^"\\]|\\.)*")', code)
        code = "".join(p if k % 2 else turned(p, turns) for k, p in enumerate(parts))
        out.append(code + turned(comment, plain))
    return "\n".join(out)


def words(path):
    return set(re.findall(rf"{WORD}+", open(path, encoding="utf-8").read()))


def main(argv):
    turns = named()
    if "--list" in argv:
        for a in sorted(turns):
            print(a, turns[a])
        return 0
    files = [(f, "--") for f in antts()] + [(f, "//") for f in sorted(glob.glob("crates/*/src/**/*.rt", recursive=True))]
    clash = []
    functions = set()
    for f in glob.glob("crates/*/src/**/*.rt", recursive=True):
        functions |= set(re.findall(r"\bfn (\w+)", open(f, encoding="utf-8").read()))
    for f, _ in files:
        # A definition may have the name of the function that answers it.
        have = words(f) - functions
        clash += [f"{f}: {a} and {turns[a]}" for a in sorted(turns) if a in have and turns[a] in have]
    seen = {}
    for a, b in turns.items():
        if b in seen:
            clash.append(f"{a} and {seen[b]} both become {b}")
        seen[b] = a
    if clash:
        print("\n".join(clash))
        return 1
    for f, mark in files:
        new = rewrite(f, mark, turns)
        open(f, "w", encoding="utf-8").write(new)
    for f in sorted(glob.glob("docs/*.md") + ["README.md"]):
        text = open(f, encoding="utf-8").read()
        new = re.sub(r"`[^`\n]+`", lambda m: turned(m.group(0), turns), text)
        open(f, "w", encoding="utf-8").write(new)
    print(f"respelled {len(turns)} names in {len(files)} files")
    return 0


if __name__ == "__main__":
    raise SystemExit(main(sys.argv[1:]))
