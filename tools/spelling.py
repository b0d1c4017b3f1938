#!/usr/bin/env python3
"""Brings the repository's own definitions, fields, constructors and lemmas to one spelling: words in snake case.

usage: tools/spelling.py [--check] [TOP]

- A part of a name that is in camel case and begins small, as readBack or moversBut-more, gets snake case: read_back, movers_but-more.
- A name that specs/ declares and that joins its words by dashes, as held-8 or leads-to, gets underscores: held_8, leads_to.
  A lemma's dashes stay: there a dash joins two names.

It was run once, behind the toolchain's own scripts, over crates/*/specs, crates/*/proofs, the clauses and `ghost use` lines of
crates/*/src and the texts of crates/*/must-fail. Strings, and code outside clauses, are left as they are (no name there is in camel
case). --check writes nothing and lists the names that would fall together with one that a file has already.
"""

import collections
import glob
import os
import re
import sys

WORD = re.compile(r'"(?:[^"\\\n]|\\.)*"|[^\s(){}.;,@"«»\[\]\\:&*!<>=|+/]+')
CAMEL = re.compile(r"[a-z][a-z0-9_]*[A-Z]")
DECLARED = re.compile(r"(?m)^ *(?:(?:abbrev|unfoldable|opaque|pub) )*([a-z][^\s(){}:]*-[^\s(){}:]*) (?:\{[^}]*\} )?:")
NUMERAL = re.compile(r"^(0x|x[0-9A-F])")
# Names that would fall together: in which files, the name, and what it becomes (a lemma with its function's name gets `_lem`).
APART = [
    ("crates/search_code/proofs/", "seen_next", "seen_next_lem"),
    ("crates/checked_list/proofs/", "oneLess", "one_fewer"),
]


def snake(part):
    if not CAMEL.match(part) or NUMERAL.match(part):
        return part
    return re.sub(r"(?<=[a-z0-9])([A-Z])", lambda m: "_" + m.group(1).lower(), part)


def files(top):
    for pattern in ("crates/*/specs/**/*.antt", "crates/*/proofs/**/*.antt", "crates/*/src/**/*.rt", "crates/*/must-fail/*.edit"):
        yield from sorted(glob.glob(os.path.join(top, pattern), recursive=True))


def read(path):
    with open(path, encoding="utf-8", newline="") as f:
        return f.read()


def main():
    words = [w for w in sys.argv[1:] if w != "--check"]
    top = words[0] if words else "."
    dashed = set()
    for path in glob.glob(os.path.join(top, "crates/*/specs/**/*.antt"), recursive=True):
        dashed.update(DECLARED.findall(read(path)))
    bare = lambda w: "-".join(snake(p) for p in w.split("-"))
    new = lambda w: bare(w).replace("-", "_") if w in dashed else bare(w)
    together = collections.defaultdict(set)
    for path in files(top):
        text = read(path)
        apart = {a: b for where, a, b in APART if os.path.relpath(path, top).startswith(where)}
        turn = lambda m: m.group(0) if m.group(0)[0] == chr(34) else apart.get(m.group(0)) or new(m.group(0))
        out = WORD.sub(turn, text)
        if out == text:
            continue
        old = {w for w in WORD.findall(text) if w[0] != '"'} - set(apart)
        for w in old:
            if new(w) != w and new(w) in old:
                together[(w, new(w))].add(path)
        if "--check" not in sys.argv:
            with open(path, "w", encoding="utf-8", newline="") as f:
                f.write(out)
    for (a, b), where in sorted(together.items()):
        print(f"look: {a} is {b} now, which stands already in {', '.join(sorted(os.path.relpath(p, top) for p in where))}")


main()
