#!/usr/bin/env python3
"""Spells the repository's own definitions and lemmas as Rattle does today, by the rows of names.tsv beside this script.

usage: respell.py [FOLDER]      the top of a checkout in which port.py has run; the folder of this repository if none is named

Words and lemmas are in snake case (a dash stays between two names of which a lemma speaks), facts and records in camel case.
Whole names turn, in the definitions, the proofs, the clauses and the must-fail edits. In a function's Answers a name that
Rattle makes stays: the first behind goal, c, w, l and g, and the second behind args, initial, fn, new, auto, ranges.
Comments and strings stay; functions of src/, exported names, inputs and outputs hold no name of the table.
"""

import os
import re
import sys

HERE = os.path.dirname(os.path.realpath(__file__))
NAME = r"[^\s(){}.;,@\"«»⌜⌝\[\]|`]+"
CHAIN = re.compile(rf"{NAME}(?:\.{NAME})*")
HEADS = {"goal", "c", "w", "l", "g"}
HOLDERS = {"args", "initial", "fn", "new", "auto", "ranges"}
MADE = re.compile(r"/proofs/.*/(Answers|Invariants|Proof)\.antt$")
# text in quotes, and comments
QUIET = re.compile(r'"(?:[^"\\\n]|\\.)*"|//[^\n]*|(?<!\S)--[^\n]*')


def names():
    with open(os.path.join(HERE, "names.tsv"), encoding="utf-8") as rows:
        return dict(row.rstrip("\n").split("\t") for row in rows)


def turned(chain, table, made):
    """The dotted name, each of its parts by the table, but for the labels that Rattle makes."""
    parts = chain.split(".")
    out = []
    for at, part in enumerate(parts):
        label = made and parts[0] in HEADS and (at == 1 or at == 2 and parts[1] in HOLDERS)
        out.append(part if label else table.get(part, part))
    return ".".join(out)


def respelled(text, table, made):
    parts, at = [], 0
    for quiet in QUIET.finditer(text):
        parts.append(CHAIN.sub(lambda m: turned(m[0], table, made), text[at : quiet.start()]))
        parts.append(quiet[0])
        at = quiet.end()
    parts.append(CHAIN.sub(lambda m: turned(m[0], table, made), text[at:]))
    return "".join(parts)


def files(top):
    for root in (os.path.join(top, "crates"), os.path.join(top, "tools", "edits")):
        for folder, dirs, inside in os.walk(root):
            dirs[:] = sorted(d for d in dirs if d not in ("out", "data"))
            yield from (os.path.join(folder, f) for f in sorted(inside) if f.endswith((".rt", ".antt", ".edit")))


def main(argv):
    top = argv[0] if argv else os.path.join(HERE, "..", "..")
    table, count = names(), 0
    for path in files(top):
        with open(path, encoding="utf-8") as f:
            old = f.read()
        new = respelled(old, table, bool(MADE.search(path)))
        if new != old:
            count += 1
            with open(path, "w", encoding="utf-8") as f:
                f.write(new)
    print(f"respell: {len(table)} names, {count} files changed")


if __name__ == "__main__":
    main(sys.argv[1:])
