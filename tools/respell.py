#!/usr/bin/env python3
"""Respells this repository's own definitions and lemmas: words in snake case, types in camel case.

usage: python3 tools/respell.py      at the top, once, after the kit's port.py

tools/respell.tsv has a row for each name: old, a tab, new; a third column names the one file in which the row holds.
Whole names turn, in every .antt and .rt file of crates/, in the must-fail edits, and in the code spans of the pages;
a name of capitals in the code of .antt files alone, since elsewhere it is a word or a constant of the code.
"""

import os
import re

TOP = os.path.dirname(os.path.dirname(os.path.abspath(__file__)))
NAME = re.compile(r"[^\s(){}\[\]=,;.:λ«»\"`]+")
SPAN = re.compile(r"`[^`\n]*`")


def rows():
    everywhere, alone = {}, {}
    with open(os.path.join(TOP, "tools", "respell.tsv"), encoding="utf-8") as f:
        for line in f:
            cells = line.rstrip("\n").split("\t")
            if len(cells) == 3:
                alone.setdefault(cells[2], {})[cells[0]] = cells[1]
            else:
                everywhere[cells[0]] = cells[1]
    return everywhere, alone


def turned(text, table):
    return NAME.sub(lambda m: table.get(m[0], m[0]), text)


def without_capitals(table):
    return {a: b for a, b in table.items() if not a.isupper()}


def proof(text, table):
    words = without_capitals(table)
    lines = text.split("\n")
    return "\n".join(turned(x, words if x.lstrip().startswith("--") else table) for x in lines)


def files():
    for part in ("crates", "docs"):
        for folder, below, names in os.walk(os.path.join(TOP, part)):
            below[:] = sorted(d for d in below if d != "out")
            for name in sorted(names):
                yield os.path.relpath(os.path.join(folder, name), TOP)
    yield "README.md"


def main():
    everywhere, alone = rows()
    for path in files():
        kind = os.path.splitext(path)[1]
        if kind not in (".antt", ".rt", ".edit", ".md"):
            continue
        full = os.path.join(TOP, path)
        with open(full, encoding="utf-8") as f:
            old = f.read()
        table = everywhere | alone.get(path, {})
        if kind == ".antt":
            new = proof(old, table)
        elif kind == ".md":
            new = SPAN.sub(lambda m: turned(m[0], without_capitals(table)), old)
        else:
            new = turned(old, without_capitals(table))
        if new != old:
            with open(full, "w", encoding="utf-8") as f:
                f.write(new)


main()
