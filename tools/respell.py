#!/usr/bin/env python3
"""Gives the repository's own definitions and lemmas the spelling of today's Rattle: words in snake case, types in camel case.

usage: tools/respell.py [ROOT]     once, after the toolchain's port.py, at the top of the repository or of a copy of it

respell.tsv beside this script has a row for each name: old, a tab, new, and after another tab a path if the name turns in that file alone.
Each name turns where it stands as a whole word, in the .antt and .rt files of crates/, and in README.md and docs/ between backquotes. A lemma that gets
_lem turns in .antt files alone: in a .rt file the word is a function of that name.
"""

import os
import re
import sys

HERE = os.path.dirname(os.path.realpath(__file__))
WORD = re.compile(r'[^\s(){}.;,@"«»\[\]\\`]+')
SPAN = re.compile(r"`[^`\n]*`")


def rows():
    everywhere, alone = {}, {}
    with open(os.path.join(HERE, "respell.tsv"), encoding="utf-8") as f:
        for line in f:
            old, new, *path = line.rstrip("\n").split("\t")
            if path:
                alone.setdefault(path[0], {})[old] = new
            else:
                everywhere[old] = new
    return everywhere, alone


def files(root):
    for folder, folders, names in os.walk(os.path.join(root, "crates")):
        folders[:] = [f for f in folders if f not in ("out", "must-fail")]
        yield from (os.path.join(folder, n) for n in names if n.endswith((".antt", ".rt")))
    yield os.path.join(root, "README.md")
    for folder, _, names in os.walk(os.path.join(root, "docs")):
        yield from (os.path.join(folder, n) for n in names if n.endswith(".md"))


def main(root):
    everywhere, alone = rows()
    for path in files(root):
        table = {**everywhere, **alone.get(os.path.relpath(path, root), {})}
        if not path.endswith(".antt"):
            table = {old: new for old, new in table.items() if not new.endswith("_lem")}
        with open(path, encoding="utf-8") as f:
            text = f.read()
        turn = lambda t: WORD.sub(lambda m: table.get(m.group(), m.group()), t)
        new = SPAN.sub(lambda m: turn(m.group()), text) if path.endswith(".md") else turn(text)
        if new != text:
            with open(path, "w", encoding="utf-8") as f:
                f.write(new)


main(sys.argv[1] if len(sys.argv) > 1 else ".")
