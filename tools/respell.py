#!/usr/bin/env python3
"""Brings this repository's own names to today's spelling, once, after the kit's port.py.

usage: python3 tools/respell.py      at the top of the repository

Definitions and lemmas of specs/ and proofs/ are written in snake case; a lemma that would have its function's name gets
_lem. The crate `check` is called `checker`, since the kit has a library `check`. Functions of src/, strings, inputs and
outputs keep their names. The names are listed in tools/respell.txt, an old and a new one on a line.
"""
import os
import re

HERE = os.path.dirname(os.path.realpath(__file__))
TOP = os.path.dirname(HERE)
NAME = re.compile(r"[^\s(){}\[\];,.\"`]+")
# A name that the kit's script made, where another name comes to the same spelling.
FIRST = {
    "crates/check/proofs/": {"same_kind": "same_kind_lem"},
    "crates/language/proofs/Values.antt": {"in-range": "in_range_lem"},
}


def names():
    with open(os.path.join(HERE, "respell.txt"), encoding="utf-8") as f:
        return dict(line.split() for line in f if line.strip())


def turned(text, table):
    return NAME.sub(lambda m: table.get(m.group(0), m.group(0)), text)


def files(root, endings):
    for folder, dirs, found in os.walk(root):
        dirs[:] = sorted(d for d in dirs if d != "out")
        for name in sorted(found):
            if name.endswith(endings):
                yield os.path.join(folder, name)


def write(path, text):
    with open(path, encoding="utf-8") as f:
        old = f.read()
    if old != text:
        with open(path, "w", encoding="utf-8") as f:
            f.write(text)


def main():
    os.chdir(TOP)
    table = names()
    for path in files("crates", (".rt", ".antt")):
        with open(path, encoding="utf-8") as f:
            text = f.read()
        for start, some in FIRST.items():
            if path.startswith(start):
                text = turned(text, some)
        text = turned(text, table)
        text = re.sub(r"\bRattle\.check\.", "Rattle.checker.", text)
        if path.endswith(".rt") and not path.startswith("crates/check/"):
            text = re.sub(r"\buse check::", "use checker::", text)
        write(path, text)
    if os.path.isdir("crates/check"):
        os.rename("crates/check", "crates/checker")
    with open("crates.txt", encoding="utf-8") as f:
        text = f.read()
    write("crates.txt", re.sub(r"\bcheck\b(?!_)", "checker", text))


if __name__ == "__main__":
    main()
