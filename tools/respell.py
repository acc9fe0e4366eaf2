#!/usr/bin/env python3
"""Gives the repository's own definitions, lemmas and fields the spelling of today's Rattle.

usage: python3 tools/respell.py [FOLDER]

FOLDER is the top of a checkout on which the toolchain's port.py has just been run (by default the folder above this
script). Each line of tools/respell.names is an old name and its new one: functions, lemmas, constructors and fields in
snake case, facts and records in camel case. Names are replaced as whole words in specs/, proofs/, clauses and edits;
Rust's own names and text between quotes stay.
"""
import os
import re
import sys

HERE = os.path.dirname(os.path.realpath(__file__))
WORD = re.compile(r"(?<![\w'\-\\])[A-Za-z_][\w'\-]*")
QUOTED = re.compile(r'b?"(?:[^"\\\n]|\\.)*"')


def names():
    with open(os.path.join(HERE, "respell.names"), encoding="utf-8") as f:
        return dict(line.split() for line in f)


def respelled(text, table):
    return WORD.sub(lambda m: table.get(m.group(0), m.group(0)), text)


def outside_quotes(line, table):
    out, at = [], 0
    for m in QUOTED.finditer(line):
        out += [respelled(line[at:m.start()], table), m.group(0)]
        at = m.end()
    return "".join(out) + respelled(line[at:], table)


def turned(path, text, table):
    lines = text.splitlines(keepends=True)
    if path.endswith(".antt"):
        # a comment keeps its words
        return "".join(l if l.lstrip().startswith("--") else respelled(l, table) for l in lines)
    return "".join(l if l.lstrip().startswith(("//", "file:")) else outside_quotes(l, table) for l in lines)


def main():
    root = os.path.abspath(sys.argv[1] if len(sys.argv) > 1 else os.path.join(HERE, ".."))
    table = names()
    for folder, folders, files in os.walk(os.path.join(root, "crates")):
        folders[:] = [d for d in folders if d != "out"]
        for name in files:
            if not name.endswith((".antt", ".rt", ".edit")):
                continue
            path = os.path.join(folder, name)
            with open(path, encoding="utf-8") as f:
                old = f.read()
            new = turned(path, old, table)
            if new != old:
                with open(path, "w", encoding="utf-8") as f:
                    f.write(new)


main()
