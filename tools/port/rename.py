#!/usr/bin/env python3
"""Brings the repository's own definitions and lemmas to today's spelling, by the list names.tsv beside it (old name, tab, new name).

usage: python3 tools/port/rename.py        at the top of the repository, once, after the kit's port.py

In .antt and .rt files and must-fail edits below crates/: whole names alone, outside strings; in a comment only between back quotes.
"""
import glob
import os
import re

HERE = os.path.dirname(os.path.realpath(__file__))
NAME = re.compile(r"[A-Za-z_\u00c0-\u1fff\u2080-\u209c\u2070-\u207f][A-Za-z0-9_'\u2032\-\u00c0-\u1fff\u2080-\u209c\u2070-\u207f\u00b7\u25cc]*")
PIECE = re.compile(r'("(?:[^"\\\n]|\\.)*")')
QUOTED = re.compile(r"(`[^`\n]*`)")

names = dict(line.rstrip("\n").split("\t") for line in open(os.path.join(HERE, "names.tsv"), encoding="utf-8"))


def renamed(text):
    return NAME.sub(lambda m: names.get(m.group(0), m.group(0)), text)


def line_renamed(line, comment):
    if line.startswith("file: "):
        return line
    # a clause or a name has no '//' and no '--' but where a comment begins
    at = line.find(comment)
    code, rest = (line, "") if at < 0 else (line[:at], line[at:])
    code = "".join(p if p.startswith('"') else renamed(p) for p in PIECE.split(code))
    rest = "".join(renamed(p) if p.startswith("`") else p for p in QUOTED.split(rest))
    return code + rest


for ending, comment in ((".antt", "--"), (".rt", "//"), (".edit", "\0")):
    for path in sorted(glob.glob("crates/**/*" + ending, recursive=True)):
        if "/out/" in path:
            continue
        with open(path, encoding="utf-8") as f:
            old = f.read()
        new = "".join(line_renamed(line, comment) for line in old.splitlines(keepends=True))
        if new != old:
            with open(path, "w", encoding="utf-8") as f:
                f.write(new)
