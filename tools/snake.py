#!/usr/bin/env python3
"""Spells the definitions, fields and lemmas of the crates in snake case, and types in camel case.

usage: tools/snake.py [TABLE]    in the repository, once, after the kit's own script

Each row of TABLE (tools/names.tsv) is an old name, a tab and the new one. Names are changed as whole words in
.antt and .rt files, names with a dash not in comments. Nothing is changed in must-fail edits. A name that the
check makes of the source, as after `c.`, has the source's own spelling, so it gets no `_lem`.
"""
import os
import re
import sys

WORD = re.compile(r"[^\s(){}\[\].,;:⌜⌝\"=]+")
COMMENT = {".antt": re.compile(r"--(?= |$).*$", re.M), ".rt": re.compile(r"//.*$", re.M)}


def rows(path):
    with open(path, encoding="utf-8") as f:
        return dict(line.rstrip("\n").split("\t") for line in f if line.strip())


def turned(text, kind, names):
    quiet = [(m.start(), m.end()) for m in COMMENT[kind].finditer(text)]
    out, last, q = [], 0, 0
    for m in WORD.finditer(text):
        new = names.get(m[0])
        if new is None:
            continue
        while q < len(quiet) and quiet[q][1] <= m.start():
            q += 1
        if q < len(quiet) and quiet[q][0] <= m.start() and not re.search(r"[A-Z]", m[0]):
            continue
        if new.endswith("_lem") and re.search(r"\bc\.$", text[max(0, m.start() - 3) : m.start()]):
            new = new[: -len("_lem")]
        out += [text[last : m.start()], new]
        last = m.end()
    return "".join(out) + text[last:]


def main():
    names = rows(sys.argv[1] if len(sys.argv) > 1 else os.path.join(os.path.dirname(os.path.abspath(__file__)), "names.tsv"))
    for folder, dirs, files in os.walk("crates"):
        dirs[:] = [d for d in dirs if d != "out"]
        for name in files:
            kind = os.path.splitext(name)[1]
            if kind in COMMENT:
                path = os.path.join(folder, name)
                with open(path, encoding="utf-8") as f:
                    old = f.read()
                new = turned(old, kind, names)
                if new != old:
                    with open(path, "w", encoding="utf-8") as f:
                        f.write(new)


main()
