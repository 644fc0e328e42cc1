#!/usr/bin/env python3
"""Respells the repository's own definitions and lemmas, after the kit's port.py: words in snake case, a dash only where it joins two names.

usage: python3 tools/respell.py [ROOT]

names.tsv beside this script has a row for each name: old, a tab, new. They turn in crates/ (code, clauses, comments, must-fail edits) and in the pages.
names-behind-dots.txt lists those that stay right behind a dot, where they name a step of the check and not a definition.
Names that port.py turned itself are turned in the pages and the edits too, from turned.tsv. Run once, after port.py.
"""

import os
import re
import subprocess
import sys

HERE = os.path.dirname(os.path.realpath(__file__))
ROOT = os.path.abspath(sys.argv[1] if len(sys.argv) > 1 else os.path.join(HERE, ".."))
KIT = os.environ.get("RATTLE_KIT", "/opt/rattle")
SNAKE = os.path.join(KIT, "port/notes/2026-11-18-names-are-in-snake-case/snake.py")
NAMES = os.path.join(HERE, "names.tsv")
TURNED = os.path.join(HERE, "turned.tsv")
BEHIND = os.path.join(HERE, "names-behind-dots.txt")
PAGES = ["README.md", "CONTRIBUTING.md", "CHANGELOG.md", "docs"]
WORD = re.compile(r"[^\s(){}.;,@\"`]+")


def snake(table, kinds, paths, *more):
    subprocess.run([sys.executable, SNAKE, "--table", table, "--only", kinds, *more, *[os.path.join(ROOT, p) for p in paths]], check=True)


def rows(path):
    with open(path, encoding="utf-8") as f:
        return dict(line.rstrip("\n").split("\t") for line in f)


snake(NAMES, "antt,rt", ["crates"], "--keep-after-dot", BEHIND)
for table in (TURNED, NAMES):
    snake(table, "md", PAGES)
table = rows(TURNED) | rows(NAMES)
for folder, dirs, files in os.walk(os.path.join(ROOT, "crates")):
    dirs[:] = [d for d in dirs if d != "out"]
    for name in files:
        if name.endswith(".edit"):
            path = os.path.join(folder, name)
            with open(path, encoding="utf-8") as f:
                text = f.read()
            new = WORD.sub(lambda m: table.get(m.group(0), m.group(0)), text)
            if new != text:
                with open(path, "w", encoding="utf-8") as f:
                    f.write(new)
