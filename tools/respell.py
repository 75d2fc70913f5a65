#!/usr/bin/env python3
"""Spells the repository's own definitions and lemmas as today's Rattle does: words in snake case, a dash only between two names.

usage: python3 tools/respell.py [ROOT]

Run once, behind port.py. tools/respell.tsv has a line for each name, old and new. A third column names the one file below crates/ in which the line
holds, for a name that would fall together with another. Functions of src/, C names, strings, inputs and outputs keep their names.
"""
import os
import re
import sys

HERE = os.path.dirname(os.path.realpath(__file__))
ROOT = sys.argv[1] if len(sys.argv) > 1 else os.path.dirname(HERE)
WORD = re.compile(r"[^\s(){}.;,@\"«»\[\]\\`]+")
TOKEN = re.compile(r"--[^\n]*|\"(?:[^\"\\\n]|\\.)*\"|" + WORD.pattern)
EVERYWHERE, IN_FILE = {}, {}
for line in open(os.path.join(HERE, "respell.tsv"), encoding="utf-8"):
    old, new, *file = line.rstrip("\n").split("\t")
    (IN_FILE.setdefault(file[0], {}) if file else EVERYWHERE)[old] = new
CAMEL = {o: n for o, n in EVERYWHERE.items() if "-" not in o}


def antt(text, path):
    own = IN_FILE.get(path, {})

    def turn(m):
        before = text[m.start() - 1] if m.start() else " "
        w = m.group(0)
        if w.startswith('"'):
            return w
        if w.startswith("--"):
            return WORD.sub(lambda n: EVERYWHERE.get(n.group(0), n.group(0)), w)
        return own.get(w, EVERYWHERE.get(w, w)) if before != "." else EVERYWHERE.get(w, w)

    return TOKEN.sub(turn, text)


def source(text):
    # Strings and characters keep what they hold; of a dash in code nobody knows whether it joins a name.
    def turn(m):
        w = m.group(0)
        if w[0] in "\"'":
            return w
        if w.startswith("//"):
            return re.sub(r"[A-Za-z_]\w*", lambda n: CAMEL.get(n.group(0), n.group(0)), w)
        return CAMEL.get(w, w)

    return re.sub(r"//[^\n]*|\"(?:[^\"\\\n]|\\.)*\"|'(?:[^'\\\n]|\\.)'|[A-Za-z_]\w*", turn, text)


for folder, dirs, files in os.walk(os.path.join(ROOT, "crates")):
    dirs[:] = sorted(d for d in dirs if d != "out")
    for f in sorted(files):
        path = os.path.join(folder, f)
        if not f.endswith((".antt", ".rt")):
            continue
        text = open(path, encoding="utf-8", newline="").read()
        short = os.path.relpath(path, os.path.join(ROOT, "crates"))
        turned = antt(text, short) if f.endswith(".antt") else source(text)
        if turned != text:
            with open(path, "w", encoding="utf-8", newline="") as out:
                out.write(turned)
