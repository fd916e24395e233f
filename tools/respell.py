#!/usr/bin/env python3
"""Turns the repository's own names to today's spelling: words and fields in snake case, a prime as an apostrophe.

usage: python3 tools/respell.py      at the top of a tree that port.py has turned, once

tools/respell.txt has the names, old and new. A name is taken whole, so parts of longer names stay. The crate `csv` becomes `csv_text`, since the
toolchain has a library of the first name. Strings, functions of src/ and exported names are no such names and stay.
"""
import os
import re
import sys

HERE = os.path.dirname(os.path.realpath(__file__))
WORD = re.compile(r"[^\s(){}\[\];,.@`\"“”:=|]+")
NAMES = dict(line.split() for line in open(os.path.join(HERE, "respell.txt"), encoding="utf-8"))
# Lemmas that would fall together with a definition's new name keep their dash.
APART = ["join_last", "some_left", "none_left", "same_nodes", "body_bytes", "by_hand", "none_yet", "after_run", "leaf_ways"]


def files(top, endings):
    for folder, dirs, names in os.walk(top):
        dirs[:] = sorted(d for d in dirs if d not in ("out", ".git", "target"))
        for name in sorted(names):
            if name.endswith(endings):
                yield os.path.join(folder, name)


def respelled(text, names, code):
    def word(m):
        w = m.group()
        if code and w in APART and m.string[m.start() - 1 : m.start()] != ".":
            return w.replace("_", "-")
        return names.get(w, w)

    return WORD.sub(word, text)


def write(path, text):
    with open(path, "w", encoding="utf-8") as f:
        f.write(text)


def read(path):
    with open(path, encoding="utf-8", newline="") as f:
        return f.read()


def library_name(text):
    text = re.sub(r"\bRattle\.csv\.", "Rattle.csv_text.", text)
    return re.sub(r"(?<![\w.])csv::", "csv_text::", text)


def main(top):
    for path in files(os.path.join(top, "crates"), (".antt", ".rt")):
        old = read(path)
        new = library_name(respelled(old, NAMES, path.endswith(".antt")))
        if new != old:
            write(path, new)
    quoted = re.compile(r"`[^`\n]+`")
    for path in [os.path.join(top, "README.md"), *files(os.path.join(top, "docs"), (".md",))]:
        if os.path.basename(path).startswith("PORT"):
            continue
        old = read(path)
        new = quoted.sub(lambda m: respelled(m.group(), NAMES, False), old)
        new = re.sub(r"(?<![\w/])csv/(src|specs|proofs|must-fail)/", r"csv_text/\1/", new)
        if new != old:
            write(path, new)
    if os.path.isdir(os.path.join(top, "crates", "csv")):
        os.rename(os.path.join(top, "crates", "csv"), os.path.join(top, "crates", "csv_text"))
    listed = os.path.join(top, "crates.txt")
    write(listed, re.sub(r"\bcsv\b", "csv_text", read(listed)))


if __name__ == "__main__":
    main(sys.argv[1] if len(sys.argv) > 1 else ".")
