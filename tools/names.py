#!/usr/bin/env python3
"""Respells the repository's own definitions, fields and laws as today's Rattle spells names: snake case, and a dash only between two names. A name that
would have become another's gets another word (`_lem`, `plan_left`).

usage: python3 tools/names.py [FOLDER]     at the top of FOLDER (default: here), over crates/ and the documents: once, after the kit's port.py, never again

A row of names.tsv is old, tab, new and, where the name turns in some files alone, tab and the beginning of their path. Whole words turn: in .antt, in .rt outside
strings and in .edit; in a comment, and in .md, words between backquotes, and in a comment also those with a capital inside. Functions of src/, exported names,
strings, inputs and outputs have no row.
"""
import os
import re
import sys

HERE = os.path.dirname(os.path.realpath(__file__))
WORD = re.compile(r"[^\s(){}.;,\"«»\[\]@`]+")
SPAN = re.compile(r"`[^`\n]*`")
PARTS = {
    ".antt": re.compile(r"(?:^|(?<=\s))--(?=\s|$)[^\n]*", re.M),
    ".rt": re.compile(r"//[^\n]*|\"(?:\\.|[^\"\\])*\""),
    ".edit": re.compile(r"^#[^\n]*", re.M),
}


def rows(path):
    with open(os.path.join(HERE, "names.tsv"), encoding="utf-8") as f:
        table = [line.rstrip("\n").split("\t") for line in f]
    return {r[0]: r[1] for r in table if len(r) == 2 or path.startswith(r[2])}


def turned(text, names, only=lambda word: True):
    return WORD.sub(lambda m: names[m[0]] if m[0] in names and only(m[0]) else m[0], text)


def comment(text, names):
    if text.startswith('"'):
        return text
    spans = SPAN.sub(lambda m: turned(m[0], names), text)
    return turned(spans, names, lambda word: "-" not in word and re.search("[A-Z]", word))


def code(text, names, quiet):
    out, at = [], 0
    for m in quiet.finditer(text):
        out += [turned(text[at : m.start()], names), comment(m[0], names)]
        at = m.end()
    return "".join(out) + turned(text[at:], names)


def files(top):
    for folder, folders, names in os.walk(top):
        folders[:] = sorted(d for d in folders if d not in (".git", "out", "target", "tools"))
        for name in sorted(names):
            if name.endswith((".antt", ".rt", ".edit", ".md")):
                yield os.path.join(folder, name)


def main():
    top = sys.argv[1] if len(sys.argv) > 1 else "."
    for path in files(top):
        names = rows(os.path.relpath(path, top))
        with open(path, encoding="utf-8") as f:
            old = f.read()
        kind = os.path.splitext(path)[1]
        new = SPAN.sub(lambda m: turned(m[0], names), old) if kind == ".md" else code(old, names, PARTS[kind])
        if new != old:
            with open(path, "w", encoding="utf-8") as f:
                f.write(new)


if __name__ == "__main__":
    main()
