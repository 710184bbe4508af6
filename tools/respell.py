#!/usr/bin/env python3
"""Respells this repository's own definitions and lemmas by respell.tsv, once, after Rattle's port.py.

usage: python3 tools/respell.py        at the top of the checkout

A row has the old name, a tab and the new one. All rows turn at once. In an .antt file each whole word turns, but in a comment only words without a
dash. In an .rt file the words of ghost items and clauses turn, and in the rest those with a capital inside, but for strings. In a .edit file the same
as in an .rt file.
"""
import glob
import os
import re

HERE = os.path.dirname(os.path.abspath(__file__))
ROWS = dict(line.rstrip("\n").split("\t") for line in open(os.path.join(HERE, "respell.tsv"), encoding="utf-8"))
WORD = re.compile(r'[^\s(){}.;,@"«»:]+')
CLAUSE = re.compile(r"^\s*(?:(?:old|new): *)?(?:pub )?(?:ghost\b|requires\b|ensures\b)")


def turned(text):
    return WORD.sub(lambda m: ROWS.get(m.group(0), m.group(0)), text)


def turned_plain(text):
    """Words without a dash alone."""
    return WORD.sub(lambda m: m.group(0) if "-" in m.group(0) else ROWS.get(m.group(0), m.group(0)), text)


def antt(text):
    out = []
    for line in text.split("\n"):
        code, dashes, comment = re.match(r"(.*?)((?:(?<=\s)|^)--(?:\s|$)|$)(.*)$", line).groups()
        comment = re.sub(r"`[^`]*`", lambda m: "`" + turned(m.group(0)[1:-1]) + "`", comment)
        out.append(turned(code) + dashes + comment)
    return "\n".join(out)


def rust(text):
    out, depth = [], 0
    for line in text.split("\n"):
        if depth > 0 or CLAUSE.match(line):
            out.append(turned(line))
            depth = max(0, depth + line.count("{") - line.count("}"))
        else:
            parts = re.split(r'("(?:[^"\\]|\\.)*")', line)
            out.append("".join(p if i % 2 else re.sub(r"\b[a-z]+[A-Z]\w*\b", lambda m: ROWS.get(m.group(0), m.group(0)), p) for i, p in enumerate(parts)))
    return "\n".join(out)


def main():
    for pattern, turn in (("**/*.antt", antt), ("**/*.rt", rust), ("**/*.edit", rust)):
        for path in glob.glob(os.path.join("crates", pattern), recursive=True):
            if "/out/" in path:
                continue
            with open(path, encoding="utf-8") as f:
                old = f.read()
            new = turn(old)
            if new != old:
                with open(path, "w", encoding="utf-8") as f:
                    f.write(new)


main()
