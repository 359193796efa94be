#!/usr/bin/env python3
"""Brings the repository's own definitions and lemmas to the spelling of the installed Rattle.

usage: python3 tools/respell.py          at the top, once, after the toolchain's port.py

The table respelled-names.txt, beside this file, has a line for each name: as it was, as it is. Types and facts are in
upper camel case, all else in snake case; a lemma that would have the name of a function of src/ ends in _lem.
Names of src/, strings, comments, goal names and must-fail edits stay as they are.
In proofs/, a clause or ghost field is cited as src/ spells it: `.granted-is-rendering` becomes `.granted_is_rendering`.
A `use` of AllByRecursion under the name All, which the gate refuses, goes, and the word is written out.
"""

import os
import re

HERE = os.path.dirname(os.path.realpath(__file__))
CRATES = os.path.join(os.path.dirname(HERE), "crates")
SKIPPED = re.compile(r'--(?=\s).*|//.*|b?"(?:\\.|[^"\\])*"|[^\s(){}\[\];,."`@]+')
CLAUSE = re.compile(r"(?m)^\s*(?:ensures|requires|ghost)\*?\s+(\w+)\s*[:{]")


def table():
    with open(os.path.join(HERE, "respelled-names.txt"), encoding="utf-8") as f:
        return dict(line.split() for line in f if line.strip())


def texts():
    for folder, dirs, files in os.walk(CRATES):
        dirs[:] = sorted(d for d in dirs if d != "out")
        for name in sorted(files):
            if name.endswith((".rt", ".antt")):
                yield os.path.join(folder, name)


def clauses():
    """The clauses and ghost fields of src/, by their old spelling, which had dashes."""
    found = set()
    for path in texts():
        if path.endswith(".rt"):
            with open(path, encoding="utf-8") as f:
                found.update(CLAUSE.findall(f.read()))
    return {name.replace("_", "-"): name for name in found if "_" in name}


def cites(text, found, given):
    """Whether a word in proofs/ is a clause by its place: behind a dot, or set in a record."""
    before, after = text[: found.start()], text[found.end() :]
    if before.endswith("."):
        return True
    return bool(re.match(r"\s=\s", after)) and bool(re.search(r"(?:[{;]\s*|\n[ ]+)$", before)) and found.group(0) in given


def turned(text, names, of_src, given):
    by_recursion = "AllByRecursion as All" in text
    text = text.replace("AllByRecursion as All", "AllByRecursion")

    def word(found):
        it = found.group(0)
        if it.startswith(('"', 'b"')) or (of_src and it.startswith("//")) or (not of_src and it.startswith("--")):
            return it
        if not of_src and it in given and cites(text, found, given):
            return given[it]
        if it == "All" and by_recursion:
            return "AllByRecursion"
        return names.get(it, it)

    return SKIPPED.sub(word, text)


def main():
    names = table()
    given = clauses()
    for path in texts():
        with open(path, encoding="utf-8") as f:
            old = f.read()
        new = turned(old, names, path.endswith(".rt"), given)
        if new != old:
            with open(path, "w", encoding="utf-8") as f:
                f.write(new)
        folder, name = os.path.split(path)
        stem, end = os.path.splitext(name)
        if end == ".antt" and stem in names:
            os.rename(path, os.path.join(folder, names[stem] + end))


main()
