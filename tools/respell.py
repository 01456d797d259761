#!/usr/bin/env python3
"""Respells the repository's own definitions, lemmas, fields and local names from camel case to snake case, after port.py has run.

usage: python3 tools/respell.py        once, at the top of the repository

Facts and types keep their capitals: only names that begin with a small letter are turned. Three things are not plain: `getD` is std's
`get_or` now, two lemmas and a field that would have their function's name get `_lem`, and numbers such as 0x7A are no names. The names of
definitions in README.md and docs/ are turned alike; the notes in docs/landings/ speak of the names of their day and stay.
"""

import glob
import os
import re

# what would fall together with a definition that is turned
FIRST = {"is_open": "is_open_lem", "last_line": "last_line_lem"}
WORD = re.compile(r"(?<![\w'′₀-₉-])[a-z₀-₉0-9_'*+-]*[a-z0-9][A-Z][\w'′₀-₉*+-]*")


def snake(name):
    name = name.replace("getD", "get_or")
    return re.sub(r"(?<=[A-Za-z0-9])([A-Z])", lambda m: "_" + m.group(1), name).lower()


def sources(*ends):
    for folder, dirs, files in os.walk("crates"):
        dirs[:] = sorted(d for d in dirs if d != "out")
        for f in sorted(files):
            if f.endswith(ends):
                yield os.path.join(folder, f)


def read(path):
    with open(path, encoding="utf-8") as f:
        return f.read()


def write(path, text):
    with open(path, "w", encoding="utf-8") as f:
        f.write(text)


def names():
    """The names in camel case of the definitions, laws and local names, comments aside, and those that clauses give to imports."""
    found = set()
    for path in sources(".rt"):
        found.update(m for m in re.findall(r"\bas (\w+)", read(path)) if WORD.fullmatch(m))
    for path in sources(".antt"):
        for m in WORD.finditer(re.sub(r"--.*", "", read(path))):
            if not m.group(0).startswith("0x"):
                found.add(m.group(0))
    return found


def turned(text, table):
    return re.sub(r"(?<![\w'′₀-₉-])(" + "|".join(re.escape(n) for n in sorted(table, key=len, reverse=True)) + r")(?![\w'′₀-₉-])", lambda m: table[m.group(1)], text)


def main():
    table = {n: snake(n) for n in names()}
    for path in sources(".antt"):
        text = read(path)
        write(path, turned(turned(text, FIRST), table))
    for path in [*sources(".rt", ".edit"), "README.md", *glob.glob("docs/*.md")]:
        write(path, turned(read(path), table).replace("′", "'"))


main()
