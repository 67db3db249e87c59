#!/usr/bin/env python3
"""Respells the names of definitions and lemmas: snake case for values and lemmas, camel case for facts and types.

usage: python3 tools/rename_names.py FOLDER      the repository's top folder; run once, after the kit's port.py

tools/names.tsv has a line for each name, the old spelling and the new one. In .antt files each such name is respelled where
it stands by itself, behind a brace or a space, and as a field of a record. In .rt files only contracts and ghost lines have
such names: comments, strings and names that Rust could have are left alone.
"""

import os
import re
import sys

NAME = r"[A-Za-z][\w'₀-₉]*(?:-[\w'₀-₉]+)*"
TOKEN = re.compile(r"(?<![\w'₀-₉-])" + NAME)
ONLY_GHOST = re.compile(r"-|[a-z][A-Z]")
STRING_OR_COMMENT = re.compile(r'"(?:[^"\\]|\\.)*"|//.*')
GIVEN_BY_THE_CHECK = re.compile(r"\b(?:goal|given)\.$")


def table(top):
    names = {}
    with open(os.path.join(top, "tools", "names.tsv"), encoding="utf-8") as f:
        for line in f:
            old, new = line.rstrip("\n").split("\t")
            names[old] = new
    return names


def fields(top):
    """The names of the fields of records in the repository's own definitions and lemmas."""
    found = set()
    for path in files(top, ".antt"):
        with open(path, encoding="utf-8") as f:
            for line in f:
                m = re.match(r"\s+(?:pub )?(" + NAME + r"(?: " + NAME + r")*)\s*:\s", line)
                if m:
                    found.update(m.group(1).split())
    return found


def files(top, ending):
    for folder, dirs, names in os.walk(os.path.join(top, "crates")):
        dirs[:] = sorted(d for d in dirs if d != "out")
        for name in sorted(names):
            if name.endswith(ending):
                yield os.path.join(folder, name)


def respell(text, names, of_records):
    def one(m):
        name, before = m.group(0), text[: m.start()]
        if name not in names or GIVEN_BY_THE_CHECK.search(before):
            return name
        if before.endswith(".") and name not in of_records:
            return name
        return names[name]

    return TOKEN.sub(one, text)


def respell_source(text, names, of_records):
    """All but strings and comments, and only names that Rust can't have."""
    names = {old: new for old, new in names.items() if ONLY_GHOST.search(old)}
    parts, at = [], 0
    for m in STRING_OR_COMMENT.finditer(text):
        parts += [respell(text[at : m.start()], names, of_records), m.group(0)]
        at = m.end()
    return "".join(parts) + respell(text[at:], names, of_records)


def respell_antt(text, names, of_records):
    """All but comments."""
    lines = [line if line.lstrip().startswith("--") else respell(line, names, of_records) for line in text.split("\n")]
    return "\n".join(lines)


def main(top):
    names, of_records = table(top), fields(top)
    for ending, turn in ((".antt", respell_antt), (".rt", respell_source)):
        for path in files(top, ending):
            with open(path, encoding="utf-8") as f:
                text = f.read()
            new = turn(text, names, of_records)
            if new != text:
                with open(path, "w", encoding="utf-8") as f:
                    f.write(new)


if __name__ == "__main__":
    if len(sys.argv) != 2:
        sys.exit(__doc__)
    main(sys.argv[1])
