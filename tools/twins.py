#!/usr/bin/env python3
"""Lists functions of one shape: alike when names, numbers and texts are left out, contracts and comments too.

Usage: tools/twins.py FOLDER [LEAST]   reads FOLDER/crates/*/src/*.rt; LEAST is the least number of tokens (30).
"""
import collections
import pathlib
import re
import sys

TOKEN = re.compile(r'"(?:\\.|[^"\\])*"|b?\'(?:\\.|[^\'\\])\'|[A-Za-z_][A-Za-z_0-9]*!?|[0-9][0-9_a-z]*|\S')
KEPT = set("fn pub let mut if else match for in while loop return impl struct enum self Self Ok Err Some None use as &".split())


def functions(text):
    """Name, place and text of each function, without its contract."""
    text = re.sub(r"//[^\n]*", "", text)
    for found in re.finditer(r"\bfn (\w+)", text):
        rest = text[found.start():]
        # a contract's clauses stand between the head and the body, each on its own line
        rest = re.sub(r"(?m)^\s*(requires|ensures)\b.*$", "", rest)
        start = rest.find("{")
        if start < 0:
            continue
        depth = 0
        for i, c in enumerate(rest[start:]):
            depth += (c == "{") - (c == "}")
            if depth == 0:
                yield found.group(1), rest[: start + i + 1]
                break


def shape(text):
    out = []
    for token in TOKEN.findall(text):
        if token in KEPT:
            out.append(token)
        elif token[0].isalpha() or token[0] == "_":
            out.append("name")
        elif token[0].isdigit():
            out.append("number")
        elif token[0] in "\"'":
            out.append("text")
        else:
            out.append(token)
    return out


def main():
    least = int(sys.argv[2]) if len(sys.argv) > 2 else 30
    groups = collections.defaultdict(list)
    for path in sorted(pathlib.Path(sys.argv[1]).glob("crates/*/src/*.rt")):
        for name, text in functions(path.read_text()):
            tokens = shape(text)
            if len(tokens) >= least:
                groups[" ".join(tokens)].append((len(tokens), f"{path}: {name}"))
    rows = sorted((g for g in groups.values() if len(g) > 1), reverse=True)
    for row in rows:
        print(row[0][0], "tokens:", ", ".join(place for _, place in row))
    print(len(rows), "groups,", sum(len(r) for r in rows), "functions")


main()
