#!/usr/bin/env python3
"""Brings this repository's own names in specs/ and proofs/ to snake case: words of the logic in snake case, facts in
upper camel case.

usage: python3 tools/respell.py [FOLDER]     in a repository that the kit's port.py has just turned; once

The pairs stand in respell.tsv beside this file: in every proof file a name of the first column becomes that of the
second. A name that has no dash and no capital is respelled in .antt files alone, since a Rust function may have it too.
Rust's own names, strings, inputs and outputs stay, and so do the names of a function's generated steps and folders.
"""
import os
import re
import sys

HERE = os.path.dirname(os.path.abspath(__file__))
TOKEN = re.compile(r"[\w'-]+")
QUOTED = re.compile(r"`[^`\n]+`")
STEP = re.compile(r"\.(ensures|result|given|true|false|new|branch|invariant|requires)\b")


def pairs():
    with open(os.path.join(HERE, "respell.tsv"), encoding="utf-8") as file:
        return dict(line.rstrip("\n").split("\t") for line in file if line.strip())


def turned(text, names):
    def one(m):
        new = names.get(m.group())
        if new is None:
            return m.group()
        before, after = text[: m.start()], text[m.end() : m.end() + 12]
        if before.endswith(".") and STEP.match(after):
            return m.group()
        if re.search(r"Rattle\.\w+\.proofs\.$", before[-80:]) and after.startswith("."):
            return m.group()
        return new

    return TOKEN.sub(one, text)


def comment_at(line, mark):
    """Where a comment begins: at its mark, outside a string."""
    at = line.find(mark)
    while at >= 0 and line[:at].count('"') % 2:
        at = line.find(mark, at + 1)
    return at


def line_turned(line, names, mark):
    at = comment_at(line, mark)
    code, comment = (line, "") if at < 0 else (line[:at], line[at:])
    parts = re.split(r'("(?:[^"\\]|\\.)*")', code)
    code = "".join(p if i % 2 else turned(p, names) for i, p in enumerate(parts))
    return code + QUOTED.sub(lambda m: turned(m.group(), names), comment)


def main(root):
    names = pairs()
    marked = {old: new for old, new in names.items() if "-" in old or old != old.lower()}
    changed = 0
    for folder, dirs, files in os.walk(os.path.join(root, "crates")):
        dirs[:] = sorted(d for d in dirs if d != "out")
        for name in sorted(files):
            kind = os.path.splitext(name)[1]
            if kind not in (".antt", ".rt", ".edit"):
                continue
            path = os.path.join(folder, name)
            with open(path, encoding="utf-8") as file:
                text = file.read()
            table, mark = (names, "-- ") if kind == ".antt" else (marked, "// ")
            new = "".join(line_turned(line, table, mark) for line in text.splitlines(keepends=True))
            if new != text:
                changed += 1
                with open(path, "w", encoding="utf-8") as file:
                    file.write(new)
    print(f"respell: {len(names)} names, {changed} files changed")


if __name__ == "__main__":
    main(sys.argv[1] if len(sys.argv) > 1 else ".")
