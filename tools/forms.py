#!/usr/bin/env python3
"""Counts, in crates/*/src, the places that today's forms of Rattle could make plainer: `python3 tools/forms.py [POINT]`.
docs/DESIGN-PASS.md says what each point is. A count is of candidates: which of them are kept, and why, stands there."""
import collections
import glob
import itertools
import re
import sys


def sources():
    for name in sorted(glob.glob("crates/*/src/*.rt")):
        yield name[len("crates/"):], open(name, encoding="utf8").read()


def lines(pattern):
    for name, text in sources():
        for i, line in enumerate(text.split("\n"), 1):
            if re.search(pattern, line):
                yield f"{name}:{i}: {line.strip()}"


def functions():
    """Name, parameters, contract and body of each function."""
    head = re.compile(r"^( *)(?:pub )?(?:extern \"C\" )?fn (\w+)", re.M)
    for name, text in sources():
        for m in head.finditer(text):
            end = text.find("\n" + m.group(1) + "{", m.end())
            brace = text.find(" {\n", m.end())
            start = min(x for x in (end, brace, len(text)) if x > 0)
            stop = text.find("\n" + m.group(1) + "}", start)
            whole = text[m.end():start]
            depth, close = 0, 0
            for k, c in enumerate(whole):
                depth += (c in "(") - (c in ")")
                if c == ")" and depth == 0:
                    close = k
                    break
            parameters = re.findall(r"(\w+): ", whole[:close])
            yield name.split("/")[0] + "::" + m.group(2), parameters, whole[close:], text[start:stop]


def point_1():
    yield from lines(r"^(pub )?enum ")
    yield from lines(r"^ +pub (answer|number|standing|reason|last|started|headed|main|broken): ")
    yield from lines(r"fn (number|\w+_number|standing|failing)\(.*-> u(8|64)")


def point_2():
    shapes = collections.defaultdict(list)
    for name, _, _, body in functions():
        shape = re.sub(r"[A-Za-z_][\w:]*|\d[\w.]*", "x", re.sub(r"//.*", "", body))
        shape = re.sub(r"(x, )+x", "x", re.sub(r"\s+", " ", shape))
        if len(shape) > 8:
            shapes[shape].append(name)
    for shape, names in shapes.items():
        if len(names) > 1:
            yield f"{len(names)} of one shape: {' '.join(names)}"


def point_3():
    yield from lines(r"^ *(while|loop)\b")


def point_4():
    yield from lines(r"fn (is_(zero_\w+|less|nothing|shown|refused|plain)|wide\w*|number|size|\w+_number|code_of|relation_\w+|row_of|column_of|clock_set|byte_of|bit|digit|answer_cause|time_of|stamp_of)\b")
    yield from lines(r"\bas (u8|u16|u32|u64|usize)\b")


def point_5():
    parts = collections.defaultdict(list)
    for name, _, contract, _ in functions():
        for clause in re.findall(r"requires(?: \w+)? \{((?:[^{}]|\{[^{}]*\})*)\}", contract):
            for part in " ".join(clause.split()).split(" × "):
                part = re.sub(r"\b\w+\.(old|now)\b", "x", part.strip("() "))
                parts[re.sub(r"\d+", "n", part)].append(name)
    for part, names in sorted(parts.items(), key=lambda x: -len(x[1])):
        if len(names) > 2:
            yield f"{len(names)} require {part}: {' '.join(names)}"
    taken = {name: set(parameters) for name, parameters, _, _ in functions()}
    groups = {}
    for parameters in taken.values():
        for triple in itertools.combinations(sorted(parameters), 3):
            names = [name for name in taken if set(triple) <= taken[name]]
            if len(names) > 3:
                groups[" ".join(names)] = (set.intersection(*(taken[name] for name in names)), names)
    for group, names in sorted(groups.values(), key=lambda x: (-len(x[1]), -len(x[0]))):
        yield f"{len(names)} take {', '.join(sorted(group))}: {' '.join(names)}"


def point_6():
    yield from lines(r"out: &mut \[u\d+\], at: usize")
    yield from lines(r"^ +pub \w+: \[.*; \w+\]")
    yield from lines(r"^ +(pub )?\w+: &'?a? ?\[u\d+\]")


def point_7():
    yield from lines(r"\bdyn |fn\(|: \[fn")
    yield from lines(r"=> \w+_step\(")


def point_8():
    for name in sorted(glob.glob("crates/*/proofs/**/*.antt", recursive=True)):
        if name.endswith("Answers.antt"):
            yield name


if __name__ == "__main__":
    for k in range(1, 9):
        found = list(globals()[f"point_{k}"]())
        if len(sys.argv) < 2:
            print(f"point {k}: {len(found)}")
        elif sys.argv[1] == str(k):
            print("\n".join(found))
