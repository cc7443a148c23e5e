#!/usr/bin/env python3
"""Writes tests/cases/schema_cases.in and schema_cases.out. With --check it compares instead.

First the schema cases of tests/vectors: each text after its length in two bytes, and the outcome that the case itself gives; the
cells of records after an empty text with 128 added, their number and the record's length. Then texts of
which the tables are shown, too (128 is added to the first byte): those of these cases that are accepted, the schemas of other cases, and
models made by a generator that always gives the same. What their tables say is worked out here from document 01 alone: models become
regular expressions, 'below' is found by search."""
import os
import random
import re
import struct
import sys

from vector_cases import cases

HERE = os.path.dirname(os.path.abspath(__file__))
CASES = os.path.join(HERE, "cases", "schema_cases")
NAME = r"[A-Za-z_][A-Za-z0-9._-]*"
BLANK = r"[ \t\n]"
TRIED = 5


def shown():
    """Accepted schemas, each once."""
    for case in cases(722, "schema", "needed", "select", "extract"):
        if not case["gives"].startswith("refused"):
            yield case["texts"][0]
    yield from made()


def group(choose, names, depth):
    separator = choose.choice(",|")
    parts = []
    for _ in range(choose.randint(1, 3)):
        part = choose.choice(names) if depth == 0 or choose.random() < 0.6 else group(choose, names, depth - 1)
        parts.append(part + choose.choice(["", "", "?", "*", "+"]))
    return "(" + separator.join(parts) + ")"


def made():
    choose = random.Random(1)
    for _ in range(40):
        names = ["e%d" % k for k in range(choose.randint(1, 6))]
        text = ""
        for name in names:
            model = group(choose, names, choose.randint(0, 4)) + choose.choice(["", "?", "*", "+"])
            text += "<!ELEMENT %s %s>\n" % (name, choose.choice(["EMPTY", "(#PCDATA)", model, model, model, model]))
        yield text


def declarations(text):
    found = re.findall(r"<!ELEMENT%s+(%s)%s+(EMPTY|\([^>]*?)%s*>" % (BLANK, NAME, BLANK, BLANK), text)
    return [(name, re.sub(BLANK, "", content)) for name, content in found]


def held(k, content, index):
    if content == "EMPTY":
        return set()
    if content == "(#PCDATA)":
        return {32 + k}
    return {index[name] for name in re.findall(NAME, content)}


def reached(start, holds):
    below, left = set(), list(start)
    while left:
        name = left.pop()
        if name not in below:
            below.add(name)
            left += holds[name] if name < 32 else []
    return below


def fits(content, index):
    model = re.sub(NAME, lambda m: chr(256 + index[m[0]]), content)
    model = re.compile(model.replace(",", "").replace("(", "(?:"))
    tried = [()]
    for a in range(TRIED):
        tried += [(a,)] + [(a, b) for b in range(TRIED)]
    return "".join("1" if model.fullmatch("".join(chr(256 + c) for c in children)) else "0" for children in tried)


def tables(text):
    declared = declarations(text)
    index = {name: k for k, (name, _) in enumerate(declared)}
    holds = [held(k, content, index) for k, (_, content) in enumerate(declared)]
    lines = ""
    for k, (_, content) in enumerate(declared):
        kind = {"EMPTY": 0, "(#PCDATA)": 1}.get(content, 2)
        bits = [sum(2 ** b for b in names) for names in (holds[k], reached(holds[k], holds))]
        lines += "%d %d %d %s\n" % (kind, *bits, fits(content, index) if kind == 2 else "")
    return lines


def main():
    read, written = b"", ""
    for case in cases(77, "schema"):
        read += len(case["texts"][0]).to_bytes(2, "big") + case["texts"][0].encode("latin-1")
        written += case["gives"]
    for case in cases(2, "schema-record"):
        cells, (size,) = case["texts"][0], case["limits"]
        read += struct.pack(">3H", 2 ** 15, len(cells), size) + cells.encode("latin-1")
        written += case["gives"]
    for text in dict.fromkeys(shown()):
        read += (2 ** 15 + len(text)).to_bytes(2, "big") + text.encode("latin-1")
        written += "ok %d\n" % len(declarations(text)) + tables(text)
    for name, content in ((".in", read), (".out", written.encode("ascii"))):
        path = CASES + name
        if "--check" in sys.argv[1:]:
            with open(path, "rb") as f:
                if f.read() != content:
                    sys.exit("schema_cases: %s is not what tests/schema_cases.py says" % path)
        else:
            with open(path, "wb") as f:
                f.write(content)


main()
