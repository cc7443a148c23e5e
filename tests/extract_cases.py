#!/usr/bin/env python3
"""Writes tests/cases/extract_cases.in and extract_cases.out. With --check it compares instead.

First the cases of tests/vectors that read an extract, each with the outcome that the case itself gives; then extracts at the limits of depth 64 and
65 and of a text of 4,096 and 4,097 bytes, and a sixth column of another length. A case is the lengths of the schema, of the extract and of the six columns, two bytes each, and
the two texts. It is read into columns of 64 cells and of 4, or of the cells that the case lends; after the outcome stand the number, the name, the
parent and the two lengths in each cell, `-` where a column is shorter than the longest."""
import os
import struct
import sys

from vector_cases import cases

HERE = os.path.dirname(os.path.abspath(__file__))
CASES = os.path.join(HERE, "cases", "extract_cases")
TEXTS = 32
# the cells of each column, for a case that does not say how many are lent
EACH = [[64] * 6, [4] * 6]


def vectors():
    for case in cases(149, "read-extract"):
        outcome, *rows = case["gives"].rstrip("\n").split("\n")
        lent = case["limits"][1:]
        yield case["texts"][0], case["texts"][1].encode("latin-1"), outcome, rows, [lent] if lent else EACH


def field(tag, value):
    return struct.pack(">BH", tag, len(value)) + value


def element(number, parent, index):
    return field(1, struct.pack(">HHB", number, parent, index))


def count(rows):
    return field(3, struct.pack(">H", rows))


def limits():
    for depth in (64, 65):
        numbers = range(depth)
        extract = b"".join(element(i, max(i - 1, 0), 0) for i in numbers) + count(depth)
        rows = ["%d 0 %d 0 0" % (i, max(i - 1, 0)) for i in numbers]
        yield "<!ELEMENT a (a?)>", extract, *(("ok 64", rows) if depth == 64 else ("refused 17 at 0", [])), EACH
    for size in (1, 4096, 4097):
        extract = element(0, 0, 0) + field(2, struct.pack(">HH", 9, 0) + b"x" * size) + count(2)
        rows = ["0 0 0 0 0", "9 %d 0 %d %d" % (TEXTS, size, size)]
        yield "<!ELEMENT a (#PCDATA)>", extract, *(("ok 2", rows) if size <= 4096 else ("refused 17 at 0", [])), EACH
    yield "<!ELEMENT a (#PCDATA)>", element(0, 0, 0) + count(1), "refused 1 at 0", [], [[2] * 5 + [1], [2] * 5 + [3]]


def answer(outcome, rows, lent):
    if lent[0] < len(rows):
        outcome, rows = "refused 18 at 0", []
    lines = [row.split() for row in rows] + [["0"] * 5] * (max(lent) - len(rows))
    shown = [lent[k] for k in (0, 1, 2, 4, 5)]
    return outcome + "\n" + "".join(" ".join(cell if i < size else "-" for cell, size in zip(line, shown)) + " \n" for i, line in enumerate(lines))


def main():
    stdin, stdout = b"", ""
    for schema, extract, outcome, rows, columns in [*vectors(), *limits()]:
        for lent in columns:
            stdin += struct.pack(">8H", len(schema), len(extract), *lent) + schema.encode("latin-1") + extract
            stdout += answer(outcome, rows, lent)
    for name, made in ((".in", stdin), (".out", stdout.encode())):
        path = CASES + name
        if "--check" in sys.argv:
            with open(path, "rb") as f:
                if f.read() != made:
                    sys.exit("extract_cases: %s is not what tests/extract_cases.py makes" % path)
        else:
            with open(path, "wb") as f:
                f.write(made)
    print("extract_cases: %d lines" % stdout.count("\n"))


if __name__ == "__main__":
    main()
