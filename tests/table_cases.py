#!/usr/bin/env python3
"""Writes tests/cases/table_cases.in and table_cases.out. With --check it compares instead.

First the table cases of tests/vectors, each with the outcome that the case itself gives; then tables at the limits of depth 64 and 65, of a text
of 4,096 and 4,097 bytes and of decoded lengths, columns of more cells than rows, and a count above the cells. A case is six numbers of two bytes (the lengths of
the schema, of the table, of the columns and of the text, a row's position, how often the table is judged), then the schema, the columns' cells
row by row, and the text. What is written after the outcome is the text of the row at that position: refused, an element, or where its text
starts, its length and its decoded length; and the length of the part that is handed back, with the decoded length again."""
import os
import struct
import sys

from vector_cases import cases

HERE = os.path.dirname(os.path.abspath(__file__))
CASES = os.path.join(HERE, "cases", "table_cases")
TEXTS = 32


def vectors():
    for case in cases(140, "table"):
        schema, table, text = case["texts"]
        rows = [tuple(int(n) for n in row.split()) for row in table.split("\n") if row]
        yield schema, rows, len(rows), text, case["gives"].startswith("ok")


def nested(depth):
    """An element in itself, so many times."""
    return "<!ELEMENT a (a?)>", [(i, 0, max(i - 1, 0), 0, 0, 0) for i in range(depth)]


def with_text(size, decoded, of_element=0):
    return "<!ELEMENT a (#PCDATA)>", [(0, 0, 0, 0, 0, of_element), (1, TEXTS, 0, 1, size, decoded)]


def limits():
    for depth, passes in ((64, True), (65, False)):
        schema, rows = nested(depth)
        yield schema, rows, len(rows), "", passes
    for size, passes in ((1, True), (4096, True), (4097, False)):
        schema, rows = with_text(size, size)
        yield schema, rows, 2, "<" + "x" * size, passes
        yield schema, rows, 2, "x" * size, False
        for place in (1, 1 + size // 2, size):
            yield schema, rows, 2, "<" + "x" * (place - 1) + "\x7f" + "x" * (size - place), False
    # decoded lengths: that of an entity and of what follows it, or the raw one; an element's is 0
    for size, decoded, of_element, passes in (
        (5, 1, 0, True), (5, 5, 0, True), (5, 0, 0, False), (5, 2, 0, False), (5, 4, 0, False), (5, 6, 0, False), (5, 1, 1, False), (5, 5, 1, False),
        (6, 2, 0, True), (6, 1, 0, False), (4, 1, 0, False), (4, 4, 0, True), (1, 1, 0, True), (1, 0, 0, False), (1, 2, 0, False),
        (4096, 4092, 0, True), (4096, 4096, 0, True), (4096, 4091, 0, False), (4096, 4095, 0, False), (4096, 4097, 0, False), (4097, 4093, 0, False),
    ):
        schema, rows = with_text(size, decoded, of_element)
        yield schema, rows, 2, "<&amp;" + "x" * size, passes
    yield "<!ELEMENT a (a?)>", [(0, 0, 0, 0, 0, 0), (1, 0, 0, 0, 0, 1)], 2, "", False
    # a text below depth 64; a second text of an element; the same number again; a parent that is closed; fewer rows than cells, and more
    schema = "<!ELEMENT a (a|b)*>\n<!ELEMENT b (#PCDATA)>"
    deep = [(i, 0, max(i - 1, 0), 0, 0, 0) for i in range(63)] + [(63, 1, 62, 0, 0, 0), (64, TEXTS + 1, 63, 0, 1, 1)]
    yield schema, deep, len(deep), "x", True
    yield schema, deep + [(65, TEXTS + 1, 63, 0, 1, 1)], 66, "x", False
    yield schema, [(0, 0, 0, 0, 0, 0), (1, 0, 0, 0, 0, 0), (1, 0, 0, 0, 0, 0)], 3, "", False
    closed = [(0, 0, 0, 0, 0, 0), (1, 0, 0, 0, 0, 0), (2, 0, 0, 0, 0, 0), (3, 0, 1, 0, 0, 0)]
    yield schema, closed, 4, "", False
    yield schema, closed, 3, "", True
    yield schema, closed[:3], 4, "", False


def case(schema, rows, count, text, position, times=1):
    head = struct.pack(">6H", len(schema), count, len(rows), len(text), position, times)
    cells = b"".join(struct.pack(">HBHIHH", *row) for row in rows)
    return head + schema.encode("latin-1") + cells + text.encode("latin-1")


def answer(rows, count, position, passes):
    if not passes or count <= position:
        return "refused 0 0"
    number, code, parent, start, size, decoded = rows[position]
    return "text %d %d %d %d %d" % (start, size, decoded, size, decoded) if TEXTS <= code else "element 0 0"


def main():
    stdin, stdout = b"", ""
    for schema, rows, count, text, passes in [*vectors(), *limits()]:
        for position in sorted({0, count - 1 if count else 0, count}):
            stdin += case(schema, rows, count, text, position)
            outcome = "ok %d" % count if passes else "refused 1 at 0"
            stdout += outcome + " " + answer(rows, count, position, passes) + "\n"
    for name, made in ((".in", stdin), (".out", stdout.encode())):
        path = CASES + name
        if "--check" in sys.argv:
            with open(path, "rb") as f:
                if f.read() != made:
                    sys.exit("table_cases: %s is not what tests/table_cases.py makes" % path)
        else:
            with open(path, "wb") as f:
                f.write(made)
    print("table_cases: %d lines" % stdout.count("\n"))


if __name__ == "__main__":
    main()
