#!/usr/bin/env python3
"""Writes a table of 60,000 rows in the form that table_cases reads, judged as often as the second argument says. The first argument: `mixed`, rows
of many depths with short texts; `comb`, the longest climbs; `texts`, the longest texts, which overlap."""
import os
import sys

sys.path.insert(0, os.path.join(os.path.dirname(os.path.abspath(__file__)), ".."))
from table_cases import TEXTS, case

SCHEMA = "<!ELEMENT a (a|b)*><!ELEMENT b (#PCDATA)>"
ROWS = 60000


def mixed():
    rows, line, state = [(0, 0, 0, 0, 0, 0)], [0], 1
    while len(rows) < ROWS:
        state = (state * 1103515245 + 12345) % 2**31
        del line[1 + (state >> 16) % len(line):]
        number = len(rows)
        rows.append((number, 0 if state >> 8 & 1 else 1, line[-1], 0, 0, 0))
        if rows[-1][1] == 1:
            size = 1 + state % 20
            rows.append((number + 1, TEXTS + 1, number, state % 8000, size, size))
        elif len(line) < 60:
            line.append(number)
    return rows[:ROWS], "x" * 8100


def comb():
    rows = [(0, 0, 0, 0, 0, 0)]
    while len(rows) < ROWS:
        number = len(rows)
        rows.append((number, 0, 0 if number % 63 == 1 else number - 1, 0, 0, 0))
    return rows, ""


def texts():
    rows = [(0, 0, 0, 0, 0, 0)]
    while len(rows) + 1 < ROWS:
        number = len(rows)
        rows += [(number, 1, 0, 0, 0, 0), (number + 1, TEXTS + 1, number, 0, 4096, 4096)]
    return rows, "x" * 4096


def main():
    rows, text = {"mixed": mixed, "comb": comb, "texts": texts}[sys.argv[1]]()
    sys.stdout.buffer.write(case(SCHEMA, rows, len(rows), text, 0, int(sys.argv[2])))


if __name__ == "__main__":
    main()
