#!/usr/bin/env python3
"""Writes tests/cases/select_cases.in and select_cases.out. With --check it compares instead.

The cases of tests/vectors that select, those of document 01's tried paths among them. A case is four numbers of two bytes (the lengths of the
schema, the bundle and the journal, and how many calls follow), the three texts, and for each call three numbers of two bytes: a place in the
bundle, and how many cells are lent for items and for counts. The calls: all paths, with the cells that they take and with more; each path
alone; a place past the last path; one cell too few for the items, and for the counts. What is written for a call is the refusal's number and
place, how many items and counts are answered, and then every cell that was lent. All but the refusals is what the case itself gives."""
import os
import struct
import sys

from vector_cases import cases

HERE = os.path.dirname(os.path.abspath(__file__))
CASES = os.path.join(HERE, "cases", "select_cases")


def vectors():
    for case in cases(250, "select"):
        # the function takes records, and one of a text that is refused is none
        if case["gives"].startswith("refused"):
            continue
        paths = [[int(n) for n in path.split()] for path in case["gives"].splitlines()]
        texts = [text.encode("latin-1") for text in case["texts"]]
        assert len(paths) == texts[1].count(b"\n"), case["case"]
        yield texts, paths


def calls(paths):
    """For each call its place, the cells lent, the refusal and the paths that are answered."""
    total, n = sum(len(path) for path in paths), len(paths)
    yield 0, total, n, 0, paths
    yield 0, total + 2, n + 1, 0, paths
    for place, path in enumerate(paths, 1):
        yield place, len(path), 1, 0, [path]
    yield n + 1, total, n, 1, []
    if total:
        yield 0, total - 1, n, 18, []
    yield 0, total, n - 1, 18, []


def line(items, counts, refusal, answer):
    numbers = [number for path in answer for number in path]
    sizes = [len(path) for path in answer]
    outcome = [refusal, 0, len(numbers), len(sizes)]
    cells = [numbers + [0] * (items - len(numbers)), sizes + [0] * (counts - len(sizes))]
    return "| ".join("".join("%d " % n for n in part) for part in [outcome, *cells]) + "\n"


def main():
    stdin, stdout = b"", ""
    for texts, paths in vectors():
        asked = list(calls(paths))
        stdin += struct.pack(">4H", *(len(text) for text in texts), len(asked)) + b"".join(texts)
        for place, items, counts, refusal, answer in asked:
            stdin += struct.pack(">3H", place, items, counts)
            stdout += line(items, counts, refusal, answer)
    for name, made in ((".in", stdin), (".out", stdout.encode())):
        path = CASES + name
        if "--check" in sys.argv:
            with open(path, "rb") as f:
                if f.read() != made:
                    sys.exit("select_cases: %s is not what tests/select_cases.py makes" % path)
        else:
            with open(path, "wb") as f:
                f.write(made)
    print("select_cases: %d lines" % stdout.count("\n"))


if __name__ == "__main__":
    main()
