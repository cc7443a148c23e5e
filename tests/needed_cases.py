#!/usr/bin/env python3
"""Writes tests/cases/needed_cases.in and needed_cases.out. With --check it compares instead.

The cases of tests/vectors that ask for needed names: the schema (128 is added to the first byte of its length), its bundle, and each path of the
bundle as a bundle of its own. The case gives the names of the bundle and those of each path, or the bundle's refusal."""
import os
import sys

from vector_cases import cases

HERE = os.path.dirname(os.path.abspath(__file__))
CASES = os.path.join(HERE, "cases", "needed_cases")


def asked(case, bundle):
    """Bundles and what is written for each."""
    lines = case["gives"].splitlines()
    if lines[0].startswith("refused"):
        return [(bundle, lines[0])]
    paths = bundle.splitlines(keepends=True)
    assert len(lines) == 1 + len(paths), case["case"]
    return zip([bundle] + paths, [str(int(word, 16)) for word in lines])


def main():
    read, written = b"", ""
    schema = None
    for case in cases(248, "needed"):
        texts = [text.encode("latin-1") for text in case["texts"]]
        if texts[0] != schema:
            schema = texts[0]
            read += (2 ** 15 + len(schema)).to_bytes(2, "big") + schema
        for bundle, outcome in asked(case, texts[1]):
            read += len(bundle).to_bytes(2, "big") + bundle
            written += outcome + "\n"
    for name, content in ((".in", read), (".out", written.encode("ascii"))):
        path = CASES + name
        if "--check" in sys.argv[1:]:
            with open(path, "rb") as f:
                if f.read() != content:
                    sys.exit("needed_cases: %s is not what tests/needed_cases.py says" % path)
        else:
            with open(path, "wb") as f:
                f.write(content)


main()
