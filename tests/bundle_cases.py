#!/usr/bin/env python3
"""Writes tests/cases/bundle_cases.in and bundle_cases.out. With --check it compares instead.

First the bundle cases of tests/vectors: each text after its length in two bytes, a schema's where 128 is added to the first byte, and the
outcome that the case itself gives. Then each limit on both sides, undeclared names, and bundles made by a generator that always gives the
same. What is compiled of an accepted one is worked out here from documents 01 and 02 alone, by regular expressions: for each path its steps, for each
step the steps in its brackets, and of each step the axis, with a mark at the last of an alternative, and the test."""
import itertools
import os
import random
import re
import sys

from vector_cases import cases

HERE = os.path.dirname(os.path.abspath(__file__))
CASES = os.path.join(HERE, "cases", "bundle_cases")
# each at the place that is its number
AXES = ["self", "child", "descendant", "descendant-or-self", "parent", "ancestor", "ancestor-or-self", "following", "following-sibling", "preceding",
        "preceding-sibling"]
# the cells before those of steps in brackets, and what is added to the axis of an alternative's last step
WRITTEN, LAST = 128, 16
TESTS = {"node()": 254, "text()": 255}
SCHEMA = "<!ELEMENT a (b|c|%s)*><!ELEMENT b (#PCDATA)><!ELEMENT c EMPTY><!ELEMENT %s EMPTY>" % ("n" * 31, "n" * 31)


def declared(schema):
    return re.findall(r"<!ELEMENT[ \t\n]+([A-Za-z_][A-Za-z0-9._-]*)", schema)


def step(text, names):
    """The number of the axis of a step without brackets, and that of its test."""
    axis, test = text.split("::")
    return AXES.index(axis), TESTS[test] if test in TESTS else names.index(test)


def columns(schema, bundle):
    names = declared(schema)
    paths, conditions, outer, inner = [0], [WRITTEN], [], []
    for line in bundle.split("\n")[:-1]:
        for written in re.findall(r"[^/\[\]]+(?:\[[^\]]*\])?", line):
            bare, _, brackets = written.partition("[")
            outer.append(step(bare, names))
            for alternative in brackets[:-1].split(" or ") if brackets else []:
                inner += [step(text, names) for text in alternative.split("/")]
                inner[-1] = inner[-1][0] + LAST, inner[-1][1]
            conditions.append(WRITTEN + len(inner))
        paths.append(len(outer))
    lists = [paths, conditions] + [[s[k] for s in outer + inner] for k in range(2)]
    return "".join("".join("%d " % n for n in numbers) + "\n" for numbers in lists)


def accepted(schema, bundle):
    return "ok %d\n" % bundle.count("\n") + columns(schema, bundle)


def refused(number, place):
    return "refused %d at %d\n" % (number, place)


def limits():
    """Each limit of 9 and of a text's length on both sides, and names of 31 and 32 bytes. A refused path comes after one that passes."""
    first = "self::a\n"
    for count in (8, 9):
        yield first * count, None if count == 8 else refused(9, 8 * len(first))
    for count in (16, 17):
        for written in ("child::b", "following::b", "preceding-sibling::b"):
            yield first + "/".join([written] * count) + "\n", None if count == 16 else refused(9, len(first))
    for count in (4, 5):
        some = ["child::b"] * count
        for joined in (" or ".join(some), "/".join(some)):
            yield first + "self::a[%s]\n" % joined, None if count == 4 else refused(9, len(first))
    # sixteen steps in brackets are not counted as the path's
    yield first + "self::a[%s]/child::b\n" % " or ".join(["/".join(["child::b"] * 4)] * 4), None
    for size in (512, 513):
        yield first + path_of(size) + "\n", None if size == 512 else refused(9, len(first))
    for size in (31, 32):
        yield first + "child::%s\n" % ("n" * size), None if size == 31 else refused(8, len(first) + 7 + 31)
    yield (path_of(512) + "\n") * 8, None
    yield (path_of(512) + "\n") * 7 + path_of(513) + "\n", refused(2, 0)
    # 9 before 10, 10 at the earliest name, in brackets or not
    yield "self::z\n" + first * 8, refused(9, 8 * len(first))
    yield first + "self::a[child::b/child::y]/child::z\n", refused(10, len(first) + len("self::a[child::b/child::"))
    yield first + "self::z[child::y]\n", refused(10, len(first) + 6)
    yield first + "self::a\n\tself::a\n", refused(8, 2 * len(first))
    yield first + "self::a[child::b\tor child::c]\n", refused(8, len(first) + len("self::a[child::b"))
    yield first + "self::a[child::b or\tchild::c]\n", refused(8, len(first) + len("self::a[child::b or"))
    for text, place in (("chil::a", 4), ("following-or-self::a", 10), ("descendant-sibling::a", 11), ("following-siblings::a", 17)):
        yield first + text + "\n", refused(8, len(first) + place)
    # at each byte of an axis, the end of the text and a byte that no axis has there
    for axis in AXES:
        for size in range(1, len(axis) + 2):
            part = (axis + "::")[:size]
            yield first + part, refused(8, len(first) + size)
            yield first + part + "#", refused(8, len(first) + size)


def path_of(size):
    """A path of so many bytes that passes no other limit: a step, nine with a condition, and four whose axes make up the length."""
    text = "self::a" + "/self::a[child::b/child::b/child::b or child::c]" * 9
    for four in itertools.combinations_with_replacement(AXES, 4):
        tail = "".join("/%s::a" % axis for axis in four)
        if len(text + tail) == size:
            return text + tail
    sys.exit("bundle_cases: no path of %d bytes" % size)


def made():
    choose = random.Random(1)
    tests = ["a", "b", "c", "n" * 31, "node()", "text()"]

    def plain():
        return choose.choice(AXES) + "::" + choose.choice(tests)

    def alternative():
        return "/".join(plain() for _ in range(choose.randint(1, 4)))

    for _ in range(60):
        lines = []
        for _ in range(choose.randint(1, 8)):
            steps = [plain() for _ in range(choose.randint(1, 4))]
            brackets = [" or ".join(alternative() for _ in range(choose.randint(1, 4))) if choose.random() < 0.3 else "" for _ in steps]
            line = "/".join(s + ("[%s]" % c if c else "") for s, c in zip(steps, brackets))
            if len(line) <= 512:
                lines.append(line + "\n")
        if lines:
            yield "".join(lines)


def text_case(text, schema):
    return ((2 ** 15 if schema else 0) + len(text)).to_bytes(2, "big") + text.encode("latin-1")


def main():
    read, written, last = b"", "", None
    for case in cases(285, "bundle"):
        schema, bundle = case["texts"]
        if schema != last:
            read += text_case(schema, True)
            last = schema
        read += text_case(bundle, False)
        written += accepted(schema, bundle) if case["gives"].startswith("ok") else case["gives"]
        if case["gives"].startswith("ok") and case["gives"] != "ok %d\n" % bundle.count("\n"):
            sys.exit("bundle_cases: a case of tests/vectors has another number of paths")
    read += text_case(SCHEMA, True)
    for bundle, outcome in limits():
        read += text_case(bundle, False)
        written += outcome or accepted(SCHEMA, bundle)
    for bundle in made():
        read += text_case(bundle, False)
        written += accepted(SCHEMA, bundle)
    # under a schema that is refused no bundle is read
    read += text_case("<!ELEMENT a>", True) + text_case("self::a\n", False)
    written += refused(1, 0)
    for name, content in ((".in", read), (".out", written.encode("ascii"))):
        path = CASES + name
        if "--check" in sys.argv[1:]:
            with open(path, "rb") as f:
                if f.read() != content:
                    sys.exit("bundle_cases: %s is not what tests/bundle_cases.py says" % path)
        else:
            with open(path, "wb") as f:
                f.write(content)


main()
