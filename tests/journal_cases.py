#!/usr/bin/env python3
"""Writes tests/cases/journal_cases.in and journal_cases.out. With --check it compares instead.

First the journal cases of tests/vectors, each with the outcome that the case itself gives, by the public entry and over a compiled schema; then
the limits of nodes, bytes, depth, texts and names on both sides, and what is refused by 1, 2 and 18 beside other faults. A case is the schema's
length (2 bytes), how it is read (0: the public entry, 1: within a limit), the column with a cell more (0: none), the limit, the cells lent
(4 bytes each) and the number of pieces (2), then the schema and the pieces. A piece is how many bytes it gives (4), its own length (2) and its
own bytes, which are taken again and again. Of more than 100 rows only the last is written."""
import os
import struct
import sys

from vector_cases import cases as vector_cases

HERE = os.path.dirname(os.path.abspath(__file__))
CASES = os.path.join(HERE, "cases", "journal_cases")
LONGEST, LENT, SHOWN = 1048576, 100, 100
PUBLIC, WITHIN = 0, 1

TILES = "<!ELEMENT r (a*)><!ELEMENT a EMPTY>"
TEXTS = "<!ELEMENT r (t*)><!ELEMENT t (#PCDATA)>"
NESTED = "<!ELEMENT a (a|t)*><!ELEMENT t (#PCDATA)>"


def once(text):
    return text, 1


def refused(number, place=0):
    return "refused %d at %d\n" % (number, place)


def rows(*cells):
    shown = cells if len(cells) <= SHOWN else cells[-1:]
    return "ok %d\n" % len(cells) + "".join("%d %d %d %d %d %d\n" % row for row in shown)


def vectors():
    """A schema, the pieces of a journal, the limit of its length, the cells lent and what is written."""
    for case in vector_cases(297, "journal"):
        schema, journal = case["texts"]
        limit, lent = (case["limits"] + [LONGEST, LENT][len(case["limits"]):])[:2]
        yield schema, [once(journal)], limit, lent, case["gives"]


def nodes():
    """65,535 and 65,536 nodes: the last one an element, or a text."""
    full = [(0, 0, 0, 0, 0, 0)] + [(n, 1, 0, 0, 0, 0) for n in range(1, 65535)]
    for count, lent, gives in (
        (65534, 65535, rows(*full)),
        (65534, 65536, rows(*full)),
        (65534, 65534, refused(18)),
        (65535, 65536, refused(16, 3 + 4 * 65534)),
        (65535, 0, refused(16, 3 + 4 * 65534)),
    ):
        yield TILES, [once("<r>"), ("<a/>", count), once("</r>")], lent, gives
    texts = [once("<r>"), ("<t>x</t>", 32767), once("</r>")]
    last = (65534, 33, 65533, 3 + 8 * 32766 + 3, 1, 1)
    yield TEXTS, texts, 65535, "ok 65535\n%d %d %d %d %d %d\n" % last
    decoded = (65534, 33, 65533, 3 + 12 * 32766 + 3, 5, 1)
    yield TEXTS, [once("<r>"), ("<t>&amp;</t>", 32767), once("</r>")], 65535, "ok 65535\n%d %d %d %d %d %d\n" % decoded
    yield TEXTS, [once("<r><t/>")] + texts[1:], 65536, refused(16, 7 + 8 * 32766 + 3)


def lengths():
    """1,048,576 and 1,048,577 bytes, and texts of 4,096 and 4,097."""
    root = [(0, 0, 0, 0, 0, 0)]
    for size, gives in ((LONGEST, rows(*root)), (LONGEST + 1, refused(2))):
        yield TILES, [once("<r>"), (" ", size - 7), once("</r>")], LENT, gives
    yield TILES, [once("<r>"), ("\x7f", LONGEST - 2)], LENT, refused(2)
    yield TILES, [("x", LONGEST)], LENT, refused(12)
    yield TILES, [once("<r>"), (" \n\t", 5000), once("</r>")], LENT, rows(*root)
    for text, size, decoded in (
        ([("x", 4096)], 4096, 4096),
        ([("x", 4097)], 4097, 4097),
        ([("&amp;", 819), once("x")], 4096, 820),
        ([("&amp;", 819), once("xx")], 4097, 821),
        ([("&lt;", 1024)], 4096, 1024),
        ([("&lt;", 1024), once("x")], 4097, 1025),
        ([("&apos;", 682), once("xxxx")], 4096, 686),
        ([("&quot;", 683)], 4098, 683),
    ):
        gives = rows((0, 0, 0, 0, 0, 0), (1, 32, 0, 3, size, decoded)) if size == 4096 else refused(16, 3)
        yield "<!ELEMENT t (#PCDATA)>", [once("<t>"), *text, once("</t>")], LENT, gives


def depths():
    """Depth 64 and 65, opened by a start tag or by an empty one; from there on nothing counts for 12."""
    levels = [(n, 0, max(n - 1, 0), 0, 0, 0) for n in range(64)]
    for open_tags, end_tags, gives in ((64, 64, rows(*levels)), (65, 65, refused(13, 192)), (65, 3, refused(13, 192)), (65, 99, refused(13, 192))):
        yield NESTED, [("<a>", open_tags), ("</a>", end_tags)], LENT, gives
    yield NESTED, [("<a>", 64), once("<a/>"), ("</a>", 64)], LENT, refused(13, 192)
    yield NESTED, [("<a>", 63), once("<t>x</t>"), ("</a>", 63)], LENT, rows(*levels[:63], (63, 1, 62, 0, 0, 0), (64, 33, 63, 192, 1, 1))
    yield NESTED, [("<a>", 64), once("</b>"), ("<a>", 9)], LENT, refused(12, 192)


def names():
    """Names of 31 and 32 bytes, in each kind of tag."""
    name = "n" * 31
    schema = "<!ELEMENT %s EMPTY>" % name
    for text, gives in (
        ("<%s/>" % name, rows((0, 0, 0, 0, 0, 0))),
        ("<%s></%s>" % (name, name), rows((0, 0, 0, 0, 0, 0))),
        ("<%sn/>" % name, refused(11)),
        ("<%sn></%sn>" % (name, name), refused(11)),
        ("<%s></%sn>" % (name, name), refused(11, 33)),
        ("<%s/>" % name[1:], refused(14)),
    ):
        yield schema, [once(text)], LENT, gives


def orders():
    """1 before 2, 15 before 18, and each refusal with no cell lent."""
    yield TILES, [once("<r><a/></r>")], 1, refused(18)
    yield TILES, [once("<r><a/></r>")], 2, rows((0, 0, 0, 0, 0, 0), (1, 1, 0, 0, 0, 0))
    yield TILES, [once("<r><a/></r>")], 0, refused(18)
    yield TILES, [once("<r><a/>x</r>")], 0, refused(15)
    yield TILES, [once("<r><b/></r>")], 1, refused(14, 3)
    yield TILES, [once("")], 0, refused(2)


def limits():
    for part in (nodes, lengths, depths, names, orders):
        yield from part()


def case(schema, pieces, limit, lent, way=PUBLIC, wider=0):
    head = struct.pack(">HBBIIH", len(schema), way, wider, limit, lent, len(pieces))
    body = b"".join(struct.pack(">IH", len(text) * times, len(text)) + text.encode("latin-1") for text, times in pieces)
    return head + schema.encode("latin-1") + body


def cases():
    for schema, pieces, limit, lent, gives in vectors():
        if limit == LONGEST:
            yield case(schema, pieces, limit, lent), gives
        yield case(schema, pieces, limit, lent, WITHIN), gives
    for schema, pieces, lent, gives in limits():
        yield case(schema, pieces, LONGEST, lent), gives
    # the program's own limit
    for size, gives in ((32768, rows((0, 0, 0, 0, 0, 0))), (32769, refused(2))):
        yield case(TILES, [once("<r>"), (" ", size - 7), once("</r>")], 32768, LENT, WITHIN), gives
    # 1, before any text: a column with a cell more, and a record that is none
    for wider in (1, 2, 3, 4, 5, 6):
        for journal in ("<r><a/></r>", ""):
            yield case(TILES, [once(journal)], LONGEST, LENT, PUBLIC, wider), refused(1)
    yield case("<!ELEMENT r (a*)>", [once("<r/>")], LONGEST, LENT), refused(1)
    yield case("", [once("")], LONGEST, 0), refused(1)


def main():
    stdin, stdout = b"", ""
    for given, gives in cases():
        stdin += given
        stdout += gives
    for name, made in ((".in", stdin), (".out", stdout.encode())):
        path = CASES + name
        if "--check" in sys.argv:
            with open(path, "rb") as f:
                if f.read() != made:
                    sys.exit("journal_cases: %s is not what tests/journal_cases.py makes" % path)
        else:
            with open(path, "wb") as f:
                f.write(made)
    print("journal_cases: %d lines" % stdout.count("\n"))


if __name__ == "__main__":
    main()
