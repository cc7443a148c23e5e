#!/usr/bin/env python3
"""The cases of tests/vectors through the two functions for C: each outcome that they show, from the refusals of a schema to what `listing` would print.
LOZHYMET_LIB is the archive, that of the proved library unless set. Needs gcc."""
import collections
import ctypes
import os
import re
import subprocess
import sys
import tempfile

ROOT = os.path.join(os.path.dirname(os.path.abspath(__file__)), "..", "..")
sys.path.insert(0, os.path.join(ROOT, "tests"))
from vector_cases import cases as vector_cases  # noqa: E402

WIDTHS = [ctypes.c_uint16, ctypes.c_uint8, ctypes.c_uint16, ctypes.c_uint32, ctypes.c_uint16, ctypes.c_uint16]
MISSPELT = b"<"  # a journal that is refused by 11 at 0, so that a schema and a bundle that are accepted show
NO_ROWS = bytes([3, 0, 2, 0, 0])
ANY = b"self::node()\n"
# of the cases so many are shown by the two functions
SHOWN = 1370
MAX_JOURNAL, MAX_LISTED_BYTES, MAX_LISTED_ROWS = 1048576, 32768, 4096


class Result(ctypes.Structure):
    _fields_ = [(name, ctypes.c_uint64) for name in ("number", "place", "rows", "items", "counts")]


class Refused(Exception):
    def __init__(self, number, place):
        super().__init__("refused %d at %d\n" % (number, place))
        self.number = number


class Library:
    def __init__(self, archive, folder):
        shared = os.path.join(folder, "library.so")
        subprocess.run(["gcc", "-shared", "-o", shared, "-Wl,--whole-archive", archive, "-Wl,--no-whole-archive"], check=True)
        self.made = ctypes.CDLL(shared)
        self.made.host_make_extract.restype = self.made.host_select.restype = Result

    def call(self, function, inputs, rows, outputs):
        """The columns' rows and the other outputs; raises what is refused. `rows` are the cells of each column, or of all."""
        lent = [rows] * len(WIDTHS) if isinstance(rows, int) else rows
        columns = [(width * max(size, 1))() for width, size in zip(WIDTHS, lent)]
        cells = [((width * max(size, 1))(), size) for width, size in outputs]
        words = []
        for given in inputs:
            words += [ctypes.c_size_t(given)] if isinstance(given, int) else [ctypes.c_char_p(given), ctypes.c_size_t(len(given))]
        for column, size in zip(columns, lent):
            words += [column, ctypes.c_size_t(size)]
        for cell, size in cells:
            words += [cell, ctypes.c_size_t(size)]
        r = function(*words)
        if r.number:
            raise Refused(r.number, r.place)
        return list(zip(*(column[:r.rows] for column in columns))), [cells[0][0][:r.items]] + [cell[:r.counts] for cell, _ in cells[1:]]

    def make(self, schema, bundle, journal, rows=None, room=None):
        rows = min(len(journal) // 4, 65535) if rows is None else rows
        room = 2 * len(journal) + 5 if room is None else room
        table, (extract,) = self.call(self.made.host_make_extract, [schema, bundle, journal], rows, [(ctypes.c_uint8, room)])
        return table, bytes(extract)

    def select(self, schema, bundle, place, extract, lent=None):
        rows = min(len(extract) // 8, 65535)
        return self.call(self.made.host_select, [schema, bundle, place, extract], lent or rows, [(ctypes.c_uint16, 8 * rows), (ctypes.c_uint32, 8)])

    def accepts(self, schema, bundle):
        """Raises what is refused of the two."""
        try:
            self.make(schema, bundle, MISSPELT)
        except Refused as r:
            if str(r) != "refused 11 at 0\n":
                raise


def lines(table, cells):
    return "ok %d\n" % len(table) + "".join(" ".join(str(row[k]) for k in cells) + "\n" for row in table)


def each_path(library, schema, bundle, extract):
    """The nodes of each path, from one call for all and from a call for each, which must agree."""
    _, (items, counts) = library.select(schema, bundle, 0, extract)
    paths = []
    for k, count in enumerate(counts):
        paths.append(items[:count])
        items = items[count:]
        if library.select(schema, bundle, k + 1, extract)[1][0] != paths[-1]:
            raise AssertionError("path %d alone selects other nodes" % (k + 1))
    return paths


def chain(schema, table, row):
    names = re.findall(rb"<!ELEMENT\s+([^\s]+)", schema)
    number, name, parent = table[row][:3]
    own = "/text()" if name >= 32 else "/" + names[name].decode()
    return (chain(schema, table, parent) if row else "") + own


def listing(library, schema, bundle, journal):
    library.accepts(schema, bundle)
    if len(journal) > MAX_LISTED_BYTES:
        raise Refused(2, 0)
    table, extract = library.make(schema, bundle, journal, MAX_LISTED_ROWS)
    paths = each_path(library, schema, bundle, extract)
    chosen = [(row, min(k for k, nodes in enumerate(paths) if row in nodes) + 1) for row in range(len(table)) if any(row in nodes for nodes in paths)]
    kept = extract[-2] * 256 + extract[-1]
    head = "selected %d kept %d of %d\n" % (len(chosen), kept, len(table))
    return head + "".join("%d %d %s\n" % (row, first, chain(schema, table, row)) for row, first in chosen)


def outcome(library, case):
    """What the case gives, or None where the two functions do not show it."""
    does, limits = case["does"], case["limits"]
    texts = [t.encode("latin-1") for t in case["texts"]]
    if does in ("needed", "table", "schema-record") or (limits and limits[0] != MAX_JOURNAL):
        return None
    if does == "schema":
        library.accepts(texts[0], ANY)
        return case["gives"]
    if does == "bundle":
        library.accepts(*texts)
        return "ok %d\n" % len(library.select(*texts, 0, NO_ROWS)[1][1])
    if does == "journal":
        return lines(library.make(texts[0], ANY, texts[1], limits[1] if limits else None)[0], range(6))
    if does == "read-extract":
        return lines(library.select(texts[0], ANY, 0, texts[1], limits[1:])[0], (0, 1, 2, 4, 5))
    if does == "listing":
        return listing(library, *texts)
    extract = texts[2] if does == "select-extract" else library.make(*texts)[1]
    if does == "extract":
        # once more in as many cells as it takes: a text takes those of its characters
        extract = library.make(*texts, room=len(extract))[1]
        return "ok %d %d\n" % (extract[-2] * 256 + extract[-1], len(extract)) + extract.decode("latin-1")
    return "".join(" ".join(map(str, nodes)) + "\n" for nodes in each_path(library, texts[0], texts[1], extract))


def main():
    archive = os.environ.get("LOZHYMET_LIB", os.path.join(ROOT, "target", "staticlib", "liblibrary.a"))
    cases = vector_cases(1764)
    ran, left, wrong = collections.Counter(), collections.Counter(), 0
    with tempfile.TemporaryDirectory() as folder:
        library = Library(archive, folder)
        for case in cases:
            try:
                gives = outcome(library, case)
            except Refused as r:
                gives = str(r)
            if gives is None:
                left[case["does"]] += 1
                continue
            ran[case["does"]] += 1
            if gives != case["gives"]:
                wrong += 1
                print("vectors: %s gives %r, not %r" % (case["case"], gives[:200], case["gives"][:200]))
    if sum(ran.values()) != SHOWN:
        sys.exit("vectors: the two functions show %d cases, and %d are wanted" % (sum(ran.values()), SHOWN))
    if wrong:
        sys.exit("vectors: %d of %d cases differ" % (wrong, sum(ran.values())))
    print("vectors: %d cases agree through the two functions for C (%s); not shown by them: %s" % (
        sum(ran.values()), ", ".join("%d %s" % (n, d) for d, n in sorted(ran.items())), ", ".join("%d %s" % (n, d) for d, n in sorted(left.items()))))


main()
