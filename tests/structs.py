#!/usr/bin/env python3
"""The entries over slices of row structs, called by a program: tests/structs/main.txt, which nothing proves. `rt try` runs it on the interpreter and
compiled with checks, over the sources of this repository.

Each group of calls has a schema, a bundle and a journal: the journal is read into row structs, these are cut into others and selected on. What is
expected is worked out here, from documents 01 and 02: rows from the tags, cutting from the rows, what a path selects and what is refused by hand. The
interpreter runs the first groups; those on decoded texts and on a table of 65,535 rows would take more steps than it allows.

    tests/structs.py            every group
    tests/structs.py CRATES     over the crates of that folder, to see the test fail where a source is changed
"""
import filecmp
import os
import re
import resource
import shutil
import struct
import subprocess
import sys
import tempfile

HERE = os.path.dirname(os.path.abspath(__file__))
ROOT = os.path.dirname(HERE)
PROGRAM = "struct_cases"
NEEDS = "text row_structs schema schema_reader bundle selection struct_reading struct_cutting struct_selecting io"
STACK = 64 << 20
TEXTS = 32
# as in the program
MAX_LENT = 65600
SHOWN = 32
READ, CUT, SELECT, CHANGE_PARENT, CHANGE_RECORD, TAKE_CUT, CHANGE_DECODED = range(7)

S = "<!ELEMENT scan (plate*)><!ELEMENT plate (well|tile)*><!ELEMENT well (tile*)><!ELEMENT tile (focus?)><!ELEMENT focus (#PCDATA)>"
J = "<scan><plate><well><tile><focus>12</focus></tile></well><tile/></plate></scan>"
# document 01's paths on S and J, each with the nodes that it selects, and one that selects all
PATHS = [
    ("self::scan", [0]),
    ("self::plate", []),
    ("child::plate/child::tile[child::focus]", []),
    ("child::plate[child::well]/child::tile", [6]),
    ("descendant::tile/parent::well", [2]),
    ("child::plate/child::tile/parent::node()", [1]),
    ("descendant::text()", [5]),
    ("descendant-or-self::node()", [0, 1, 2, 3, 4, 5, 6]),
]
SIBLINGS = [
    ("descendant::well/following-sibling::node()", [6]),
    ("descendant::tile/preceding-sibling::node()", [2]),
    ("descendant::text()/following::node()", [6]),
    ("child::plate/child::tile/preceding::node()", [2, 3, 4, 5]),
    ("descendant::tile[following::tile]", [3]),
    ("following-sibling::node()", []),
]
ALL = 2 ** 64 - 1


def names_in(schema):
    return re.findall(r"<!ELEMENT (\w+)", schema)


def word_of(schema, *names):
    """A set of elements as 64 bits."""
    return sum(1 << names_in(schema).index(name) for name in names)


def rows_of(schema, journal):
    """The rows of a journal that has no blanks between its tags: number, name's code, parent's row, start, length and decoded length, to which
    each entity counts one."""
    known, rows, open_rows = names_in(schema), [], []
    for part in re.finditer(r"<(/?)(\w+)(/?)>|[^<]+", journal):
        close, name, empty = part.groups()
        parent = open_rows[-1] if open_rows else 0
        if close:
            open_rows.pop()
        elif name:
            rows.append((len(rows), known.index(name), parent, 0, 0, 0))
            if not empty:
                open_rows.append(len(rows) - 1)
        else:
            size, decoded = len(part.group()), len(re.sub("&(lt|gt|amp|apos|quot);", "x", part.group()))
            rows.append((len(rows), TEXTS + rows[parent][1], parent, part.start(), size, decoded))
    return rows


def cut(rows, word):
    """The rows whose names and whose ancestors' names are in the set, their parents renumbered."""
    kept, places = [], {}
    for i, (number, code, parent, start, *lengths) in enumerate(rows):
        if word >> code & 1 and (i == 0 or parent in places):
            places[i] = len(kept)
            kept.append((number, code, places[parent], start, *lengths))
    return kept


class Group:
    """Calls over the texts, and the outcome of each. Which are refused, and where, each case says by itself."""

    def __init__(self, schema, paths, journal):
        self.texts = [text.encode() for text in (schema, "".join(path + "\n" for path, _ in paths), journal)]
        self.selected = [nodes for _, nodes in paths]
        self.schema, self.journal, self.rows, self.calls, self.outcomes = schema, journal, [], [], []

    def written(self):
        return struct.pack(">4I", *map(len, self.texts), len(self.calls)) + b"".join(self.texts + self.calls)

    def call(self, *numbers):
        self.calls.append(struct.pack(">6I", *numbers, *[0] * (6 - len(numbers))))

    def read(self, lent, refused=0, place=0):
        self.call(READ, lent)
        self.rows = [] if refused else rows_of(self.schema, self.journal)
        self.outcomes.append(line(refused, place, len(self.rows)) + structs(self.rows, lent))

    def cut(self, handed, word, out, refused=0):
        self.call(CUT, handed, word >> 32, word % 2 ** 32, out)
        self.kept = [] if refused else cut(self.rows[:handed], word)
        self.outcomes.append(line(refused, 0, len(self.kept)) + structs(self.kept, out))

    def take_cut(self):
        self.call(TAKE_CUT)
        self.rows = self.kept

    def select(self, handed, place, items, counts, refused=0):
        self.call(SELECT, handed, place, items, counts)
        asked = [] if refused else self.selected[place - 1:place] if place else self.selected
        nodes = [node for path in asked for node in path if handed]
        sizes = [len(path) if handed else 0 for path in asked]
        cells = nodes + [0] * (items - len(nodes))
        lent_items = line(*cells) if items <= SHOWN else line(sum_of(cells))
        self.outcomes.append(line(refused, 0, len(nodes), len(sizes)) + lent_items + line(*sizes, *[0] * (counts - len(sizes))))

    def change_parent(self, row, parent):
        self.call(CHANGE_PARENT, row, parent)

    def change_decoded(self, row, decoded):
        self.call(CHANGE_DECODED, row, decoded)
        self.rows[row] = (*self.rows[row][:5], decoded)

    def change_record(self, place, byte):
        self.call(CHANGE_RECORD, place, byte)


def line(*numbers):
    return "".join("%d " % n for n in numbers) + "\n"


def sum_of(cells):
    total = 0
    for cell in cells:
        total = (total * 31 + cell) % 4294967291
    return total


def structs(rows, lent):
    """All structs lent, or their sum."""
    cells = rows + [(0,) * 6] * (lent - len(rows))
    if lent <= SHOWN:
        return "".join(line(*row) for row in cells)
    return line(sum_of(cell for row in cells for cell in row))


def on_example():
    """Document 01's example: structs too few, none, as many as rows and more; each refusal of each entry."""
    g = Group(S, PATHS, J)
    g.read(6, 18)
    g.read(0, 18)
    g.read(7)
    g.read(12)
    some = word_of(S, "scan", "plate", "tile", "focus")
    g.cut(7, some, 3)
    g.cut(7, some, 2, 18)
    g.cut(8, some, 9, 1)
    g.cut(0, ALL, 2)
    g.select(7, 5, 3, 2)
    g.select(7, 0, 12, 9)
    g.select(7, 0, 11, 8, 18)
    g.select(7, 9, 12, 8, 1)
    # the names that the fourth path needs: it selects the same node on what is cut
    g.cut(7, word_of(S, "scan", "plate", "well", "tile"), 6)
    g.take_cut()
    g.select(5, 4, 2, 1)
    # a tile in a tile
    g.change_parent(4, 3)
    g.cut(5, ALL, 8, 1)
    g.select(5, 0, 12, 8, 1)
    g.change_record(8191, 7)
    g.read(8, 1)
    return g


def renumbered():
    """A row goes before a parent that stays."""
    g = Group(S, PATHS[:1], "<scan><plate><well/></plate><plate><tile/></plate></scan>")
    g.read(5)
    g.cut(5, word_of(S, "scan", "plate", "tile"), 4)
    return g


def siblings():
    g = Group(S, SIBLINGS, J)
    g.read(7)
    g.select(7, 0, 8, 6)
    return g


def decoded():
    """A text of 11 bytes and 4 characters, as it is read, with the lengths of a copied one, and with others."""
    g = Group(S, PATHS, J.replace("12", "1&lt;2&amp;"))
    g.read(8)
    g.cut(7, ALL, 7)
    g.select(7, 0, 12, 8)
    g.change_decoded(5, 11)
    g.cut(7, ALL, 7)
    g.select(7, 0, 12, 8)
    # which is a table, but not beside this text
    g.change_decoded(5, 5)
    g.cut(7, ALL, 7)
    g.select(7, 7, 12, 8, 1)
    for length in (0, 12):
        g.change_decoded(5, length)
        g.cut(7, ALL, 7, 1)
        g.select(7, 7, 12, 8, 1)
    g.change_decoded(5, 4)
    g.change_decoded(4, 1)
    g.cut(7, ALL, 7, 1)
    return g


def undeclared():
    g = Group(S, PATHS[:1], J.replace("<tile/>", "<cell/>"))
    g.read(9, 14, J.index("<tile/>"))
    return g


def large():
    """As many rows as a table can have, in as many structs, one more and one less; 65,600 structs handed in."""
    count = 32767
    texts = ["%d" % (k % 100) + "&lt;" * (k % 2) for k in range(count)]
    paths = [("child::b", [2 * k + 1 for k in range(count)]), ("child::b/child::text()", [2 * k + 2 for k in range(count)])]
    g = Group("<!ELEMENT a (b*)><!ELEMENT b (#PCDATA)>", paths, "<a>%s</a>" % "".join("<b>%s</b>" % text for text in texts))
    rows = 2 * count + 1
    g.read(rows - 1, 18)
    g.read(rows)
    g.read(rows + 1)
    g.read(MAX_LENT)
    g.cut(rows, word_of(g.schema, "a", "b"), count, 18)
    g.cut(rows, word_of(g.schema, "a", "b"), count + 1)
    g.cut(rows, ALL, rows)
    g.cut(rows, ALL, rows + 1)
    g.cut(rows + 1, ALL, rows + 1, 1)
    g.cut(MAX_LENT, ALL, rows, 1)
    g.select(rows, 0, rows - 1, 2)
    g.select(rows, 0, rows - 2, 2, 18)
    g.select(rows, 0, rows - 1, 1, 18)
    g.select(rows + 1, 1, rows, 2, 1)
    g.select(0, 0, 1, 3)
    return g


def laid_out(folder, crates):
    """A repository of these crates and the program, whose source stands under another name here: rt takes every file *.rt for a crate's."""
    for crate in os.listdir(crates):
        shutil.copytree(os.path.join(crates, crate), os.path.join(folder, "crates", crate), ignore=shutil.ignore_patterns("out", "must-fail"))
    shutil.copy(os.path.join(ROOT, "crates.txt"), folder)
    with open(os.path.join(folder, "crates.txt"), "a") as f:
        f.write("%s: %s\n" % (PROGRAM, NEEDS))
    shutil.copy(os.path.join(HERE, "structs", "main.txt"), os.path.join(folder, "crates", PROGRAM, "src", "main.rt"))


def more_stack():
    """Compiled at -O0 each copy of a table's columns has stack of its own."""
    hard = resource.getrlimit(resource.RLIMIT_STACK)[1]
    resource.setrlimit(resource.RLIMIT_STACK, (STACK if hard == resource.RLIM_INFINITY else min(STACK, hard), hard))


def tried(folder, **cases):
    """What `rt try` says of the program on the cases, each of some groups."""
    program = os.path.join(folder, "crates", PROGRAM)
    subprocess.run(["rt", "fmt"], cwd=program, stdout=subprocess.DEVNULL)
    if not filecmp.cmp(os.path.join(program, "src", "main.rt"), os.path.join(HERE, "structs", "main.txt"), shallow=False):
        return False, "tests/structs/main.txt is not laid out as rt fmt lays it out"
    inputs = os.path.join(folder, "cases")
    os.makedirs(inputs)
    for name, groups in cases.items():
        with open(os.path.join(inputs, name), "wb") as f:
            f.write(b"".join(g.written() for g in groups))
        with open(os.path.join(inputs, name + ".stdout"), "w") as f:
            f.write("".join(outcome for g in groups for outcome in g.outcomes))
    ended = subprocess.run(["rt", "try", "--cases", inputs], cwd=program, stdout=subprocess.PIPE, stderr=subprocess.STDOUT,
                           text=True, preexec_fn=more_stack)
    return ended.returncode == 0, ended.stdout


def main():
    crates = os.path.abspath(sys.argv[1]) if len(sys.argv) > 1 else os.path.join(ROOT, "crates")
    small, many = [on_example(), renumbered(), siblings(), undeclared()], [decoded(), large()]
    with tempfile.TemporaryDirectory() as folder:
        os.makedirs(os.path.join(folder, "crates", PROGRAM, "src"))
        laid_out(folder, crates)
        passed, lines = tried(folder, small=small, many=many)
        if not passed or "case=small run=ended status=0 runners=2 output=expected" not in lines or "case=many run=ended status=0" not in lines:
            sys.exit("structs: " + lines)
    print("structs: %d calls on the interpreter and compiled, %d on decoded texts and a table of 65,535 rows compiled"
          % (sum(len(g.outcomes) for g in small), sum(len(g.outcomes) for g in many)))


main()
