#!/usr/bin/env python3
"""The program `listing` in folders of its own: the listing cases of tests/vectors, a refusal of each number that it can give, and both sides of its
limits. LISTING is the program, target/bin/listing unless set."""
import os
import subprocess
import sys
import tempfile

from vector_cases import cases as vector_cases

HERE = os.path.dirname(os.path.abspath(__file__))
FILES = ("schema.dtd", "paths.txt", "journal.xml")
WIDE = "<!ELEMENT a (b*)><!ELEMENT b EMPTY>"
S = "<!ELEMENT scan (plate*)><!ELEMENT plate (well|tile)*><!ELEMENT well (tile*)><!ELEMENT tile (focus?)><!ELEMENT focus (#PCDATA)>"
J = "<scan><plate><well><tile><focus>12</focus></tile></well><tile/></plate></scan>"
# 512 bytes and a line feed, which select the root: two steps with conditions of 196 bytes each, and seven without
HELD = "self::scan[%s]" % " or ".join(["self::scan/self::scan/self::scan/self::scan"] * 4)
PATH_512 = HELD + "/" + HELD + "/descendant-or-self::scan" * 3 + "/self::scan" * 4 + "\n"
P = "child::plate[child::well]/child::tile\ndescendant::tile/parent::well\n"

# three texts, None for a missing file, and what is printed
CASES = [
    ("document 01's example", (S, P, J), "selected 2 kept 5 of 7\n2 2 /scan/plate/well\n6 1 /scan/plate/tile\n"),
    ("an empty selection", (S, "self::plate\n", J), "selected 0 kept 0 of 7\n"),
    ("a text", (S, "descendant::text()\n", J), "selected 1 kept 7 of 7\n5 1 /scan/plate/well/tile/focus/text()\n"),
    ("a text with entities", (S, "descendant::text()\n", J.replace("12", "&lt;/focus&gt;")), "selected 1 kept 7 of 7\n5 1 /scan/plate/well/tile/focus/text()\n"),
    ("siblings", (S, "child::plate/child::tile/preceding-sibling::well\ndescendant::focus/following::tile\n", J),
     "selected 2 kept 6 of 7\n2 1 /scan/plate/well\n6 2 /scan/plate/tile\n"),
    ("no schema", (None, P, J), "refused 2 at 0\n"),
    ("no paths", (S, None, J), "refused 2 at 0\n"),
    ("no journal", (S, P, None), "refused 2 at 0\n"),
    ("no file", (None, None, None), "refused 2 at 0\n"),
    ("8,192 bytes of schema", ("<!ELEMENT a EMPTY>" + " " * 8174, "self::a\n", "<a/>"), "selected 1 kept 1 of 1\n0 1 /a\n"),
    ("2, 8,193 bytes of schema", ("<!ELEMENT a EMPTY>" + " " * 8175, "self::a\n", "<a/>"), "refused 2 at 0\n"),
    ("4,104 bytes of paths", (S, PATH_512 * 8, J), "selected 1 kept 1 of 7\n0 1 /scan\n"),
    ("2, 4,105 bytes of paths", (S, PATH_512 * 8 + "s", J), "refused 2 at 0\n"),
    ("2, 4,114 bytes of paths", (S, "self::scan\n" * 374, J), "refused 2 at 0\n"),
    ("3, in the schema", (S + "\r", P, J), "refused 3 at %d\n" % len(S)),
    ("3, in the paths", (S, P + "\x7f", J), "refused 3 at %d\n" % len(P)),
    ("3, in the journal", (S, P, J + "\xff"), "refused 3 at %d\n" % len(J)),
    ("4", ("<!ELEMENT a ANY>", P, J), "refused 4 at 12\n"),
    ("5", ("<!ELEMENT a (%s)>" % ",".join(["a?"] * 65), P, J), "refused 5 at 205\n"),
    ("6", ("<!ELEMENT a EMPTY><!ELEMENT a EMPTY>", P, J), "refused 6 at 28\n"),
    ("7", ("<!ELEMENT a (b)>", P, J), "refused 7 at 13\n"),
    ("8", (S, "childs::plate\n", J), "refused 8 at 5\n"),
    ("8, in a sibling axis", (S, "child::plate/preceding-siblin::plate\n", J), "refused 8 at 29\n"),
    ("8, after the name of an axis", (S, P + "preceding-::plate\n", J), "refused 8 at %d\n" % (len(P) + 10)),
    ("9", (S, P + "self::scan\n" * 7, J), "refused 9 at %d\n" % (len(P) + 66)),
    ("10", (S, "child::cell\n", J), "refused 10 at 7\n"),
    ("11", (S, P, "<scan a='1'/>"), "refused 11 at 0\n"),
    ("12", (S, P, "<scan><plate></scan>"), "refused 12 at 13\n"),
    ("13", (S, P, "<tile>" * 65), "refused 13 at 384\n"),
    ("14", (S, P, "<scan><cell/></scan>"), "refused 14 at 6\n"),
    ("15", (S, P, "<scan>1</scan>"), "refused 15 at 0\n"),
    ("16", ("<!ELEMENT a (#PCDATA)>", "self::a\n", "<a>%s</a>" % ("x" * 4097)), "refused 16 at 3\n"),
    ("4,096 raw bytes of entities", ("<!ELEMENT a (#PCDATA)>", "child::text()\n", "<a>%s</a>" % ("&lt;" * 1024)), "selected 1 kept 2 of 2\n1 1 /a/text()\n"),
    ("16, 4,097 raw bytes", ("<!ELEMENT a (#PCDATA)>", "self::a\n", "<a>%sx</a>" % ("&lt;" * 1024)), "refused 16 at 3\n"),
    ("4,096 rows", (WIDE, "self::a\n", "<a>%s</a>" % ("<b/>" * 4095)), "selected 1 kept 1 of 4096\n0 1 /a\n"),
    ("18, 4,097 rows", (WIDE, "self::a\n", "<a>%s</a>" % ("<b/>" * 4096)), "refused 18 at 0\n"),
    ("4,096 lines", (WIDE, "descendant-or-self::node()\n", "<a>%s</a>" % ("<b/>" * 4095)),
     "selected 4096 kept 4096 of 4096\n0 1 /a\n" + "".join("%d 1 /a/b\n" % k for k in range(1, 4096))),
    ("32,768 bytes", (WIDE, "self::a\n", "<a>%s</a>" % (" " * 32761)), "selected 1 kept 1 of 1\n0 1 /a\n"),
    ("2, 32,769 bytes", (WIDE, "self::a\n", "<a>%s</a>" % (" " * 32762)), "refused 2 at 0\n"),
    ("2 before 3, 32,769 bytes", (WIDE, "self::a\n", "\x7f" * 32769), "refused 2 at 0\n"),
    ("15 before 18, within the bytes", (WIDE, "self::a\n", "<a>%s<b> </b></a>" % ("<b/>" * 4097)), "refused 15 at 16391\n"),
]


def printed(program, texts):
    with tempfile.TemporaryDirectory() as folder:
        for name, text in zip(FILES, texts):
            if text is not None:
                with open(os.path.join(folder, name), "wb") as f:
                    f.write(text.encode("latin-1"))
        run = subprocess.run([program], cwd=folder, stdin=subprocess.DEVNULL, stdout=subprocess.PIPE, stderr=subprocess.STDOUT)
        return run.stdout.decode("latin-1"), run.returncode


def main():
    program = os.path.abspath(os.environ.get("LISTING", os.path.join(HERE, "..", "target", "bin", "listing")))
    cases = CASES + [(case["case"], case["texts"], case["gives"]) for case in vector_cases(128, "listing")]
    wrong = 0
    for name, texts, gives in cases:
        got, status = printed(program, texts)
        if got != gives or status != 0:
            wrong += 1
            print("listing: %s prints %r and exits with %d, not %r and 0" % (name, got[:200], status, gives[:200]))
    if wrong:
        sys.exit("listing: %d of %d cases differ" % (wrong, len(cases)))
    print("listing: all %d cases print what is expected" % len(cases))


main()
