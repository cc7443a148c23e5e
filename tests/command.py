#!/usr/bin/env python3
"""The command lozhymet, its packaging and the example host. Everything is installed into a folder and run from there, then the command once more
with gcc's address and undefined-behaviour sanitizers: each message and exit status, lines, columns and carets, files that cannot be read or written,
standard input, a million bytes. LOZHYMET_LIB is the archive, that of the proved library unless set. Needs gcc, make and pkg-config."""
import json
import os
import resource
import shutil
import subprocess
import sys
import tempfile

ROOT = os.path.join(os.path.dirname(os.path.abspath(__file__)), "..")
TRAY = os.path.join(ROOT, "examples", "tray")

SCHEMA = """<!ELEMENT scan (plate*)>
<!ELEMENT plate (well|tile)*>
<!ELEMENT well (tile*)>
<!ELEMENT tile (focus?)>
<!ELEMENT focus (#PCDATA)>
"""
PATHS = "child::plate[child::well]/child::tile\ndescendant::tile/parent::well\n"
JOURNAL = "<scan>\n <plate>\n  <well><tile><focus>12</focus></tile></well>\n\t<tile/>\n </plate>\n</scan>\n"
DEEP = "<tile>" * 65

# what is refused: the number, the text changed ("schema", "paths", "journal", "extract"), the text; line and column, what is said, the source line and
# the blanks before the caret
REFUSED = [
    (2, "schema", "", None, "the text is empty", None, None),
    (2, "schema", " " * 8193, None, "the text has more than 8192 bytes", None, None),
    (2, "paths", "self::scan\n" * 400, None, "the text has more than 4104 bytes", None, None),
    (2, "journal", "", None, "the text is empty", None, None),
    (2, "extract", "", None, "the text is empty", None, None),
    (3, "schema", "<!ELEMENT scan\x80", "1:15", "the byte 80 hex may not stand in a text", "<!ELEMENT scan?", 14),
    (3, "paths", "self::scan\nself::scan\r\n", "2:11", "the byte 0D hex may not stand in a text", "self::scan?", 10),
    (3, "journal", "<scan>\n\0</scan>", "2:1", "the byte 00 hex may not stand in a text", "?</scan>", 0),
    (4, "schema", "<!ELEMENT a\n\tANY>", "2:2", "the schema is misspelt here", "        ANY>", 8),
    (4, "schema", "<!ELEMENT a EMPTY", "1:18", "the schema stops short", "<!ELEMENT a EMPTY", 17),
    (4, "schema", "<!ELEMENT a EMPTY>\n<!ELEMENT\n", "3:1", "the schema stops short", "", 0),
    (5, "schema", "".join("<!ELEMENT e%d EMPTY>\n" % k for k in range(33)), "33:1", "this is the 33rd declaration, and 32 are allowed",
     "<!ELEMENT e32 EMPTY>", 0),
    (5, "schema", "<!ELEMENT a (a?\n%s)>" % (",a?\n" * 64), "65:2", "this is the 65th name in its model, and 64 are allowed", ",a?", 1),
    (6, "schema", "<!ELEMENT a EMPTY>\n<!ELEMENT a EMPTY>", "2:11", "element a is declared a second time", "<!ELEMENT a EMPTY>", 10),
    (7, "schema", "<!ELEMENT a (b)>", "1:14", "element b is not declared", "<!ELEMENT a (b)>", 13),
    (8, "paths", "self::scan\nchilds::plate\n", "2:6", "the path is misspelt here", "childs::plate", 5),
    (8, "paths", "child::plate/following-siblings::plate\n", "1:31", "the path is misspelt here", "child::plate/following-siblings::plate", 30),
    (8, "paths", "self::scan", "1:11", "the last path stops short", "self::scan", 10),
    (9, "paths", "self::scan\n" + "/".join(["self::scan"] * 17) + "\n", "2:1", "this path passes a limit",
     ("/".join(["self::scan"] * 17))[:72] + "...", 0),
    (10, "paths", "self::scan\nchild::cell\n", "2:8", "element cell is not declared in the schema", "child::cell", 7),
    (11, "journal", "<scan>\n\t<plate kind='a'/></scan>", "2:2", "this tag is misspelt", "        <plate kind='a'/></scan>", 8),
    (11, "journal", "<scan>&nbsp;</scan>", "1:7", "this entity is unknown", "<scan>&nbsp;</scan>", 6),
    (11, "journal", "<scan>]]></scan>", "1:7", "]]> may not stand in a text", "<scan>]]></scan>", 6),
    (12, "journal", "<scan>\n  \t<plate></scan>", "2:11", "tags do not nest here", "        <plate></scan>", 15),
    (12, "journal", "<scan>", "1:7", "the journal ends before its root element does", "<scan>", 6),
    (12, "journal", "<scan>\n", "2:1", "the journal ends before its root element does", "", 0),
    (13, "journal", DEEP, "1:385", "elements stand 65 deep here, and 64 are allowed", "..." + DEEP[384 - 36:], 39),
    (14, "journal", "<scan><cell/></scan>", "1:7", "element cell is not declared in the schema", "<scan><cell/></scan>", 6),
    (15, "journal", "<scan><plate>1</plate></scan>", "1:7", "what element plate holds does not fit its model, or it is not the schema's root",
     "<scan><plate>1</plate></scan>", 6),
    (15, "journal", "<plate/>", "1:1", "what element plate holds does not fit its model, or it is not the schema's root", "<plate/>", 0),
    (16, "journal", "<scan><plate><tile><focus>" + "x" * 4097 + "</focus></tile></plate></scan>", "1:27", "this text has more than 4,096 bytes",
     "<scan><plate><tile><focus>" + "x" * 46 + "...", 26),
    (16, "journal", "<scan><plate><tile><focus>" + "&lt;" * 1024 + "x</focus></tile></plate></scan>", "1:27", "this text has more than 4,096 bytes",
     "<scan><plate><tile><focus>" + "&lt;" * 11 + "&l...", 26),
    (16, "journal", "<scan>\n" + "<plate/>\n" * 65535 + "</scan>", "65536:1", "this is the 65,536th node, and 65,535 are allowed", "<plate/>", 0),
    (17, "extract", "x", None, "this is no extract under this schema", None, None),
]

WRONG_USAGE = [
    [], ["extract"], ["cut", "s", "p", "j"], ["extract", "s", "p", "j"], ["extract", "s", "p", "j", "k", "-o", "x"], ["extract", "-", "p", "-", "-o", "x"],
    ["extract", "s", "p", "j", "-o", "x", "-p", "1"], ["select", "s", "p", "e", "-o", "x"], ["select", "s", "p", "e", "-p", "0"],
    ["select", "s", "p", "e", "-p", "1x"], ["extract", "s", "p", "j", "-o", "-", "--json"], ["select", "s", "p", "e", "--unknown"],
    ["extract", "schema", "paths", "journal", "-o", "./journal"],
]


class Runs:
    """Runs one build of the command in a folder of its own, and counts what is not as expected."""

    def __init__(self, program, folder):
        self.program, self.folder, self.faults, self.count = program, folder, 0, 0
        for name, text in (("schema", SCHEMA), ("paths", PATHS), ("journal", JOURNAL)):
            self.put(name, text)

    def put(self, name, text):
        with open(os.path.join(self.folder, name), "wb") as f:
            f.write(text if isinstance(text, bytes) else text.encode("latin-1"))

    def get(self, name):
        with open(os.path.join(self.folder, name), "rb") as f:
            return f.read()

    def run(self, words, text=b"", **more):
        more.setdefault("stdout", subprocess.PIPE)
        done = subprocess.run([self.program, *words], cwd=self.folder, input=text, stderr=subprocess.PIPE, **more)
        return done.returncode, (done.stdout or b"").decode("latin-1"), done.stderr.decode("latin-1")

    def expect(self, what, got, wanted):
        self.count += 1
        if got != wanted:
            self.faults += 1
            print("command: %s:\n  %r\n  is not\n  %r" % (what, got, wanted))


def as_nobody():
    """For what is allowed to the superuser alone."""
    if os.geteuid() == 0:
        os.setuid(65534)


def words_for(changed):
    action = ["select", "schema", "paths", "extract"] if changed == "extract" else ["extract", "schema", "paths", "journal", "-o", "out"]
    return [word + ".changed" if word == changed and k else word for k, word in enumerate(action)]


def try_refusals(runs):
    for number, changed, text, place, what, line, caret in REFUSED:
        name = changed + ".changed"
        runs.put(name, text)
        status, out, err = runs.run(words_for(changed))
        wanted = ["%s%s: refused %d: %s" % (name, ":" + place if place else "", number, what)]
        if place:
            row = int(place.split(":")[0])
            wanted += ["%5d | %s" % (row, line), "      | " + " " * caret + "^"]
        lines = err.split("\n")
        runs.expect("%d: %s" % (number, what), (status, out, lines[:-2]), (1, "", wanted))
        runs.expect("%d: help" % number, (lines[-2][:8], lines[-1], os.path.exists(os.path.join(runs.folder, "out"))), ("  help: ", "", False))
        status, out, err = runs.run(words_for(changed) + ["--json"])
        said = json.loads(out)
        at = "%d:%d" % (said["line"], said["column"]) if "line" in said else None
        runs.expect("%d as JSON" % number, (status, err, said["refused"], said["file"], at, said["message"]), (1, "", number, name, place, what))


def try_success(runs):
    status, out, err = runs.run(["extract", "schema", "paths", "journal", "-o", "tray"])
    summary = ["journal: 5 of 7 rows kept, 45 bytes", "path 1: 1 node  child::plate[child::well]/child::tile",
               "path 2: 1 node  descendant::tile/parent::well", "a controller of 4096 rows is 0.1 % full", ""]
    runs.expect("extract", (status, out, err.split("\n"), len(runs.get("tray"))), (0, "", summary, 45))
    runs.expect("quiet extract", runs.run(["extract", "schema", "paths", "journal", "-o", "tray", "--quiet"]), (0, "", ""))
    runs.expect("select", runs.run(["select", "schema", "paths", "tray"]), (0, "1 6\n2 2\n", "\n".join(summary[1:3]) + "\n"))
    runs.expect("select a path", runs.run(["select", "schema", "paths", "tray", "-p", "2", "-q"]), (0, "2\n", ""))
    runs.expect("an extract on standard input", runs.run(["-q", "select", "schema", "paths", "-"], runs.get("tray")), (0, "1 6\n2 2\n", ""))
    status, out, err = runs.run(["extract", "schema", "paths", "-", "-o", "tray", "--json"], JOURNAL.encode())
    paths = [{"place": k + 1, "path": p, "nodes": 1} for k, p in enumerate(PATHS.split("\n")[:2])]
    made = {"refused": 0, "rows": 7, "kept": 5, "bytes": 45, "controller_rows": 4096, "fits": True, "paths": paths}
    runs.expect("extract as JSON", (status, json.loads(out), err), (0, made, ""))
    status, out, err = runs.run(["select", "schema", "paths", "tray", "-j", "-p", "1"])
    runs.expect("select as JSON", (status, json.loads(out), err), (0, {"refused": 0, "rows": 5, "paths": [dict(paths[0], nodes=[6])]}, ""))
    runs.expect("to standard output", runs.run(["extract", "schema", "paths", "journal", "-q", "-o", "-"]), (0, runs.get("tray").decode("latin-1"), ""))
    status, out, err = runs.run(["select", "schema", "paths", "tray", "-p", "3"])
    runs.expect("no such path", (status, out, err.split("\n")[0]), (1, "", "paths: refused 1: there is no path 3 here"))
    runs.put("siblings", "descendant::well/following-sibling::tile\ndescendant::tile/preceding::focus\n")
    runs.expect("extract by siblings", runs.run(["extract", "schema", "siblings", "journal", "-q", "-o", "tray.siblings"]), (0, "", ""))
    runs.expect("select by siblings", runs.run(["select", "schema", "siblings", "tray.siblings", "-q"]), (0, "1 6\n2 4\n", ""))
    runs.put("entities", JOURNAL.replace("12", "&lt;12&amp;3&gt;"))
    runs.put("texts", "descendant::text()\n")
    runs.expect("extract with entities", runs.run(["extract", "schema", "texts", "entities", "-q", "-o", "tray.entities"]), (0, "", ""))
    # the text's number, its parent's and its characters
    runs.expect("decoded text", runs.get("tray.entities").count(b"\x02\x00\x0a\x00\x05\x00\x04<12&3>"), 1)
    runs.expect("select decoded text", runs.run(["select", "schema", "texts", "tray.entities", "-q"]), (0, "1 5\n", ""))
    status, out, err = runs.run(["--help"])
    runs.expect("help", (status, out[:6], "Exit status: 0 done, 1 a text is refused" in out, err), (0, "usage:", True, ""))


def try_files(runs):
    extract = ["extract", "schema", "paths", "journal", "-q", "-o"]
    for words in WRONG_USAGE:
        status, out, err = runs.run(words)
        runs.expect("usage %s" % words, (status, out, "usage:" in err), (2, "", True))
    runs.expect("a missing file", runs.run(["extract", "schema", "none", "journal", "-o", "x"]), (2, "", "lozhymet: none: No such file or directory\n"))
    runs.expect("a folder", runs.run(["select", "schema", "paths", "."]), (2, "", "lozhymet: .: Is a directory\n"))
    runs.expect("a full device", runs.run(extract + ["/dev/full"]), (2, "", "lozhymet: /dev/full: No space left on device\n"))
    runs.expect("a folder as output", runs.run(extract + ["."]), (2, "", "lozhymet: .: Is a directory\n"))
    runs.expect("a missing folder", runs.run(extract + ["none/x"]), (2, "", "lozhymet: none/x: No such file or directory\n"))
    os.mkdir(os.path.join(runs.folder, "locked"), 0o555)
    runs.expect("a locked folder", runs.run(extract + ["locked/x"], preexec_fn=as_nobody), (2, "", "lozhymet: locked/x: Permission denied\n"))
    with open("/dev/full", "w") as full:
        status, _, err = runs.run(["select", "schema", "paths", "tray", "-q"], stdout=full)
    runs.expect("full standard output", (status, err), (2, "lozhymet: standard output: No space left on device\n"))
    runs.put("old", "an older extract")
    before = sorted(os.listdir(runs.folder))
    got = runs.run(extract + ["old"], preexec_fn=lambda: resource.setrlimit(resource.RLIMIT_FSIZE, (20, 20)))
    runs.expect("a full disk", got, (2, "", "lozhymet: old: File too large\n"))
    runs.expect("the old file stays", (runs.get("old"), sorted(os.listdir(runs.folder))), (b"an older extract", before))
    os.chmod(os.path.join(runs.folder, "old"), 0o640)
    os.symlink("old", os.path.join(runs.folder, "link"))
    runs.expect("a link", (runs.run(extract + ["link"]), os.path.islink(os.path.join(runs.folder, "link"))), ((0, "", ""), True))
    runs.expect("what it points to", (runs.get("old"), os.stat(os.path.join(runs.folder, "old")).st_mode & 0o777), (runs.get("tray"), 0o640))


def try_large(runs):
    runs.put("wide.dtd", "<!ELEMENT a (b*)><!ELEMENT b EMPTY>")
    runs.put("wide.txt", "self::a\nself::a/child::a\n")
    nodes = "<a>" + "<b/>\n" * 60000
    for size in (1048576, 1048577):
        runs.put("wide.xml", nodes + " " * (size - len(nodes) - 4) + "</a>")
        got = runs.run(["extract", "wide.dtd", "wide.txt", "wide.xml", "-o", "wide"])
        if size == 1048576:
            summary = "wide.xml: 1 of 60001 rows kept, 13 bytes\npath 1: 1 node  self::a\npath 2: 0 nodes  self::a/child::a\na controller of 4096 rows is 0.0 % full\n"
            runs.expect("a million bytes", got, (0, "", summary))
        else:
            runs.expect("a byte more", (got[0], got[2].split("\n")[0]), (1, "wide.xml: refused 2: the text has more than 1048576 bytes"))
    runs.put("wide.xml", "<a>" + "<b/>" * 4096 + "</a>")
    runs.put("wide.txt", "child::b\n")
    got = runs.run(["extract", "wide.dtd", "wide.txt", "wide.xml", "-o", "wide"])
    runs.expect("more rows than a controller has", (got[0], got[2].split("\n")[2]),
                (0, "warning: a controller of 4096 rows cannot hold this extract (100.0 %)"))


def try_example(prefix, folder):
    """The example host, built by way of the pkg-config file that is installed."""
    environment = dict(os.environ, PKG_CONFIG_PATH=os.path.join(prefix, "lib", "pkgconfig"))
    flags = subprocess.run(["pkg-config", "--cflags", "--libs", "lozhymet"], env=environment, stdout=subprocess.PIPE, check=True, text=True).stdout.split()
    program = os.path.join(folder, "host")
    source = os.path.join(ROOT, "examples", "host.c")
    subprocess.run(["gcc", "-std=c11", "-pedantic", "-Wall", "-Wextra", "-Werror", "-o", program, source, *flags], check=True)
    files = [os.path.join(TRAY, name) for name in ("schema.dtd", "paths.txt", "journal.xml")]
    done = subprocess.run([program, *files, os.path.join(folder, "sent")], stdout=subprocess.PIPE, text=True, check=True)
    wanted = ("path 1: 11 28 66\npath 2: 11 66\npath 3: 5\npath 4: 8 63\n"
              'path 5: 13 "1200.5" 30 "1850.5" 68 "1200.5"\n'
              'path 6: 15 "800.0" 32 "800.0" 70 "40800.0"\n'
              'path 7: 43\npath 8: 7 "P-0417 H&E" 62 "P-0418"\n')
    if done.stdout != wanted:
        sys.exit("command: the example host prints\n%s" % done.stdout)
    if subprocess.run([program, files[0], files[1], "/dev/null", "x"], stderr=subprocess.DEVNULL).returncode != 1:
        sys.exit("command: the example host takes an empty journal")


def try_manual(prefix):
    pages = [os.path.join(prefix, "share", "man", "man" + page[-1], page) for page in ("lozhymet.1", "lozhymet.3", "host_select.3", "host_make_extract.3")]
    missing = [page for page in pages if not os.path.exists(page)]
    if missing:
        sys.exit("command: not installed: %s" % missing)
    if shutil.which("groff"):
        for page in pages[:2]:
            done = subprocess.run(["groff", "-man", "-Tutf8", "-ww", page], stdout=subprocess.DEVNULL, stderr=subprocess.PIPE, text=True, check=True)
            if done.stderr:
                sys.exit("command: %s" % done.stderr)


def main():
    archive = os.path.abspath(os.environ.get("LOZHYMET_LIB", os.path.join(ROOT, "target", "staticlib", "liblibrary.a")))
    with tempfile.TemporaryDirectory() as work:
        os.chmod(work, 0o755)
        prefix, sanitized = os.path.join(work, "prefix"), os.path.join(work, "sanitized")
        make = ["make", "-s", "-C", ROOT, "LOZHYMET_LIB=" + archive]
        subprocess.run(make + ["BUILD=" + os.path.join(work, "build"), "PREFIX=" + prefix, "install"], check=True)
        # the command alone: what is installed was made with all the rest
        sanitizers = "CFLAGS=-O1 -g -fsanitize=address,undefined -fno-sanitize-recover=all"
        subprocess.run(make + ["BUILD=" + sanitized, sanitizers, os.path.join(sanitized, "lozhymet")], check=True)
        faults = count = 0
        for program in (os.path.join(prefix, "bin", "lozhymet"), os.path.join(sanitized, "lozhymet")):
            with tempfile.TemporaryDirectory() as folder:
                os.chmod(folder, 0o755)
                runs = Runs(program, folder)
                for tests in (try_refusals, try_success, try_files, try_large):
                    tests(runs)
                faults, count = faults + runs.faults, count + runs.count
        try_example(prefix, work)
        try_manual(prefix)
    if faults:
        sys.exit("command: %d of %d comparisons fail" % (faults, count))
    print("command: %d comparisons hold, half of them under sanitizers; the example host is built with pkg-config and prints its nodes" % count)


main()
