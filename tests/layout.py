#!/usr/bin/env python3
"""Holds the crates to their layout.

- crates.txt lists for each crate just the libraries that its files name.
- proofs/ is private: no file imports a file of another crate's proofs/. What Rattle makes of a crate's contracts and types stands under the same
  name (a function's contract and its theorem, a struct's laws), and a proof by hand cites it.
- The crates *_spec hold definitions and worked cases: no theorem but the cases'.
- A file of code or of definitions begins with a comment that says what it is about, below the line on tactics of a crate's root; so does the list of files
  of a module that has no code.
"""
import os
import re
import sys

ROOT = os.path.join(os.path.dirname(os.path.abspath(__file__)), "..")
CRATES = os.path.join(ROOT, "crates")
KIT = {"check", "bytes"}


def files(crate):
    """The Rattle and antt files of a crate, must-fail edits apart, with their texts."""
    for folder, below, names in os.walk(os.path.join(CRATES, crate)):
        below[:] = [name for name in below if name != "out"]
        for name in sorted(names):
            if name.endswith((".rt", ".antt")):
                path = os.path.join(folder, name)
                with open(path) as f:
                    yield os.path.relpath(path, ROOT), f.read()


def code(text):
    """A text without its comments."""
    return re.sub(r"(//|--).*", "", text)


def listed():
    """What crates.txt says: each crate with the libraries after its colon."""
    with open(os.path.join(ROOT, "crates.txt")) as f:
        lines = [line.split("#")[0].strip() for line in f]
    return {line.split(":")[0].split()[0]: line.split(":")[1].split() for line in lines if line}


def named(crate, libraries):
    """The libraries that a crate's files name: in antt by their modules, in Rattle by their paths as well."""
    found = set()
    for path, text in files(crate):
        found.update(re.findall(r"Rattle\.([a-z0-9_]+)\.", text))
        if path.endswith(".rt"):
            found.update(re.findall(r"\b([a-z0-9_]+)::", code(text)))
    return (found & libraries) - {crate}


def private_imports(crate):
    for path, text in files(crate):
        for other, module in re.findall(r"Rattle\.([a-z0-9_]+)\.proofs((?:\.[^\s.{}()]+)*)", text):
            own = os.path.join(CRATES, other, "proofs", *module.split(".")[1:]) + ".antt"
            if other != crate and os.path.exists(own):
                yield "%s imports the proofs of %s" % (path, other)


def theorems(crate):
    """Declarations of a crate of definitions, outside Cases/, that have clauses and whose type is a statement."""
    for path, text in files(crate):
        if path.startswith(os.path.join("crates", crate, "specs", "Cases")):
            continue
        for name, kind in re.findall(r"^ *(?:(?:unfoldable|abbrev|pub) )*(\S+) : (.*)$", code(text), re.M):
            stated = kind.split("→")[-1].strip()
            if re.search(r"≡|↔|^T \(", stated) and re.search(r"^ *%s(?: .*)? =" % re.escape(name), text, re.M):
                yield "%s states the theorem %s" % (path, name)


def without_opening(crate):
    """Files of src/ and specs/ that do not begin with a comment: a list of files does so only where no code speaks for its module."""
    for path, text in files(crate):
        kind, name = path.split(os.sep)[2], os.path.basename(path)
        only_lists = kind == "specs" and all(line.startswith("pub mod ") for line in text.split("\n") if line)
        spoken_for = name == "Lib.antt" or name[0].isupper() or os.path.exists(os.path.join(CRATES, crate, "src", name.replace(".antt", ".rt")))
        if kind in ("src", "specs") and not text.removeprefix("#![tactic(auto)]\n\n").startswith(("//", "--")) and not (only_lists and spoken_for):
            yield "%s does not begin with a comment" % path


def main():
    lines = listed()
    libraries = set(lines) | KIT
    faults = []
    for crate, dependencies in lines.items():
        wanted = named(crate, libraries)
        faults += ["crates.txt: %s does not name %s" % (crate, d) for d in dependencies if d not in wanted]
        faults += ["crates.txt: %s names %s, which is not listed" % (crate, d) for d in sorted(wanted - set(dependencies))]
        faults += private_imports(crate)
        faults += without_opening(crate)
        if crate.endswith("_spec"):
            faults += theorems(crate)
    if faults:
        sys.exit("layout: " + "\n        ".join(faults))
    print("layout: %d crates name what crates.txt lists, and no other crate's proofs" % len(lines))


main()
