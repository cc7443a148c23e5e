#!/usr/bin/env python3
"""Holds docs/PROMISES.md, docs/ARCHITECTURE.md and docs/DECISIONS.md to the repository.

- In the tables of docs/PROMISES.md each name of the column 'Met by' is declared in a file of the column 'File', and each such file exists.
- Each `pub fn` that another crate calls stands in such a table, beside the file that has it.
- The functions of the table 'Public functions' are those that the crate lozhymet passes on, and none of them has a `requires`.
- Every crate folder is listed in crates.txt and described in docs/ARCHITECTURE.md; each file `CRATE/File` and each module `CRATE::module` that is named
  in the documents exists.
"""
import os
import re
import sys

ROOT = os.path.join(os.path.dirname(os.path.abspath(__file__)), "..")
QUOTED = re.compile(r"`([^`]+)`")


def read(path):
    with open(os.path.join(ROOT, path)) as f:
        return f.read()


def declares(text, name):
    antt = r"^\s*(?:(?:unfoldable|abbrev|pub) )*(?:(?:data|record) )?%s(?: |$)" % re.escape(name)
    rattle = r"\bfn %s\b" % re.escape(name)
    return re.search(antt, text, re.M) or re.search(rattle, text)


def rows(text):
    """The cells of each table row whose table has the columns 'Met by' and 'File'."""
    columns = None
    for line in text.split("\n"):
        if not line.startswith("|"):
            columns = None
            continue
        cells = [cell.strip() for cell in line.strip("|").split("|")]
        if columns is None:
            columns = cells
        elif "Met by" in columns and "File" in columns and not set(line) <= set("|-: "):
            yield cells, cells[columns.index("Met by")], cells[columns.index("File")]


def sources(crate):
    """The Rattle text of a crate."""
    folder = os.path.join(ROOT, "crates", crate, "src")
    return "\n".join(read(os.path.join("crates", crate, "src", name)) for name in sorted(os.listdir(folder)) if name.endswith(".rt"))


def units(crate):
    """The files of Rattle of a crate, each with the module that it is, none for the root."""
    for file in sorted(os.listdir(os.path.join(ROOT, "crates", crate, "src"))):
        if file.endswith(".rt"):
            yield "crates/%s/src/%s" % (crate, file), "" if file in ("lib.rt", "main.rt") else file[:-3]


def called(crate, module, name, texts):
    """Whether another crate calls a function or a method of this crate's module by its name: by a path to it, or brought by a `use`."""
    home = "::".join(filter(None, [crate, module]))
    path = re.compile(r"\b%s::(?:(?:[A-Z]\w*::)?%s\(|%s;|\{[^}]*\b%s\b)" % (module or crate, name, name, name))
    brought = re.compile(r"\buse %s::(\w+|\{[^}]*\})" % home)
    for other, text in texts.items():
        if other == crate or home not in text or name not in text:
            continue
        if path.search(text):
            return True
        types = [word for item in brought.findall(text) for word in re.findall(r"\b[A-Z]\w*", item)]
        if types and re.search(r"(?:\b(?:%s)::|\.)%s\(" % ("|".join(types), name), text):
            return True
    return False


def omissions(promised):
    """Functions that another crate calls and that docs/PROMISES.md does not name beside their source."""
    crates = sorted(os.listdir(os.path.join(ROOT, "crates")))
    texts = {crate: sources(crate) for crate in crates}
    for crate in crates:
        for file, module in units(crate):
            for name in re.findall(r"\bpub fn (\w+)", read(file)):
                if called(crate, module, name, texts) and (name, file) not in promised:
                    yield "docs/PROMISES.md does not name %s beside %s" % (name, file)


def contract(text, name):
    """The head of a function that stands for itself, up to its body, if the text declares it."""
    found = re.search(r'^pub (?:extern "C" )?fn %s\b.*?^\{' % re.escape(name), text, re.M | re.S)
    return found and found.group()


def public_functions(promises):
    """Faults of the table 'Public functions' against what lozhymet passes on."""
    table = promises.split("## Public functions")[1].split("\n\n")[1]
    heads = {}
    for _, met, file in rows(table):
        for name in QUOTED.findall(met):
            found = [contract(read(f), name) for f in QUOTED.findall(file) if f.endswith(".rt")]
            heads.update((name, head) for head in found if head)
    used = re.findall(r"^pub use (?:\w+::)+(\w+|\{[^}]*\});", sources("lozhymet"), re.M)
    passed = {name for item in used for name in re.findall(r"\b[a-z]\w*", item)}
    for name in sorted(set(heads) ^ passed):
        yield "%s stands in one of lozhymet and the table of public functions, and not in the other" % name
    for name, head in heads.items():
        if re.search(r"^    requires\b", head, re.M):
            yield "the public function %s has a requires" % name


def missing_modules(page, crates):
    """Files of definitions and modules that a document names behind a crate's name, or in its row of a table, and that do not exist."""
    def exists(crate, module):
        base = os.path.join(ROOT, "crates", crate, "specs", *module.split("/"))
        return os.path.exists(base + ".antt") or os.path.isdir(base)

    def declared(crate, item):
        return exists(crate, item) or item + ".rt" in os.listdir(os.path.join(ROOT, "crates", crate, "src")) or \
            re.search(r"\b(?:fn|const|struct|enum) %s\b" % item, sources(crate))
    for line in page.split("\n"):
        quoted = QUOTED.findall(line)
        owner = quoted[0] if line.startswith("| `") and quoted[0] in crates else None
        for word in quoted:
            if owner and re.fullmatch(r"[A-Z]\w*(/[A-Z]\w*)*/?", word) and not exists(owner, word.rstrip("/")):
                yield "%s has no file %s" % (owner, word)
            behind = re.match(r"([a-z_]+)/((?:[a-z_]+/)?(?:[A-Z]\w*/)*[A-Z]\w*)", word)
            if behind and behind.group(1) in crates and not exists(*behind.groups()):
                yield "%s has no file %s" % behind.groups()
            inside = re.match(r"([a-z_]+)::(\w+)", word)
            if inside and (inside.group(1) not in crates or not declared(*inside.groups())):
                yield "there is no %s" % inside.group()


def main():
    faults, seen, promised = [], 0, set()
    for cells, met, file in rows(read("docs/PROMISES.md")):
        files = QUOTED.findall(file)
        missing = [f for f in files if not os.path.exists(os.path.join(ROOT, f))]
        faults += ["no file %s" % f for f in missing]
        texts = [read(f) for f in files if f not in missing]
        for name in QUOTED.findall(met):
            seen += 1
            promised.update((name, f) for f in files)
            if not any(declares(t, name) for t in texts):
                faults.append("%s is not declared in %s" % (name, file))
    listed = {line.split(":")[0].split()[0] for line in read("crates.txt").split("\n") if ":" in line and not line.startswith("#")}
    architecture = read("docs/ARCHITECTURE.md")
    for crate in sorted(os.listdir(os.path.join(ROOT, "crates"))):
        if crate not in listed:
            faults.append("crate %s is not listed in crates.txt" % crate)
        if "`%s`" % crate not in architecture:
            faults.append("crate %s is not described in docs/ARCHITECTURE.md" % crate)
    for page in (architecture, read("docs/DECISIONS.md"), read("README.md")):
        faults += missing_modules(page, listed)
    faults += omissions(promised)
    faults += public_functions(read("docs/PROMISES.md"))
    if seen == 0:
        faults.append("docs/PROMISES.md names nothing")
    if faults:
        sys.exit("promises: " + "\n          ".join(faults))
    print("promises: %d names stand where docs/PROMISES.md says" % seen)


main()
