#!/usr/bin/env python3
"""Brings the definitions and lemmas of this repository to today's spelling: words in snake case, types and modules in camel case.

usage: python3 tools/port_names.py [--list]      at the top of the repository, once, after port.py

Only words that begin with a small letter and have a capital later are respelled, in clauses, specs/, proofs/ and must-fail edits, and in the edits of
tests/mutants. Functions of src/ have no such names. Text in quotation marks and numbers such as 0x3C stay as they are.
"""

import os
import re
import sys

# lemmas whose name is what a definition's becomes: today's spelling ends such a lemma's name in _lem
LEMMAS = {
    "any_below", "foreign_below", "goes_on", "going_on", "in_lent", "in_two", "kept_if", "later_rows", "no_key", "plain_at", "row_fits", "rows_in",
    "rows_pass", "table_beside", "two_bytes",
}
WORD = re.compile(r"(?<![\w'])[a-z][\w']*")
STRING = re.compile(r'b?"(?:\\.|[^"\\\n])*"')


def snake(word):
    """The word in snake case: a capital after a small letter, a digit or an underscore begins a new part."""
    if not re.search(r"[A-Z]", word):
        return word
    parts = []
    for part in word.split("_"):
        if part[:1].isupper() and parts:
            parts.append(part)  # a fact keeps its capital
            continue
        part = re.sub(r"([a-z0-9'])([A-Z])", r"\1_\2", part)
        part = re.sub(r"([A-Z])([A-Z][a-z])", r"\1_\2", part)
        parts.append(part.lower())
    return "_".join(parts)


def turn(text, lemmas):
    """The text with its words respelled, but for what stands in double quotation marks on one line."""
    if lemmas:
        text = re.sub(r"(?<![\w'.-])(" + "|".join(sorted(LEMMAS)) + r")(?![\w'.-])", r"\1_lem", text)
    out, at = [], 0
    for it in STRING.finditer(text):
        out.append(WORD.sub(lambda m: snake(m.group()), text[at : it.start()]))
        out.append(it.group())
        at = it.end()
    out.append(WORD.sub(lambda m: snake(m.group()), text[at:]))
    return "".join(out)


def files(root):
    for top in ("crates", os.path.join("tests", "mutants")):
        for folder, dirs, names in os.walk(os.path.join(root, top)):
            dirs[:] = sorted(d for d in dirs if d != "out")
            for name in sorted(names):
                if name.endswith((".rt", ".antt", ".edit")):
                    yield os.path.join(folder, name)


def main():
    seen = {}
    for path in files("."):
        with open(path, encoding="utf-8") as f:
            old = f.read()
        new = turn(old, path.endswith(".antt"))
        if "--list" in sys.argv:
            for word in WORD.findall(STRING.sub("", old)):
                if snake(word) != word:
                    seen.setdefault(word, path)
        elif new != old:
            with open(path, "w", encoding="utf-8") as f:
                f.write(new)
    for word in sorted(seen):
        print(word, snake(word), seen[word])


main()
