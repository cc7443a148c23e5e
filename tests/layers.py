#!/usr/bin/env python3
"""The picture of the layers in docs/ARCHITECTURE.md, made from crates.txt: its headings, the crates under each, and the layers that these stand on.
Writes it between its two marks; with --check it compares instead. Fails where a crate names one that is listed after it, or where more than 60 are listed."""
import os
import sys
import textwrap

ROOT = os.path.join(os.path.dirname(os.path.abspath(__file__)), "..")
PAGE = os.path.join(ROOT, "docs", "ARCHITECTURE.md")
BEGIN, END = "<!-- layers: tests/layers.py -->\n", "<!-- end of layers -->\n"
MOST, WIDTH, INDENT = 60, 118, 18


def layers():
    """Each heading of crates.txt with its crates, and each crate with what it names."""
    found, named = [], {}
    with open(os.path.join(ROOT, "crates.txt"), encoding="utf-8") as lines:
        for line in map(str.strip, lines):
            if line.startswith("# "):
                found.append((line[2:].rstrip("."), []))
            elif line:
                head, _, names = line.partition(":")
                crate = head.split()[0]
                found[-1][1].append(crate)
                named[crate] = names.split()
    return found, named


def upward(named):
    """Arrows that go up: crates.txt lists them from the bottom."""
    place = {crate: k for k, crate in enumerate(named)}
    return ["%s names %s" % (crate, name) for crate, names in named.items() for name in names if place.get(name, -1) > place[crate]]


def picture(found, named):
    """The layers from the top down: a layer stands on those that its crates name."""
    layer = {crate: k for k, (_, crates) in enumerate(found) for crate in crates}
    lines = []
    for k in reversed(range(len(found))):
        heading, crates = found[k]
        below = sorted({layer[name] for crate in crates for name in named[crate] if name in layer} - {k}, reverse=True)
        space = " " * INDENT
        lines += textwrap.wrap("  ".join(crates), WIDTH, initial_indent=heading.ljust(INDENT), subsequent_indent=space)
        if below:
            lines += textwrap.wrap("on " + ", ".join(found[b][0].lower() for b in below), WIDTH, initial_indent=space, subsequent_indent=space + "   ")
    return "".join("    %s\n" % line for line in lines)


def main():
    found, named = layers()
    if len(named) > MOST:
        sys.exit("layers: crates.txt lists %d crates, and %d are the most" % (len(named), MOST))
    if upward(named):
        sys.exit("layers: what stands below is listed first, but " + ", ".join(upward(named)))
    with open(PAGE, encoding="utf-8") as f:
        before, mark, rest = f.read().partition(BEGIN)
    old, last, after = rest.partition(END)
    if not mark or not last:
        sys.exit("layers: docs/ARCHITECTURE.md has no marks for the picture")
    new = "\n" + picture(found, named) + "\n"
    if "--check" in sys.argv[1:]:
        if new != old:
            sys.exit("layers: the picture in docs/ARCHITECTURE.md is not that of crates.txt; tests/layers.py writes it")
        print("layers: %d crates in %d layers, each on those below it" % (len(named), len(found)))
        return
    with open(PAGE, "w", encoding="utf-8") as f:
        f.write(before + mark + new + last + after)


main()
