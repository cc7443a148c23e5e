#!/usr/bin/env python3
"""Writes so many copies of a schema text of 8,192 bytes with 32 declarations, each after its length in two bytes: 31 models of up to 64
names, as many as fit, each naming the elements in turn."""
import sys

LIMIT = 8192
names = ["n%d" % k for k in range(31)] + ["leaf"]
left = LIMIT - len("<!ELEMENT leaf EMPTY>")
declarations = []
for k, name in enumerate(names[:-1]):
    head, tail = "<!ELEMENT %s (" % name, ")>"
    room = min(left // (31 - k), left) - len(head) - len(tail)
    uses, size, j = [], 0, k
    while len(uses) < 64:
        use = names[j % 32]
        if size + len(use) + 1 > room:
            break
        uses.append(use)
        size += len(use) + 1
        j += 1
    declarations.append(head + ",".join(uses) + tail)
    left -= len(declarations[-1])
text = "".join(declarations) + "<!ELEMENT leaf EMPTY>"
text = (text + " " * (LIMIT - len(text))).encode("ascii")
assert len(text) == LIMIT
sys.stdout.buffer.write((LIMIT.to_bytes(2, "big") + text) * int(sys.argv[1]))
