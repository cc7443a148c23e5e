#!/usr/bin/env python3
"""Writes a schema of 32 elements and so many copies of a bundle text under it, each text after its length in two bytes: the largest, 4,104 bytes
in eight paths of 512, or with 'small' one path of a single step. The last name of either is not declared, so that a program only reads it."""
import itertools
import sys

AXES = ["self", "child", "descendant", "descendant-or-self", "parent", "ancestor", "ancestor-or-self"]
names = ["e%02d" % k for k in range(32)]
schema = "<!ELEMENT e00 (%s)*>" % "|".join(names[1:]) + "".join("<!ELEMENT %s EMPTY>" % name for name in names[1:])
turn = itertools.cycle(names)


def path(last):
    steps = ["self::%s" % next(turn)]
    for _ in range(8):
        steps.append("self::%s[child::%s/child::%s/child::%s or child::%s]" % tuple(next(turn) for _ in range(5)))
    text = "/".join(steps)
    for three in itertools.combinations_with_replacement(AXES, 3):
        tail = "".join("/%s::%s" % (axis, next(turn)) for axis in three)
        if len(text + tail) == 512:
            return (text + tail)[:-3] + last if last else text + tail
    sys.exit("largest_bundle: no path of 512 bytes")


largest = "".join(path("zzz" if k == 7 else "") + "\n" for k in range(8))
assert len(largest) == 4104
text = ("self::zzz\n" if sys.argv[1] == "small" else largest).encode("ascii")
out = (2 ** 15 + len(schema)).to_bytes(2, "big") + schema.encode("ascii")
sys.stdout.buffer.write(out + (len(text).to_bytes(2, "big") + text) * int(sys.argv[2]))
