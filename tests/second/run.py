#!/usr/bin/env python3
"""The second implementation: builds it with rustc, fails where an outcome differs from that of a case of tests/vectors, then tries demand 3 on
random schemas, bundles and journals. run.py [SEED COUNT]."""
import os
import struct
import subprocess
import sys
import tempfile

HERE = os.path.dirname(os.path.abspath(__file__))
sys.path.insert(0, os.path.join(HERE, ".."))
from vector_cases import cases as vector_cases  # noqa: E402


def build(folder):
    program = os.path.join(folder, "second")
    subprocess.run(["rustc", "--edition", "2021", "-O", "-D", "warnings", "-o", program, os.path.join(HERE, "src", "main.rs")], check=True)
    return program


def encoded(case):
    texts = [t.encode("latin-1") for t in case["texts"]]
    head = "%s\n%d\n%s\n" % (case["does"], len(texts), " ".join(map(str, case["limits"])))
    return head.encode() + b"".join(struct.pack(">I", len(t)) + t for t in texts)


def main():
    cases = vector_cases(1764)
    with tempfile.TemporaryDirectory() as folder:
        program = build(folder)
        answer = subprocess.run([program], input=b"".join(map(encoded, cases)), stdout=subprocess.PIPE, check=True).stdout
        subprocess.run([program, "demand3", *(sys.argv[1:] or ["1", "10000"])], check=True)
    at, wrong = 0, 0
    for case in cases:
        size = struct.unpack_from(">I", answer, at)[0]
        gives = answer[at + 4:at + 4 + size].decode("latin-1")
        at += 4 + size
        if gives != case["gives"]:
            wrong += 1
            print("second: %s gives %r, not %r" % (case["case"], gives[:120], case["gives"][:120]))
    if at != len(answer) or wrong:
        sys.exit("second: %d of %d cases differ" % (wrong, len(cases)))
    print("second: all %d cases agree" % len(cases))


main()
