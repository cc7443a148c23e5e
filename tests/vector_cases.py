"""The cases of tests/vectors, for the scripts that run them. Each script says how many it wants, so that a file, a kind of case or a single case that
is lost shows as a failure and not as a run without it."""
import glob
import json
import os
import sys

FOLDER = os.path.join(os.path.dirname(os.path.abspath(__file__)), "vectors")


def cases(wanted, *kinds):
    """The cases of these kinds, of all where none is named, in the order of their files."""
    found = []
    for path in sorted(glob.glob(os.path.join(FOLDER, "*.jsonl"))):
        with open(path, encoding="utf-8") as lines:
            found += [case for case in map(json.loads, lines) if not kinds or case["does"] in kinds]
    if len(found) != wanted:
        sys.exit("vectors: %d cases of %s, and %d are wanted" % (len(found), ", ".join(kinds) or "any kind", wanted))
    return found
