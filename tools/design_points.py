#!/usr/bin/env python3
"""design_points.py [--places] [ROOT]: counts in ROOT/crates/*/src the places that docs/DESIGN-PASS.md speaks of, point by point."""
import collections
import glob
import os
import re
import sys

FUNCTION = re.compile(r'^[ ]*(?:pub )?(?:extern "C" )?fn (\w+)(?:<[^>]*>)?\(([^)]*)\)(.*?)^[ ]*\{\n(.*?)^[ ]*\}\n', re.M | re.S)
STRUCT = re.compile(r'^pub struct (\w+)(?:<[^>]*>)? \{\n(.*?)^\}', re.M | re.S)
HAND = r'^\s*(?:pub )?fn (either|both|least|fewer|wide|wide_byte|stands|at_most|distance|remaining|copy\w*|fill|clear\w*|same\w*)\b'
LINES = {
    '1 own enums': r'^(?:pub )?enum ',
    '1 constants that number a kind': r'^(?:pub )?const [A-Z_]+: u(?:8|16|32|64) = \d+;',
    '1 fields that are a code': r'^\s+pub (?:number|kind|mode|event|over|lost|due|going|whole|key|fault): (?:u8|u16|u32|u64|usize|bool),',
    '1 parameters that are a code': r'\b(?:axis|test|mode|kind|event): u(?:8|16|64)\b',
    '3 loops that are no for': r"^\s*(?:'\w+: )?(?:while|loop)\b",
    '4 written by hand': HAND,
    '4 a test that returns true or false': r'^\s*return (?:true|false);',
    '5 six columns as parameters': r'\bstarts: &(?:\w|\'\w+ )*\[u32\][,)]|^\s+starts: &.*\[u32\],',
    '5 the schema as ten parameters': r'\bnullables: &',
    '5 relations as three parameters': r'\bbelow: \[NameSet',
    '5 paths as columns': r'\baxes: &',
    '6 a length beside a buffer': r'^\s+pub len: usize,',
    '7 a branch on a code': r'^\s*(?:match (?:axis|test|mode|kind|s|c)\b|if (?:mode|axis|kind|c|s) == )',
}


def sources(root):
    return sorted(glob.glob(os.path.join(root, 'crates/*/src/*.rt')))


def shape(text):
    text = re.sub(r'//.*', '', text)
    text = re.sub(r'\bu(?:8|16|32|64|size)\b', 'T', text)
    text = re.sub(r'\b(?:\w+::)*[A-Z][A-Z_]+\b', 'K', text)
    text = re.sub(r'\b(?:\w+::)*[a-z_]\w*\(', 'f(', text)
    return re.sub(r'\b\d+\b', 'N', re.sub(r'\s+', ' ', text))


def places(root):
    found = collections.OrderedDict((name, []) for name in LINES)
    groups = collections.defaultdict(list)
    wide, arrays = [], []
    for path in sources(root):
        text = open(path).read()
        short = os.path.relpath(path, root)
        for number, line in enumerate(text.split('\n'), 1):
            for name, pattern in LINES.items():
                if re.search(pattern, line):
                    found[name].append('%s:%d: %s' % (short, number, line.strip()))
        for m in FUNCTION.finditer(text):
            place = '%s:%s' % (short, m.group(1))
            if m.group(2).count(':') > 7:
                wide.append(place)
            if m.group(4).count('\n') > 3:
                groups[(short.split('/')[1], shape(m.group(4)))].append(place)
        for m in STRUCT.finditer(text):
            sizes = collections.Counter(re.findall(r': \[[^;\]]*; (\w+)\]', m.group(2)))
            arrays += ['%s:%s: %d of %s' % (short, m.group(1), n, size) for size, n in sizes.items() if n > 1]
    found['2 functions with one body but for a type, a constant or a callee'] = [p for g in groups.values() if len(g) > 1 for p in g]
    found['5 functions of more than seven parameters'] = wide
    found['6 parallel arrays in a struct'] = arrays
    return found


def main():
    rest = [a for a in sys.argv[1:] if a != '--places']
    root = rest[0] if rest else '.'
    found = places(root)
    for name in sorted(found):
        print('%5d  %s' % (len(found[name]), name))
        if '--places' in sys.argv:
            for p in found[name]:
                print('         ' + p)
    answers = glob.glob(os.path.join(root, 'crates/*/proofs/**/Answers.antt'), recursive=True)
    lines = sum(open(p).read().count('\n') for p in glob.glob(os.path.join(root, 'crates/*/proofs/**/*.antt'), recursive=True))
    print('%5d  8 files of answers' % len(answers))
    print('%5d  8 lines of proofs/' % lines)


main()
