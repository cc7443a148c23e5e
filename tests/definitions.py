#!/usr/bin/env python3
"""Evaluates the definitions of crates/*_spec on the cases of tests/vectors.

Each case becomes a theorem `definition(texts) = outcome`, closed by computation alone, in a scratch crate outside the repository that
stands over a copy of the definitions. A case that disagrees is an error of the prover's, and fails this test.

    tests/definitions.py            every case
    tests/definitions.py WORD..     the cases whose names have one of the words
"""
import os
import re
import shutil
import subprocess
import sys
import tempfile

from vector_cases import cases as vector_cases

HERE = os.path.dirname(os.path.abspath(__file__))
CRATES = os.path.join(HERE, "..", "crates")
SPECS = ["text_spec", "token_spec", "schema_spec", "table_spec", "journal_spec", "path_spec", "inference_spec", "extract_spec", "library_spec"]
JOURNAL_LIMIT = 1048576

# A case that is not evaluated, with the reason.
NOT_EVALUATED = {
    "listing-4096-rows": "the prover's limit of steps for one declaration does not suffice for the nodes of 4,096 rows",
}

HEAD = """-- Written by tests/definitions.py.
use Rattle.std.specs.Prelude.{List, [], ◌∷◌, map, ◌≡◌, refl, ℕ, length}
use Rattle.journal_spec.specs.Reading.{read_journal}
use Rattle.path_spec.specs.Paths.{LocationPath}
use Rattle.path_spec.specs.Reading.{read_bundle}
use Rattle.path_spec.specs.Selection.{select_rows}
use Rattle.library_spec.specs.Cases.Opened.{computing}
use Rattle.extract_spec.specs.Cut.{cut}
use Rattle.extract_spec.specs.Reading.{read_extract}
use Rattle.inference_spec.specs.Needed.{needed, needed_by_path, needed_word}
use Rattle.library_spec.specs.Calls.{extract_read}
use Rattle.library_spec.specs.Hosts.{extract_of}
use Rattle.library_spec.specs.Listing.{listing}
use Rattle.library_spec.specs.Records.{schema_held, table_beside}
use Rattle.schema_spec.specs.Names.{code_of, word_of_set}
use Rattle.schema_spec.specs.Reading.{read_schema}
use Rattle.schema_spec.specs.Records.{normal, schema_in}
use Rattle.schema_spec.specs.Types.{Types, types_of}
use Rattle.table_spec.specs.Rows.{Row}
use Rattle.text_spec.specs.Calls.{handed, in_room}
use Rattle.text_spec.specs.Cells.{too_small}
use Rattle.text_spec.specs.Limits.{max_schema_bytes}
use Rattle.text_spec.specs.Lists.{bytes}
use Rattle.text_spec.specs.Records.{record_of}
use Rattle.text_spec.specs.Refusals.{Outcome, accepted, refused, and_then, number_of}

data Seen : Type 0 where
  ok : List (List ℕ) → Seen
  no : ℕ → ℕ → Seen

abbrev seen : {A : Type 0} → (A → List (List ℕ)) → Outcome A → Seen
seen f (accepted a) = ok (f a)
seen f (refused r) = no (number_of r.reason) r.place

abbrev counted : {A : Type 0} → List A → List (List ℕ)
counted l = (length l ∷ []) ∷ []

abbrev row : Row → List ℕ
row r = r.number ∷ code_of r.name ∷ r.parent ∷ r.start ∷ r.size ∷ r.decoded ∷ []

abbrev row_but_start : Row → List ℕ
row_but_start r = r.number ∷ code_of r.name ∷ r.parent ∷ r.size ∷ r.decoded ∷ []

abbrev lent : ℕ → List Row → Outcome (List Row)
lent n rows = in_room (too_small n rows) rows

abbrev words_of : Types → List (LocationPath ℕ) → List ℕ
words_of t ps = needed_word t ps ∷ map (λ p. word_of_set t.names (needed_by_path t p)) ps

abbrev words : List ℕ → List ℕ → Outcome (List (List ℕ))
words s b =
    and_then (read_schema s) (λ e.
    and_then (read_bundle e b) (λ ps.
    accepted (words_of (types_of e) ps ∷ [])))

abbrev selections : List ℕ → List ℕ → List ℕ → Outcome (List (List ℕ))
selections s b j =
    and_then (read_schema s) (λ e. and_then (read_bundle e b) (λ ps. and_then (read_journal JOURNAL_LIMIT e j) (λ rows. accepted (map (select_rows j rows) ps))))

abbrev selections_from : List ℕ → List ℕ → List ℕ → Outcome (List (List ℕ))
selections_from s b x =
    and_then (read_schema s) (λ e. and_then (read_bundle e b) (λ ps. and_then (read_extract (types_of e) x) (λ rows. accepted (map (select_rows x rows) ps))))

abbrev extracts : List ℕ → List ℕ → List ℕ → Outcome (List (List ℕ))
extracts s b j =
    and_then (read_schema s) (λ e.
    and_then (read_bundle e b) (λ ps.
    and_then (read_journal JOURNAL_LIMIT e j) (λ rows.
    accepted ((length (cut (needed (types_of e) ps) rows) ∷ []) ∷ extract_of e ps j rows ∷ []))))

abbrev same : {A : Type 0} → A → A
same a = a
""".replace("JOURNAL_LIMIT", str(JOURNAL_LIMIT))


def text(s):
    """A text as a quoted literal of bytes."""
    def escaped(ch):
        if ch in '"\\':
            return "\\" + ch
        return ch if " " <= ch <= "~" else "\\u{%x}" % ord(ch)
    return '(bytes "%s")' % "".join(map(escaped, s))


def numbers(values):
    return "(%s[])" % "".join("%d ∷ " % v for v in values)


def lists(rows):
    return "ok (%s[])" % "".join(numbers(r) + " ∷ " for r in rows)


def decimals(lines):
    return [[int(word) for word in line.split()] for line in lines]


def sizes(cells):
    """How many cells each column has: one number for all, or six."""
    return "record { numbers = %d; names = %d; parents = %d; starts = %d; lengths = %d; decoded = %d }" % tuple(cells * 6 if len(cells) == 1 else cells)


def expected(case):
    """What the case gives, as a value of Seen."""
    does, gives = case["does"], case["gives"]
    lines = gives.split("\n")
    if does == "listing":
        return "ok (%s ∷ [])" % text(gives)
    if lines[0].startswith("refused"):
        words = lines[0].split()
        return "no %s %s" % (words[1], words[3])
    if does in ("schema", "bundle", "table", "schema-record"):
        return lists([[int(lines[0].split()[1])]])
    if does in ("journal", "read-extract"):
        return lists(decimals(filter(None, lines[1:])))
    if does == "needed":
        return lists([[int(line, 16) for line in lines if line]])
    if does in ("select", "select-extract"):
        return lists(decimals(lines[:-1]))
    head, rest = gives.split("\n", 1)
    return lists([[int(head.split()[1])], [ord(ch) for ch in rest]])


def asked(case):
    """The definition applied to the case's texts, as a value of Seen."""
    does, texts, limits = case["does"], case["texts"], case["limits"]
    t = [text(s) for s in texts]
    if does == "schema":
        return "seen counted (read_schema %s)" % t[0]
    if does == "bundle":
        return "seen counted (read_bundle (schema_in %s) %s)" % (t[0], t[1])
    if does == "journal":
        limit = limits[0] if limits else JOURNAL_LIMIT
        rows = limits[1] if len(limits) > 1 else JOURNAL_LIMIT
        return "seen (map row) (and_then (read_journal %d (schema_in %s) %s) (lent %d))" % (limit, t[0], t[1], rows)
    if does == "needed":
        return "seen same (words %s %s)" % (t[0], t[1])
    if does == "select":
        return "seen same (selections %s %s %s)" % tuple(t)
    if does == "select-extract":
        return "seen same (selections_from %s %s %s)" % tuple(t)
    if does == "extract":
        return "seen same (extracts %s %s %s)" % tuple(t)
    if does == "schema-record":
        return "seen counted (handed (schema_held (record { cells = %s; size = %d })) (λ s. accepted s))" % (t[0], limits[0])
    if does == "read-extract" and limits:
        return "seen (map row_but_start) (extract_read (record_of max_schema_bytes (normal %s)) %s (%s))" % (t[0], t[1], sizes(limits[1:]))
    if does == "read-extract":
        return "seen (map row_but_start) (read_extract (types_of (schema_in %s)) %s)" % (t[0], t[1])
    if does == "listing":
        return "ok (listing %s %s %s ∷ [])" % tuple(t)
    rows = decimals(filter(None, texts[1].split("\n")))
    columns = "numbers = %s; names = %s; parents = %s; starts = %s; lengths = %s; decoded = %s" % tuple(numbers([r[i] for r in rows]) for i in range(6))
    table = "record { columns = record { %s }; count = %d }" % (columns, len(rows))
    return "seen counted (handed (table_beside (schema_in %s) %s (%s)) (λ rows. accepted rows))" % (t[0], t[2], table)


def theorem(i, case):
    """A case as a theorem that only computing closes. The value is given to `refl`: else it is the left side, which is then computed twice as often."""
    value = expected(case)
    lines = ["-- %s" % ascii(case["case"]), "case-%d : %s ≡ %s" % (i, asked(case), value), "unfolding computing", "case-%d = refl {a = %s}" % (i, value), ""]
    return "\n".join(lines)


def copy_definitions(crate, copy):
    """A copy of a crate of definitions, without the cases that it closes itself: those are proved with the crate."""
    shutil.copytree(crate, copy, ignore=shutil.ignore_patterns("must-fail"))
    cases = os.path.join(copy, "specs", "Cases")
    if os.path.isdir(cases):
        for name in os.listdir(cases):
            if name != "Opened.antt":
                os.remove(os.path.join(cases, name))
        with open(cases + ".antt", "w") as out:
            out.write("pub mod Opened\n")


def evaluate(cases):
    """The prover's run on scratch crates with a theorem for each case: as many crates as cores, each with its share of the cases."""
    parts = os.cpu_count() or 1
    with tempfile.TemporaryDirectory() as scratch:
        for name in SPECS:
            copy_definitions(os.path.join(CRATES, name), os.path.join(scratch, "crates", name))
        with open(os.path.join(CRATES, "..", "crates.txt")) as listed:
            lines = [line for line in listed if line.split(":")[0] in SPECS]
        for part in range(parts):
            crate = os.path.join(scratch, "crates", "vectors%d" % part)
            os.makedirs(os.path.join(crate, "src"))
            os.makedirs(os.path.join(crate, "specs"))
            body = "\n".join([HEAD] + [theorem(i, case) for i, case in enumerate(cases) if i % parts == part])
            files = {"src/lib.rt": "#![tactic(auto)]\n\n// Theorems alone.\n", "specs/Lib.antt": "pub mod Vectors\n", "specs/Vectors.antt": body}
            for path, content in files.items():
                with open(os.path.join(crate, path), "w") as out:
                    out.write(content)
            lines.append("vectors%d: %s\n" % (part, " ".join(SPECS)))
        with open(os.path.join(scratch, "crates.txt"), "w") as out:
            out.write("".join(lines))
        return subprocess.run(["rt", "all", "check", "--jobs", str(parts)], cwd=scratch, capture_output=True, text=True)


def main():
    cases = vector_cases(1764)
    words = sys.argv[1:]
    cases = [c for c in cases if not words or any(word in c["case"] for word in words)]
    chosen = [c for c in cases if c["case"] not in NOT_EVALUATED]
    run = evaluate(chosen)
    if run.returncode != 0:
        output = run.stdout + run.stderr
        sys.stdout.write(output)
        for i in sorted({int(i) for i in re.findall(r"error: `case-(\d+)`", output)}):
            print("definitions: %s disagrees" % ascii(chosen[i]["case"]))
        sys.exit("definitions: some case of tests/vectors disagrees")
    print("definitions: %d of %d cases agree" % (len(chosen), len(cases)))
    for case in cases:
        if case["case"] in NOT_EVALUATED:
            print("definitions: %s is not evaluated: %s" % (case["case"], NOT_EVALUATED[case["case"]]))


main()
