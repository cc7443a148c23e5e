#!/usr/bin/env python3
"""Do tests/compare and tests/compare_inner notice a mistake? Each edit puts one into a copy of the second implementation. For tests/compare that is then
built as the archive to compare with; the comparison must fail, and where an edit says so the C host of tests/host must, too, and the cases of
tests/vectors; without an edit none of them may. For tests/compare_inner it is compared with the archives of the proved crates (tests/archive). Takes some
minutes; not part of the gate.
Needs gcc and rustc. The words after the program's name choose edits by a part of their names."""
import os
import shutil
import subprocess
import sys
import tempfile

HERE = os.path.dirname(os.path.abspath(__file__))
TESTS = os.path.join(HERE, "..")

# name, file, what stands there, what is put in its place, whether the C host must notice as well
EDITS = [
    ("tag 1 written for 2", "extract.rs", "field(&mut out, 2, &value)", "field(&mut out, 1, &value)", True),
    ("the low byte first", "extract.rs", "let mut value = (r.number as u16).to_be_bytes()", "let mut value = (r.number as u16).to_le_bytes()", True),
    ("the root's parent not 0", "extract.rs", "(rows[r.parent].number as u16)", "(rows[r.parent].number.max((r.number == 0) as usize) as u16)", True),
    ("the count one less", "extract.rs", "&(rows.len() as u16)", "&(rows.len().saturating_sub(1) as u16)", True),
    ("all rows sent", "host.rs", "&cut(&rows, &bundle_needs(&s, &paths))", "&[cut(&rows, &bundle_needs(&s, &paths)), rows.clone()][1]", True),
    ("rows with other texts", "extract.rs", "row_characters(r, text).unwrap()", "row_characters(r, text).unwrap().into_iter().map(|b| b ^ 1)", True),
    ("18 before the texts are judged", "host.rs", "    let s = read_schema(schema)?;\n    let paths = read_bundle(&s, bundle)?;\n    let rows = read_journal",
     "    if lent.columns[0] == 0 {\n        return Err(refused(18, 0));\n    }\n    let s = read_schema(schema)?;\n    let paths = read_bundle(&s, bundle)?;\n"
     "    let rows = read_journal", True),
    ("a short output partly written", "host.rs", "vec![0; n])", "vec![(r.number == 18) as u32; n])", True),
    ("items left on refusal", "host.rs", "vec![0; n])", "vec![(r.number == 17) as u32; n])", True),
    ("a place tested against the limit alone", "host.rs", "paths.as_ref().map_or(MAX_PATHS, Vec::len)", "MAX_PATHS", True),
    ("only the first path served", "host.rs", ".map(|x| x.1).collect()", ".map(|x| x.1).take(1).collect()", True),
    ("the last column not compared", "host.rs", "lent.columns.iter().all(", "lent.columns[..5].iter().all(", True),
    ("a condition's names forgotten", "needed.rs", "all.extend(needs(s, alternative, &own, &cut_to(s, &at[i + 1].1, &own)));",
     "let _ = needs(s, alternative, &own, &cut_to(s, &at[i + 1].1, &own));", True),
    ("parents without the context", "needed.rs", "Axis::Parent => up(k.iter().copied()",
     "Axis::Parent => up((0..s.names.len()).map(Name::Element)", False),
    ("names between dropped", "needed.rs", "all.extend(s.below(a).into_iter().filter(|&c| s.is_below(b, c)));", "let _ = (a, b);", True),
    ("a kept name with a cut ancestor", "table.rs", "set.contains(&rows[i].name) && above(rows, i).iter().all(|&k| set.contains(&rows[k].name))",
     "set.contains(&rows[i].name) && above(rows, i).last().is_none_or(|&k| set.contains(&rows[k].name))", False),
    ("a second text accepted", "table.rs", "&& !rows[1..i].iter().any(", "&& !rows[1..1].iter().any(", False),
    ("text starts of the journal", "extract.rs", "i + 7, size - 4)", "i + 6, size - 4)", True),
    ("12 after depth 65", "journal.rs", "return Err(refused(13, place));", "return Err(refused(12, place));", True),
    ("a wrong root is 14", "journal.rs", "return Err(refused(15, e.place));", "return Err(refused(if wrong_root { 14 } else { 15 }, e.place));", False),
]

# those of document 02's R-1, which the cases of tests/vectors must notice, too
SIBLING_EDITS = [
    ("a node its own sibling", "table.rs", "Axis::FollowingSibling => y > x && siblings(),", "Axis::FollowingSibling => y >= x && siblings(),", True),
    ("the root a sibling of its children", "table.rs", "x > 0 && y > 0 && rows[x].parent == rows[y].parent", "rows[x].parent == rows[y].parent", True),
    ("following with descendants", "table.rs", "y > x && !is_above(x, y)", "y > x", True),
    ("preceding with ancestors", "table.rs", "y < x && !is_above(y, x)", "y < x", True),
    ("preceding as following", "table.rs", "y < x && !is_above(y, x)", "y > x && !is_above(x, y)", True),
    ("sibling axes exchanged", "table.rs", "        Axis::FollowingSibling => y > x && siblings(),\n        Axis::Preceding => y < x && !is_above(y, x),\n"
     "        Axis::PrecedingSibling => y < x && siblings(),\n", "        Axis::FollowingSibling => y < x && siblings(),\n"
     "        Axis::Preceding => y < x && !is_above(y, x),\n        Axis::PrecedingSibling => y > x && siblings(),\n", True),
    ("a condition on the inserted step", "needed.rs", "        all.push(Step { axis: *last, test: step.test.clone(), condition });",
     "        let condition = if before.is_empty() { condition } else { std::mem::replace(&mut all.last_mut().unwrap().condition, condition) };\n"
     "        all.push(Step { axis: *last, test: step.test.clone(), condition });", True),
    ("a test on the inserted steps", "needed.rs", "test: Test::Node, condition: None", "test: [Test::Node, step.test.clone()][1].clone(), condition: None", True),
    ("following without what is above", "needed.rs", "vec![Axis::AncestorOrSelf, Axis::Parent, Axis::Child, Axis::DescendantOrSelf]",
     "vec![Axis::Parent, Axis::Child, Axis::DescendantOrSelf]", True),
    ("following without what is below", "needed.rs", "vec![Axis::AncestorOrSelf, Axis::Parent, Axis::Child, Axis::DescendantOrSelf]",
     "vec![Axis::AncestorOrSelf, Axis::Parent, Axis::Child]", True),
    ("a rewritten step counted as its parts", "bundle.rs", "l.steps.len() > MAX_STEPS",
     "l.steps.iter().map(|s| if matches!(s.axis, Axis::Following | Axis::Preceding) { 4 } else { 1 }).sum::<usize>() > MAX_STEPS", False),
    ("a rewritten step in brackets counted as its parts", "bundle.rs", "c.iter().any(|a| a.len() > MAX_ALTERNATIVE_STEPS)",
     "c.iter().any(|a| a.iter().map(|s| 1 + matches!(s.axis, Axis::FollowingSibling) as usize).sum::<usize>() > MAX_ALTERNATIVE_STEPS)", False),
]

# those of document 02's R-2, likewise
ENTITY_EDITS = [
    ("a journal's text not decoded", "journal.rs", "(all.len(), characters(&text[*i..*j]).unwrap().len())", "(all.len(), j - i)", True),
    ("a text sent raw", "extract.rs", "row_characters(r, text).unwrap()", "[row_characters(r, text).unwrap(), text[r.start..r.start + r.size].to_vec()][1].clone()", True),
    ("a text sent at its raw length", "extract.rs", "field(&mut out, 2, &value);", "value.resize(4 + r.size, b' ');\n                field(&mut out, 2, &value);", True),
    ("an extract's text decoded again", "extract.rs", "decoded: size });",
     "decoded: crate::journal::characters(&bytes[start..start + size]).map_or(size, |all| all.len()) });", True),
    ("a text decoded twice", "journal.rs", "    Some(all)\n", "    Some(if all.len() < run.len() { characters(&all).unwrap_or(all) } else { all })\n", True),
    ("the limit of a text by its characters", "journal.rs", "r.size > MAX_TEXT", "r.decoded > MAX_TEXT", True),
    ("quotes exchanged", "journal.rs", "(\"&apos;\", b'\\''), (\"&quot;\", b'\"')", "(\"&apos;\", b'\"'), (\"&quot;\", b'\\'')", True),
    ("18 by raw lengths", "host.rs", "    Ok(Answer { rows, items: bytes.into_iter().map(u32::from).collect(), counts: Vec::new() })",
     "    if lent.items < bytes.len() + rows.iter().map(|r| r.size - r.decoded).sum::<usize>() {\n        return Err(refused(18, 0));\n    }\n"
     "    Ok(Answer { rows, items: bytes.into_iter().map(u32::from).collect(), counts: Vec::new() })", True),
]

# for tests/compare_inner: name, file, what stands there, what is put in its place
INNER_EDITS = [
    ("a needed name that the root does not reach", "needed.rs", "reached(s, &needs(s, &rewritten(path), &root, &root))",
     "[reached(s, &root), needs(s, &rewritten(path), &root, &root)][1].clone()"),
    ("names between the ends of a descendant step dropped", "needed.rs", "all.extend(s.below(a).into_iter().filter(|&c| s.is_below(b, c)));", "let _ = (a, b);"),
    ("parent rows of a cut not renumbered", "table.rs", "parent: place(rows[i].parent),", "parent: rows[i].parent.max(place(rows[i].parent)),"),
    ("a name kept under one that is cut", "table.rs", "above(rows, i).iter().all(|&k| set.contains(&rows[k].name))",
     "above(rows, i).last().is_none_or(|&k| set.contains(&rows[k].name))"),
    ("a node among its own descendants", "table.rs", "Axis::Descendant => is_above(x, y),", "Axis::Descendant => x == y || is_above(x, y),"),
    ("a condition that every alternative must meet", "table.rs", "alternatives.iter().any(|a| !walked(", "alternatives.iter().all(|a| !walked("),
    ("a decoded length of 0", "table.rs", "(1..=r.size).contains(&r.decoded)", "(0..=r.size).contains(&r.decoded)"),
    ("a decoded length above the raw one", "table.rs", "(1..=r.size).contains(&r.decoded)", "(1..=r.size + 1).contains(&r.decoded)"),
    ("an element with a decoded length", "table.rs", "(r.start, r.size, r.decoded) == (0, 0, 0)", "(r.start, r.size) == (0, 0)"),
    ("a text of more characters than its decoded length", "table.rs", "all.len() == row.decoded", "all.len() >= row.decoded"),
    ("a text of fewer characters than its decoded length", "table.rs", "all.len() == row.decoded", "all.len() <= row.decoded"),
    ("a text of unequal lengths that is misspelt", "journal.rs", "if run.is_empty() || data(run, 0) != Ok(run.len()) {", "if run.is_empty() {"),
    ("a text of unequal lengths before a tag", "journal.rs", "data(run, 0) != Ok(run.len())", "data(run, 0).is_err()"),
    ("a text of equal lengths decoded", "table.rs", "if row.size == row.decoded {", "if row.size == row.decoded && characters(part).is_none() {"),
    ("the raw length for the decoded one of a row's text", "records.rs", "row.decoded as u64))", "row.size as u64))"),
    ("equal lengths wanted without a text", "table.rs", "(1..=r.size).contains(&r.decoded)", "r.decoded == r.size"),
    ("a cut with raw lengths alone", "table.rs", "parent: place(rows[i].parent), ..", "parent: place(rows[i].parent), decoded: rows[i].size, .."),
    ("a chain that ends in the text's element", "table.rs", "Name::Text(_) => b\"/text()\".to_vec(),", "Name::Text(_) => Vec::new(),"),
    ("a blank in a schema's record", "records.rs", "joined(ps, \",\")", "joined(ps, \", \")"),
    ("a record with bytes past its text", "records.rs", ".all(|&b| b == 0)", ".all(|&b| b < 4)"),
    ("the text beside a table not judged", "records.rs", "is_ok_and(|rows| texts_inside(rows, text))", "is_ok_and(|rows| texts_inside(rows, text) || !text.is_empty())"),
    ("columns of unequal length accepted", "records.rs", "lent.iter().any(|&n| n != lent[0])", "lent[..5].iter().any(|&n| n != lent[0])"),
    ("a row written on refusal", "records.rs", "lent.iter().map(|&n| vec![0; n]).collect()", "lent.iter().map(|&n| vec![(r.number == 18) as u32; n]).collect()"),
    ("a bundle's record under another schema", "records.rs", "read_bundle(s, text).map_err(|_| NO_RECORD)", "read_bundle(s, text)"),
]


def notices(command, archive):
    done = subprocess.run(command, env=dict(os.environ, LOZHYMET_LIB=archive), stdout=subprocess.DEVNULL, stderr=subprocess.DEVNULL)
    return done.returncode != 0


def edited(folder, name, file, old, new):
    """A copy of the second implementation with the edit, and what is wrong with that."""
    copy = os.path.join(folder, "second")
    shutil.rmtree(copy, ignore_errors=True)
    shutil.copytree(HERE, copy)
    path = os.path.join(copy, "src", file)
    with open(path) as f:
        text = f.read()
    with open(path, "w") as f:
        f.write(text.replace(old, new))
    return copy, None if text.count(old) == 1 else "%s: its text stands %d times in %s" % (name, text.count(old), file)


COMPARISON = [os.path.join(TESTS, "compare"), "1", "4000"]
HOST = [os.path.join(TESTS, "host", "run")]
CASES = [sys.executable, os.path.join(TESTS, "host", "vectors.py")]
INNER = [os.path.join(TESTS, "compare_inner"), "1", "4000"]


def without_edit(folder):
    """What fails although there is nothing to notice."""
    archive = os.path.join(folder, "second.a")
    subprocess.run([os.path.join(HERE, "library"), archive], check=True)
    tests = {"the comparison": COMPARISON, "the C host": HOST, "the test of the cases": CASES, "the inner comparison": INNER}
    return ["%s fails without an edit" % name for name, command in tests.items() if notices(command, archive)]


def attempt(folder, edit, by_cases=False):
    name, file, old, new, by_host = edit
    archive = os.path.join(folder, "second.a")
    copy, fault = edited(folder, name, file, old, new)
    if fault:
        return fault
    if subprocess.run([os.path.join(copy, "library"), archive]).returncode:
        return "%s: it cannot be built" % name
    if not notices(COMPARISON, archive):
        return "%s: the comparison does not notice" % name
    if by_host and not notices(HOST, archive):
        return "%s: the C host does not notice" % name
    if by_cases and not notices(CASES, archive):
        return "%s: the cases of tests/vectors do not notice" % name
    return None


def attempt_inner(folder, edit):
    copy, fault = edited(folder, *edit)
    if fault:
        return fault
    done = subprocess.run(INNER, env=dict(os.environ, SECOND=copy), stdout=subprocess.PIPE, stderr=subprocess.STDOUT)
    if done.returncode == 0 or not (b"differs" in done.stdout or b"panicked" in done.stdout):
        return "%s: the inner comparison says %r" % (edit[0], done.stdout[-200:])
    return None


def main():
    def chosen(edits):
        return [edit for edit in edits if not sys.argv[1:] or any(word in edit[0] for word in sys.argv[1:])]
    with tempfile.TemporaryDirectory() as folder:
        faults = without_edit(folder)
        tried = [attempt(folder, edit) for edit in chosen(EDITS)] + [attempt(folder, edit, True) for edit in chosen(SIBLING_EDITS + ENTITY_EDITS)]
        tried += [attempt_inner(folder, edit) for edit in chosen(INNER_EDITS)]
    faults += [fault for fault in tried if fault]
    if faults:
        sys.exit("mistakes: " + "\n          ".join(faults))
    print("mistakes: each of %d is noticed" % len(tried))


main()
