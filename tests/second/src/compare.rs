//! Compares a static library that has the two functions of include/lozhymet.h with the second implementation: `compare SEED COUNT` on COUNT random
//! inputs. An input is a schema, a bundle and a journal, each valid, nearly valid or damaged: an extract is made of them; one is then selected from, as
//! made or damaged, by all paths and by each. Results and every lent cell must be the same. What came how often is printed, and what never came fails.
#![allow(dead_code)]
mod archive;
mod bundle;
mod cells;
mod extract;
mod faults;
mod guided;
mod host;
mod inputs;
mod journal;
mod needed;
mod random;
mod schema;
mod table;
mod text;

use crate::bundle::{read_bundle, Path};
use crate::host::{Left, Lent};
use crate::inputs::{arguments, differs, has_entity, random_input, report, shown, wanted_steps, wanted_texts, Input, Seen, MAX_JOURNAL};
use crate::journal::{characters, read_journal};
use crate::random::Random;
use crate::schema::read_schema;
use crate::table::Row;

const TOO_LONG: &str = "a text of more than 4,096 raw bytes and fewer characters";

fn wanted() -> Vec<String> {
    let making = (0..=18).filter(|n| *n != 17).map(|n| format!("making: {n}"));
    let selecting = (0..=18).filter(|n| !(11..=16).contains(n)).map(|n| format!("selecting: {n}"));
    let others = ["an extract with fewer rows than its journal", TOO_LONG, "an extract's text with an entity"].map(String::from);
    making.chain(selecting).chain(wanted_steps()).chain(wanted_texts()).chain(others).collect()
}

/// How many cells to lend for an answer of these sizes: just enough, more, too few of one, or columns of unequal length.
fn lending(r: &mut Random, rows: usize, items: usize, counts: usize) -> Lent {
    let (mut columns, mut lent_items, mut lent_counts) = ([rows; 6], items, counts);
    match r.below(20) {
        0 => lent_items = items.saturating_sub(1 + r.below(3)),
        1 => lent_counts = counts.saturating_sub(1),
        2 => columns.fill(rows.saturating_sub(1 + r.below(3))),
        3 => columns[r.below(6)] += 1,
        4 => columns.fill(0),
        5..=9 => {}
        _ => {
            columns.fill(rows + r.below(4));
            lent_items += r.below(4);
            lent_counts += r.below(3);
        }
    }
    Lent { columns, items: lent_items, counts: lent_counts }
}

/// As many cells as include/lozhymet.h says for a journal, and for an extract.
fn enough_to_make(journal: &[u8]) -> Lent {
    let rows = (journal.len() / 4).min(65_535);
    Lent { columns: [rows; 6], items: journal.len().min(MAX_JOURNAL) + 4 * rows + 5, counts: 0 }
}

fn enough_to_select(extract: &[u8]) -> Lent {
    let rows = (extract.len() / 8).min(65_535);
    Lent { columns: [rows; 6], items: 8 * rows, counts: 8 }
}

fn same(ours: &Left, theirs: &Left, call: &str, input: &Input, extract: &[u8]) {
    if ours != theirs {
        differs("compare", call, input, extract, (&ours.result, &ours.cells), (&theirs.result, &theirs.cells));
    }
}

/// The bytes up to the next tag.
fn run_at(journal: &[u8], place: usize) -> &[u8] {
    journal[place..].split(|&b| b == b'<').next().unwrap_or_default()
}

/// Making, and the extract made where nothing is refused.
fn compare_making(r: &mut Random, seen: &mut Seen, input: &Input) -> Option<(usize, Vec<u8>)> {
    let Input { schema, bundle, journal } = input;
    let whole = host::make_extract(schema, bundle, journal, &enough_to_make(journal));
    assert!(whole.result[0] != 18, "include/lozhymet.h says too few cells for {}", shown(journal));
    let [_, _, rows, items, _] = whole.result.map(|n| n as usize);
    let lent = Lent { counts: 0, ..lending(r, rows, items, 0) };
    let ours = host::make_extract(schema, bundle, journal, &lent);
    same(&ours, &archive::make_extract(schema, bundle, journal, &lent), "making", input, &[]);
    seen.calls += 1;
    seen.note(format!("making: {}", ours.result[0]));
    if ours.result[0] == 16 && characters(run_at(journal, ours.result[1] as usize)).is_some_and(|all| all.len() <= 4096) {
        seen.note(TOO_LONG.to_string());
    }
    (whole.result[0] == 0).then(|| (rows, whole.cells[6][..items].iter().map(|&b| b as u8).collect()))
}

fn compare_selecting(r: &mut Random, seen: &mut Seen, input: &Input, place: usize, extract: &[u8]) -> Left {
    let Input { schema, bundle, .. } = input;
    let whole = host::select(schema, bundle, place, extract, &enough_to_select(extract));
    assert!(whole.result[0] != 18, "include/lozhymet.h says too few cells for {}", shown(extract));
    let [_, _, rows, items, counts] = whole.result.map(|n| n as usize);
    let lent = lending(r, rows, items, counts);
    let ours = host::select(schema, bundle, place, extract, &lent);
    same(&ours, &archive::select(schema, bundle, place, extract, &lent), "selecting", input, extract);
    seen.calls += 1;
    seen.note(format!("selecting: {}", ours.result[0]));
    whole
}

/// Demand 3: on the extract the library selects what the second implementation selects on the whole journal.
fn compare_whole(seen: &mut Seen, input: &Input, extract: &[u8], paths: &[Path], rows: &[Row]) {
    for (k, path) in paths.iter().enumerate() {
        let whole: Vec<u32> = table::selected(rows, path).into_iter().map(|i| rows[i].number as u32).collect();
        let lent = Lent { columns: [extract.len() / 8; 6], items: whole.len(), counts: 1 };
        let found = archive::select(&input.schema, &input.bundle, k + 1, extract, &lent);
        assert!(found.result[0] == 0 && found.cells[6] == whole, "path {} of {} on {}", k + 1, shown(&input.bundle), shown(&input.journal));
        seen.path(path, whole.len());
        seen.calls += 1;
    }
}

fn compare_input(r: &mut Random, seen: &mut Seen) {
    let input = random_input(r);
    let made = compare_making(r, seen, &input);
    let extract = match &made {
        Some((_, extract)) => faults::extract(r, extract),
        None if r.chance(50) => vec![3, 0, 2, 0, 0],
        None => (0..r.below(30)).map(|_| r.below(6) as u8).collect(),
    };
    compare_selecting(r, seen, &input, 0, &extract);
    let most = if r.chance(20) { 11 } else { 4 };
    let place = r.below(most);
    compare_selecting(r, seen, &input, place, &extract);
    if let Some((all, written)) = made {
        let s = read_schema(&input.schema).unwrap();
        let rows = read_journal(&s, &input.journal, MAX_JOURNAL).unwrap();
        compare_whole(seen, &input, &written, &read_bundle(&s, &input.bundle).unwrap(), &rows);
        let kept = extract::read_extract(&s, &written).unwrap();
        if kept.len() < all {
            seen.note("an extract with fewer rows than its journal".to_string());
        }
        seen.texts(kept.iter().map(|k| &rows[k.number]), &input.journal);
        if kept.iter().any(|k| has_entity(&written[k.start..k.start + k.size])) {
            seen.note("an extract's text with an entity".to_string());
        }
    }
}

/// A journal of the most nodes, and of one more.
fn compare_largest(seen: &mut Seen) {
    let (schema, bundle) = (b"<!ELEMENT a (b*)><!ELEMENT b EMPTY>".to_vec(), b"self::a\n".to_vec());
    for count in [65_534, 65_535] {
        let input = Input { schema: schema.clone(), bundle: bundle.clone(), journal: ("<a>".to_string() + &"<b/>".repeat(count) + "</a>").into_bytes() };
        let lent = enough_to_make(&input.journal);
        let ours = host::make_extract(&input.schema, &input.bundle, &input.journal, &lent);
        same(&ours, &archive::make_extract(&input.schema, &input.bundle, &input.journal, &lent), "making", &input, &[]);
        seen.calls += 1;
    }
}

fn main() {
    let (seed, count) = arguments();
    let mut r = Random::new(seed);
    let mut seen = Seen::default();
    compare_largest(&mut seen);
    for _ in 0..count {
        compare_input(&mut r, &mut seen);
    }
    report("compare", &seen, count, wanted());
}
