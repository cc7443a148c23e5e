//! Random inputs of the comparisons, and how often each thing came in them.
use crate::bundle::{Path, AXES};
use crate::faults;
use crate::guided;
use crate::journal::{characters, read_journal, ENTITIES};
use crate::random::{self, Random};
use crate::schema::{read_schema, Name, Schema};
use crate::table::Row;
use std::collections::BTreeMap;

pub const MAX_JOURNAL: usize = 1_048_576;

pub struct Input {
    pub schema: Vec<u8>,
    pub bundle: Vec<u8>,
    pub journal: Vec<u8>,
}

/// How often each thing came; `wanted` has those that must.
#[derive(Default)]
pub struct Seen {
    pub counts: BTreeMap<String, usize>,
    pub calls: usize,
}

impl Seen {
    pub fn note(&mut self, what: String) {
        *self.counts.entry(what).or_insert(0) += 1;
    }

    pub fn path(&mut self, path: &Path, nodes: usize) {
        self.note(if nodes > 0 { "a selection with nodes" } else { "a selection without" }.to_string());
        let selected = if nodes > 0 { "nodes selected" } else { "none" };
        for step in path {
            let conditional = if step.condition.is_some() { " with a condition" } else { "" };
            self.note(format!("{:?}{conditional}, {selected}", step.axis));
            for inner in step.condition.iter().flatten().flatten() {
                self.note(format!("{:?} in brackets, {selected}", inner.axis));
            }
        }
    }
}

fn has(part: &[u8], written: &str) -> bool {
    part.windows(written.len()).any(|w| w == written.as_bytes())
}

/// Whether an entity stands in the bytes.
pub fn has_entity(part: &[u8]) -> bool {
    ENTITIES.iter().any(|(written, _)| has(part, written))
}

impl Seen {
    /// What the texts of rows are beside the journal that they were read from.
    pub fn texts<'a>(&mut self, rows: impl Iterator<Item = &'a Row>, journal: &[u8]) {
        for row in rows.filter(|row| matches!(row.name, Name::Text(_))) {
            let part = &journal[row.start..row.start + row.size];
            ENTITIES.iter().filter(|(written, _)| has(part, written)).for_each(|(written, _)| self.note(format!("a text with {written}")));
            if row.decoded == row.size {
                self.note("a text without an entity".to_string());
            } else if row.size == 4096 {
                self.note("a text of 4,096 raw bytes with entities".to_string());
            }
            if characters(part).is_some_and(|all| has_entity(&all)) {
                self.note("a text that holds an entity once it is decoded".to_string());
            }
        }
    }
}

/// What a comparison of texts must see: each entity, none, the longest text, and one of which nothing may be decoded twice.
pub fn wanted_texts() -> Vec<String> {
    let others = ["a text without an entity", "a text of 4,096 raw bytes with entities", "a text that holds an entity once it is decoded"];
    ENTITIES.iter().map(|(written, _)| format!("a text with {written}")).chain(others.map(String::from)).collect()
}

/// What a comparison of selections must see: each axis with and without a condition and in brackets, with nodes and without.
pub fn wanted_steps() -> Vec<String> {
    let steps = AXES.iter().flat_map(|(_, a)| ["", " with a condition", " in brackets"].map(|c| [", nodes selected", ", none"].map(|n| format!("{a:?}{c}{n}"))));
    steps.flatten().chain(["a selection with nodes", "a selection without"].map(String::from)).collect()
}

/// What is wanted and never came.
pub fn missing(seen: &Seen, wanted: Vec<String>) -> Vec<String> {
    wanted.into_iter().filter(|w| !seen.counts.contains_key(w)).collect()
}

/// Prints what came how often; ends the program with 1 where something wanted never came.
pub fn report(name: &str, seen: &Seen, inputs: usize, wanted: Vec<String>) {
    for (what, times) in &seen.counts {
        println!("{times:8} {what}");
    }
    println!("{name}: {} calls on {inputs} random inputs answer alike", seen.calls);
    let missing = missing(seen, wanted);
    if !missing.is_empty() {
        println!("{name}: these never came: {}", missing.join("; "));
        std::process::exit(1);
    }
}

/// What a call gave: numbers, and each lent output whole.
pub type Given<'a> = (&'a [u64], &'a [Vec<u32>]);

/// Shows an input on which a call of the library gave something else, and ends the program with 1.
pub fn differs(name: &str, call: &str, input: &Input, extract: &[u8], ours: Given, theirs: Given) -> ! {
    println!("schema {}\nbundle {}\njournal {}\nextract {}", shown(&input.schema), shown(&input.bundle), shown(&input.journal), shown(extract));
    println!("second implementation: {:?}\nlibrary: {:?}", ours.0, theirs.0);
    for (k, (a, b)) in ours.1.iter().zip(theirs.1).enumerate().filter(|(_, (a, b))| a != b) {
        let place = a.iter().zip(b).position(|(x, y)| x != y);
        println!("output {k} of {} and {} cells differs, first at cell {place:?}", a.len(), b.len());
    }
    println!("{name}: {call} differs");
    std::process::exit(1)
}

/// SEED and COUNT, the program's arguments.
pub fn arguments() -> (u64, usize) {
    let numbers: Vec<usize> = std::env::args().skip(1).map(|a| a.parse().expect("SEED COUNT")).collect();
    let [seed, count] = numbers[..] else { panic!("SEED COUNT") };
    (seed as u64, count)
}

pub fn shown(bytes: &[u8]) -> String {
    bytes[..bytes.len().min(2000)].escape_ascii().to_string()
}

/// A schema, and a journal that its models make, mostly valid under it.
pub fn random_texts(r: &mut Random) -> (Vec<u8>, Schema, Vec<u8>) {
    loop {
        let text = random::schema(r).into_bytes();
        if let Ok(s) = read_schema(&text) {
            let made = random::journal(r, &s);
            return (text, s, made);
        }
    }
}

/// A bundle: most often one that selects something on the journal.
pub fn random_bundle(r: &mut Random, s: &Schema, journal: &[u8]) -> String {
    match read_journal(s, journal, MAX_JOURNAL) {
        Ok(rows) if r.chance(60) => guided::bundle(r, s, &rows),
        _ => random::bundle(r, s),
    }
}

/// Each text as made, or with a fault.
pub fn random_input(r: &mut Random) -> Input {
    let (valid, s, made) = random_texts(r);
    let valid_bundle = random_bundle(r, &s, &made);
    let journal = match r.below(10) {
        0..=5 => made,
        6 => random::damaged(r, &made),
        7 => random::retagged(r, &made),
        _ => faults::journal(r, made, &s),
    };
    Input { schema: faults::schema(r, &valid, &s), bundle: faults::bundle(r, &valid_bundle, &s), journal }
}
