//! Compares the public functions that take or hand back a record with the second implementation, through the functions for C of
//! tests/functions: `inner SEED COUNT` on COUNT random inputs. An input is a schema, a bundle and a journal,
//! each valid, nearly valid or damaged. All three are read and needed names taken; the table is cut to them, to larger sets and to others; extracts are
//! written, damaged and read; every path selects on the whole journal, on the cut to a larger set and on the extract. Some records and tables are none
//! that a reader hands back, and some outputs have too few cells. Results and every lent cell must be the same. What came how often is printed, and what
//! never came fails.
#![allow(dead_code)]
mod bundle;
mod cells;
mod extract;
mod faults;
mod functions;
mod guided;
mod inputs;
mod journal;
mod needed;
mod random;
mod records;
mod schema;
mod table;
mod text;

use crate::inputs::{arguments, differs, has_entity, random_input, report, shown, wanted_steps, wanted_texts, Input, Seen, MAX_JOURNAL};
use crate::journal::{characters, ENTITIES};
use crate::random::Random;
use crate::records::{in_bytes, in_columns, in_items, in_text, Left, Lent, Record, Records, Table, BUNDLE_CELLS, SCHEMA_CELLS};
use crate::table::Row;
use crate::text::Refused;

type Numbers = Result<Vec<Vec<u32>>, Refused>;

/// What is compared on one input.
struct Comparison<'a> {
    r: &'a mut Random,
    seen: &'a mut Seen,
    input: Input,
}

// what the texts of a table that was changed are beside their bytes: accepted, and refused
const DECODED: &str = "changed: unequal lengths, and the bytes are a text of so many characters";
const COPIED: &str = "changed: equal lengths, and the bytes hold an entity";
const OTHER_LENGTH: &str = "changed: unequal lengths, and the bytes are a text of another length";
const NO_TEXT: &str = "changed: unequal lengths, and the bytes are no text";

fn wanted() -> Vec<String> {
    let calls: [(&str, &[usize]); 10] = [
        ("reading a schema", &[0, 2, 3, 4, 5, 6, 7]),
        ("reading a bundle", &[0, 1, 2, 3, 8, 9, 10]),
        ("reading a journal", &[0, 1, 2, 3, 11, 12, 13, 14, 15, 16, 18]),
        ("needed names", &[0, 1]),
        ("cutting", &[0, 1, 18]),
        ("writing an extract", &[0, 1, 18]),
        ("reading an extract", &[0, 1, 2, 17, 18]),
        ("selecting", &[0, 1, 18]),
        ("the text of a row", &[0, 1]),
        ("the chain of a row", &[0, 1, 18]),
    ];
    let numbers = calls.into_iter().flat_map(|(call, numbers)| numbers.iter().map(move |n| format!("{call}: {n}")));
    let others = [
        "no name needed",
        "names needed",
        "records refused",
        "a table refused",
        "a text beside a table refused",
        "a decoded length refused",
        "a text of unequal lengths cut",
        "a text of unequal lengths written",
        DECODED,
        COPIED,
        OTHER_LENGTH,
        NO_TEXT,
        "columns of unequal length",
        "a place past the last path",
        "a position past the last row",
        "a text handed back",
        "a larger cut with fewer rows than its journal",
    ];
    numbers.chain(wanted_steps()).chain(wanted_texts()).chain(others.map(String::from)).collect()
}

/// So many cells to lend for an answer of this size: just enough, more, or too few.
fn cells_lent(r: &mut Random, size: usize) -> usize {
    match r.below(12) {
        0 => size.saturating_sub(1 + r.below(3)),
        1..=5 => size,
        _ => size + r.below(4),
    }
}

/// A set of names as 64 bits, each in it so often in a hundred times.
fn random_set(r: &mut Random, percent: usize) -> u64 {
    (0..64).fold(0, |word, code| word | (r.chance(percent) as u64) << code)
}

/// The record that a reader left: the empty one on refusal.
fn record_left(left: &Left) -> Record {
    let len = left.result[2] as usize;
    Record { bytes: left.cells[0][..len].iter().map(|&b| b as u8).collect(), len }
}

/// A record with a byte or its length changed.
fn damaged_record(r: &mut Random, record: &Record, cells: usize) -> Record {
    let Record { mut bytes, mut len } = record.clone();
    match r.below(4) {
        0 => len = r.below(len + 2),
        1 => len = cells + r.below(2),
        2 => bytes.push(1 + r.below(3) as u8),
        _ => {
            bytes = random::damaged(r, &bytes);
            len = bytes.len();
        }
    }
    bytes.truncate(cells);
    Record { bytes, len }
}

/// Rows in columns with some cells more, which are not judged.
fn table_of(r: &mut Random, rows: &[Row]) -> Table {
    let mut table = Table::of(rows);
    for _ in 0..r.below(3) {
        table.columns.iter_mut().for_each(|c| c.push(r.below(70) as u32));
    }
    table
}

/// A table with a cell, the count or the length of a column changed.
fn damaged_table(r: &mut Random, mut table: Table) -> Table {
    let (column, size) = (r.below(6), table.columns[0].len());
    match r.below(6) {
        0 => table.count = r.below(size + 3),
        1 => table.columns[column].push(0),
        2..=4 if size > 0 => table.columns[column][r.below(size)] = r.below(200) as u32,
        _ if size > 0 => table.columns[column][r.below(size)] ^= 1,
        _ => {}
    }
    table
}

/// A row, mostly one of a text.
fn text_row(r: &mut Random, table: &Table) -> Option<usize> {
    let texts: Vec<usize> = (0..table.count).filter(|&i| table.columns[1][i] >= 32 || r.chance(10)).collect();
    (!texts.is_empty()).then(|| texts[r.below(texts.len())])
}

/// A table with a decoded length changed: to none that a text may have, to another, or to the raw length.
fn changed_decoded(r: &mut Random, mut table: Table) -> Table {
    if let Some(i) = text_row(r, &table) {
        let size = table.columns[4][i] as usize;
        table.columns[5][i] = match r.below(8) {
            0 => 0,
            1 => size + 1 + r.below(3),
            2..=4 => size,
            _ => 1 + r.below(size.max(2) - 1),
        } as u32;
    }
    table
}

/// How many characters bytes stand for, if they are a text.
fn counted(part: &[u8]) -> usize {
    let times = |written: &str| part.windows(written.len()).filter(|w| *w == written.as_bytes()).count();
    part.len() - ENTITIES.iter().map(|(written, _)| times(written) * (written.len() - 1)).sum::<usize>()
}

/// A table with a text's row at other bytes, which begin or end within an entity or a tag now and then.
fn changed_part(r: &mut Random, mut table: Table, text: &[u8]) -> Table {
    let Some(i) = text_row(r, &table).filter(|&i| table.columns[4][i] > 0) else { return table };
    let (old, size) = (table.columns[3][i] as usize, table.columns[4][i] as usize);
    let start = (old + r.below(5)).saturating_sub(r.below(5));
    let end = (start + 1 + r.below(size + 5)).min(text.len());
    let part = &text[start.min(end)..end];
    let decoded = if r.chance(60) { counted(part) } else { 1 + r.below(part.len() + 1) };
    for (column, value) in [(3, start), (4, part.len()), (5, decoded)] {
        table.columns[column][i] = value as u32;
    }
    table
}

/// The text beside a table with a byte that fails 3 in one of the table's texts.
fn damaged_text(r: &mut Random, lent: &Lent) -> Vec<u8> {
    let mut text = lent.text.clone();
    let places: Vec<usize> = lent.rows.iter().flatten().filter(|row| row.size > 0).map(|row| row.start + r.below(row.size)).collect();
    if !places.is_empty() {
        text[places[r.below(places.len())]] = 0x7F;
    }
    text
}

impl Comparison<'_> {
    fn same(&mut self, call: &str, ours: &Left, theirs: &Left) {
        if ours != theirs {
            differs("inner", call, &self.input, &[], (&ours.result, &ours.cells), (&theirs.result, &theirs.cells));
        }
        self.seen.calls += 1;
        self.seen.note(format!("{call}: {}", ours.result[0]));
    }

    /// What the texts are that lie in the text beside a table and pass 3.
    fn parts(&mut self, lent: &Lent) {
        for row in lent.rows.iter().flatten().filter(|row| row.size > 0) {
            let Some(part) = lent.text.get(row.start..row.start + row.size).filter(|part| !part.contains(&0x7F)) else { continue };
            match characters(part) {
                _ if row.size == row.decoded && !has_entity(part) => {}
                _ if row.size == row.decoded && lent.inside => self.note(COPIED),
                Some(all) if all.len() == row.decoded && lent.inside => self.note(DECODED),
                Some(all) if all.len() != row.decoded && row.size != row.decoded => self.note(OTHER_LENGTH),
                None if row.size != row.decoded => self.note(NO_TEXT),
                _ => {}
            }
        }
    }

    fn note(&mut self, what: &str) {
        self.seen.note(what.to_string());
    }

    /// So many cells to lend for each of six columns; now and then one has a cell more.
    fn columns_lent(&mut self, rows: &Result<Vec<Row>, Refused>) -> [usize; 6] {
        let mut all = [cells_lent(self.r, rows.as_ref().map_or(0, Vec::len)); 6];
        if self.r.chance(4) {
            all[self.r.below(6)] += 1;
            self.note("columns of unequal length");
        }
        all
    }

    fn schema(&mut self) -> Record {
        let ours = in_bytes(records::schema_record(&self.input.schema), SCHEMA_CELLS);
        self.same("reading a schema", &ours, &functions::read_schema(&self.input.schema));
        record_left(&ours)
    }

    fn bundle(&mut self, schema: &Record) -> Record {
        let ours = in_bytes(records::bundle_record(schema, &self.input.bundle), BUNDLE_CELLS);
        self.same("reading a bundle", &ours, &functions::read_bundle(schema, &self.input.bundle));
        record_left(&ours)
    }

    fn needed(&mut self, records: &Records) -> u64 {
        let ours = records::needed_names(records);
        self.same("needed names", &ours, &functions::needed_names(records));
        match ours.result {
            [0, _, _, 0] => self.note("no name needed"),
            [0, ..] => self.note("names needed"),
            _ => self.note("records refused"),
        }
        ours.result[3]
    }

    fn journal(&mut self, records: &Records) -> Vec<Row> {
        let rows = records::journal_rows(records, &self.input.journal);
        let lent = self.columns_lent(&rows);
        self.same("reading a journal", &in_columns(&rows, lent), &functions::read_journal(records, &self.input.journal, lent));
        rows.unwrap_or_default()
    }

    fn cut(&mut self, records: &Records, whole: &Lent, word: u64) -> Vec<Row> {
        let rows = records::cut_rows(records, whole, word);
        let lent = self.columns_lent(&rows);
        self.same("cutting", &in_columns(&rows, lent), &functions::cut_table(records, &whole.table, word, lent));
        if rows.iter().flatten().any(|row| row.decoded != row.size) {
            self.note("a text of unequal lengths cut");
        }
        rows.unwrap_or_default()
    }

    fn written(&mut self, records: &Records, lent: &Lent) -> Vec<u8> {
        let bytes = records::extract_bytes(lent);
        let size = cells_lent(self.r, bytes.as_ref().map_or(5, |b| b.0.len()));
        self.same("writing an extract", &in_bytes(bytes.clone(), size), &functions::write_extract(records, lent, size));
        if bytes.is_ok() && lent.rows.iter().flatten().any(|row| row.decoded != row.size) {
            self.note("a text of unequal lengths written");
        }
        bytes.map_or(vec![3, 0, 2, 0, 0], |b| b.0)
    }

    fn read(&mut self, records: &Records, extract: &[u8]) -> Vec<Row> {
        let rows = records::extract_rows(records, extract);
        let lent = self.columns_lent(&rows);
        self.same("reading an extract", &in_columns(&rows, lent), &functions::read_extract(records, extract, lent));
        rows.unwrap_or_default()
    }

    fn select_at(&mut self, records: &Records, lent: &Lent, found: &Numbers, place: usize) {
        let asked = records::at_place(found, place);
        let (items, counts) = asked.as_ref().map_or((1, 1), |f| (f.iter().map(Vec::len).sum(), f.len()));
        let (items, counts) = (cells_lent(self.r, items), cells_lent(self.r, counts));
        self.same("selecting", &in_items(asked, items, counts), &functions::select_nodes(records, place, lent, items, counts));
    }

    /// All paths at once, and each alone; a place too many now and then.
    fn select(&mut self, records: &Records, lent: &Lent, found: &Numbers) {
        let places = found.as_ref().map_or(0, Vec::len);
        (0..=places).for_each(|place| self.select_at(records, lent, found, place));
        if self.r.chance(5) {
            self.note("a place past the last path");
            self.select_at(records, lent, found, places + 1);
        }
    }

    /// A row, one with a text now and then, or the position past the last one.
    fn position(&mut self, table: &Table) -> usize {
        let texts: Vec<usize> = (0..table.count).filter(|&i| table.columns[1].get(i).is_some_and(|&code| code >= 32)).collect();
        let position = match self.r.below(10) {
            0..=4 if !texts.is_empty() => texts[self.r.below(texts.len())],
            _ => self.r.below(table.count + 1),
        };
        if position == table.count {
            self.note("a position past the last row");
        }
        position
    }

    /// One row of a table, seldom where it has none.
    fn row(&mut self, records: &Records, lent: &Lent) {
        if lent.table.count == 0 && self.r.chance(90) {
            return;
        }
        let position = self.position(&lent.table);
        let text = records::row_text(lent, position);
        let size = text.as_ref().map_or(2, |t| t.0.len()) + self.r.below(3);
        if text.as_ref().is_ok_and(|t| !t.0.is_empty()) {
            self.note("a text handed back");
        }
        self.same("the text of a row", &in_text(text, size), &functions::row_text(records, lent, position, size));
        let chain = records::row_chain(records, lent, position);
        let size = cells_lent(self.r, chain.as_ref().map_or(2, |c| c.0.len()));
        self.same("the chain of a row", &in_bytes(chain, size), &functions::row_chain(records, lent, position, size));
    }

    /// An extract of the table, read with a fault and as it was written.
    fn extract(&mut self, records: &Records, lent: &Lent) -> Lent {
        let bytes = self.written(records, lent);
        let faulty = faults::extract(self.r, &bytes);
        self.read(records, &faulty);
        let rows = self.read(records, &bytes);
        Lent::new(records, table_of(self.r, &rows), &bytes)
    }

    fn lent(&mut self, records: &Records, rows: &[Row]) -> Lent {
        Lent::new(records, table_of(self.r, rows), &self.input.journal)
    }

    /// What is handed in is what readers hand back: each path selects the same nodes on the whole journal, on a cut to a larger set and on the extract.
    fn whole(&mut self, records: &Records) -> Lent {
        let needed = self.needed(records);
        let rows = self.journal(records);
        let whole = self.lent(records, &rows);
        let found = records::selections(records, &whole);
        self.select(records, &whole, &found);
        let percent = 10 + self.r.below(80);
        let (more, other) = (needed | random_set(self.r, percent), random_set(self.r, percent));
        let [kept, larger, _] = [needed, more, other].map(|word| self.cut(records, &whole, word));
        if !larger.is_empty() && larger.len() < rows.len() {
            self.note("a larger cut with fewer rows than its journal");
        }
        let (kept, larger) = (self.lent(records, &kept), self.lent(records, &larger));
        let read = self.extract(records, &kept);
        for lent in [&larger, &read] {
            assert!(records::selections(records, lent) == found, "{}", shown(&self.input.journal));
            self.select(records, lent, &found);
            self.row(records, lent);
        }
        self.row(records, &whole);
        self.seen.texts(rows.iter(), &self.input.journal);
        if let (Ok(paths), Ok(numbers)) = (&records.paths, &found) {
            paths.iter().zip(numbers).for_each(|(p, n)| self.seen.path(p, n.len()));
        }
        whole
    }

    /// Each function once, on records or a table that no reader may hand back.
    fn once(&mut self, records: &Records, lent: &Lent) {
        self.bundle(&records.schema);
        self.journal(records);
        let word = self.needed(records);
        self.cut(records, lent, word);
        self.extract(records, lent);
        self.select(records, lent, &records::selections(records, lent));
        self.row(records, lent);
    }

    /// A record with a fault, the schema's or the bundle's.
    fn with_damaged_record(&mut self, records: &Records, whole: &Lent) {
        let (mut schema, mut bundle) = (records.schema.clone(), records.bundle.clone());
        if self.r.chance(50) {
            schema = damaged_record(self.r, &schema, SCHEMA_CELLS);
        } else {
            bundle = damaged_record(self.r, &bundle, BUNDLE_CELLS);
        }
        let damaged = Records::new(schema, bundle);
        self.once(&damaged, &Lent::new(&damaged, whole.table.clone(), &whole.text));
    }

    /// A table that was changed, with a fault most often, or the text beside it.
    fn with_changed_table(&mut self, records: &Records, whole: &Lent) {
        let (mut table, mut text) = (whole.table.clone(), whole.text.clone());
        let mut refused = "a table refused";
        match self.r.below(12) {
            0..=3 => table = damaged_table(self.r, table),
            4..=6 => {
                table = changed_decoded(self.r, table);
                refused = "a decoded length refused";
            }
            7..=9 => table = changed_part(self.r, table, &text),
            _ => text = damaged_text(self.r, whole),
        }
        let lent = Lent::new(records, table, &text);
        if records.elements.is_ok() && lent.rows.is_err() {
            self.note(refused);
        }
        if lent.rows.is_ok() && !lent.inside {
            self.note("a text beside a table refused");
        }
        self.parts(&lent);
        self.once(records, &lent);
    }

    fn run(&mut self) {
        let schema = self.schema();
        let bundle = self.bundle(&schema);
        let records = Records::new(schema, bundle);
        let whole = self.whole(&records);
        if self.r.chance(15) {
            self.with_damaged_record(&records, &whole);
        }
        if self.r.chance(30) {
            self.with_changed_table(&records, &whole);
        }
    }
}

/// Both sides of two limits: the most nodes, and the longest journal.
fn compare_largest(r: &mut Random, seen: &mut Seen) {
    let (schema, bundle) = (b"<!ELEMENT a (b*)><!ELEMENT b EMPTY>".to_vec(), b"self::a\n".to_vec());
    let with_nodes = |count| format!("<a>{}</a>", "<b/>".repeat(count)).into_bytes();
    let with_bytes = |count| [b"<a></a>".to_vec(), vec![b' '; count - 7]].concat();
    for journal in [with_nodes(65_534), with_nodes(65_535), with_bytes(MAX_JOURNAL), with_bytes(MAX_JOURNAL + 1)] {
        let input = Input { schema: schema.clone(), bundle: bundle.clone(), journal };
        let mut c = Comparison { r: &mut *r, seen: &mut *seen, input };
        let records = Records::new(c.schema(), Record::default());
        c.journal(&records);
    }
}

/// A bundle with a name on a complete walk that the root does not reach inside the needed names (z), which random inputs hardly have.
fn unreached() -> Input {
    let schema = b"<!ELEMENT r (x|m)*><!ELEMENT m (z)*><!ELEMENT z (y|q)*><!ELEMENT y (a)*><!ELEMENT x (a|q)*><!ELEMENT a EMPTY><!ELEMENT q EMPTY>";
    let journal = b"<r><x><a/><q/></x><m><z><q/><y><a/></y></z></m></r>";
    Input { schema: schema.to_vec(), bundle: b"descendant::node()[child::q]/child::a/ancestor::z\n".to_vec(), journal: journal.to_vec() }
}

fn main() {
    let (seed, count) = arguments();
    let mut r = Random::new(seed);
    let mut seen = Seen::default();
    compare_largest(&mut r, &mut seen);
    Comparison { r: &mut r, seen: &mut seen, input: unreached() }.run();
    for _ in 0..count {
        let input = random_input(&mut r);
        Comparison { r: &mut r, seen: &mut seen, input }.run();
    }
    report("inner", &seen, count, wanted());
}
