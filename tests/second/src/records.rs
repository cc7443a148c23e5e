//! The public functions over records and tables that are handed in: what they answer, and what they leave in lent cells.
use crate::bundle::{read_bundle, Path};
use crate::extract::{read_extract, write_extract};
use crate::journal::read_journal;
use crate::needed::{bits, bundle_needs};
use crate::schema::{read_schema, Content, Name, Names, Particle, Schema};
use crate::table::{chain, cut, selected, texts_inside, well_formed, Row};
use crate::text::{refused, Refused};

pub const SCHEMA_CELLS: usize = 8192;
pub const BUNDLE_CELLS: usize = 4104;
const MAX_JOURNAL: usize = 1_048_576;

/// Refusal 1.
const NO_RECORD: Refused = Refused { number: 1, place: 0 };

/// A schema's or a bundle's record: its first cells, 0 after them, and its length.
#[derive(Clone, Debug, Default)]
pub struct Record {
    pub bytes: Vec<u8>,
    pub len: usize,
}

impl Record {
    /// The text that it holds; the cells past that are 0.
    fn text(&self) -> Result<&[u8], Refused> {
        let text = self.bytes.get(..self.len).ok_or(NO_RECORD)?;
        self.bytes[self.len..].iter().all(|&b| b == 0).then_some(text).ok_or(NO_RECORD)
    }
}

/// A particle without blanks.
fn written(p: &Particle<usize>, names: &[Vec<u8>]) -> String {
    let joined = |ps: &[Particle<usize>], by: &str| format!("({})", ps.iter().map(|p| written(p, names)).collect::<Vec<_>>().join(by));
    match p {
        Particle::Named(e) => String::from_utf8_lossy(&names[*e]).into_owned(),
        Particle::Sequence(ps) => joined(ps, ","),
        Particle::Choice(ps) => joined(ps, "|"),
        Particle::Optional(p) => written(p, names) + "?",
        Particle::Any(p) => written(p, names) + "*",
        Particle::Many(p) => written(p, names) + "+",
    }
}

/// What a schema's record holds: the declarations with only the blanks that production 45 requires.
fn normal(s: &Schema) -> Vec<u8> {
    let content = |e: usize| match &s.contents[e] {
        Content::Empty => "EMPTY".to_string(),
        Content::Characters => "(#PCDATA)".to_string(),
        Content::Children(p) => written(p, &s.names),
    };
    (0..s.names.len()).flat_map(|e| format!("<!ELEMENT {} {}>", String::from_utf8_lossy(&s.names[e]), content(e)).into_bytes()).collect()
}

pub fn schema_held(record: &Record) -> Result<Schema, Refused> {
    let text = record.text()?;
    read_schema(text).ok().filter(|s| normal(s) == text).ok_or(NO_RECORD)
}

/// The records that are handed in, and what they hold.
pub struct Records {
    pub schema: Record,
    pub bundle: Record,
    pub elements: Result<Schema, Refused>,
    pub paths: Result<Vec<Path>, Refused>,
}

impl Records {
    pub fn new(schema: Record, bundle: Record) -> Records {
        let elements = schema_held(&schema);
        let paths = match (&elements, bundle.text()) {
            (Ok(s), Ok(text)) => read_bundle(s, text).map_err(|_| NO_RECORD),
            _ => Err(NO_RECORD),
        };
        Records { schema, bundle, elements, paths }
    }

    fn elements(&self) -> Result<&Schema, Refused> {
        self.elements.as_ref().map_err(|r| *r)
    }

    fn paths(&self) -> Result<&Vec<Path>, Refused> {
        self.paths.as_ref().map_err(|r| *r)
    }
}

/// A table that is handed in: six columns, and how many rows of them count.
#[derive(Clone, Debug)]
pub struct Table {
    pub columns: [Vec<u32>; 6],
    pub count: usize,
}

fn columns_of(rows: &[Row]) -> [Vec<u32>; 6] {
    let cells: [fn(&Row) -> usize; 6] = [|r| r.number, |r| r.name.code() as usize, |r| r.parent, |r| r.start, |r| r.size, |r| r.decoded];
    cells.map(|cell| rows.iter().map(|r| cell(r) as u32).collect())
}

impl Table {
    pub fn of(rows: &[Row]) -> Table {
        Table { columns: columns_of(rows), count: rows.len() }
    }

    fn rows(&self) -> Option<Vec<Row>> {
        let [numbers, names, parents, starts, lengths, decoded] = &self.columns;
        if self.count > numbers.len() || self.columns.iter().any(|c| c.len() != numbers.len()) {
            return None;
        }
        let row = |i: usize| {
            let cell = |column: &Vec<u32>| column[i] as usize;
            let name = Name::of_code(names[i])?;
            Some(Row { number: cell(numbers), name, parent: cell(parents), start: cell(starts), size: cell(lengths), decoded: cell(decoded) })
        };
        (0..self.count).map(row).collect()
    }
}

/// A table with the text that is lent beside it, and its rows.
pub struct Lent {
    pub table: Table,
    pub text: Vec<u8>,
    pub rows: Result<Vec<Row>, Refused>,
    /// Whether its texts lie inside, in bytes that pass 3, and are journal texts of their decoded lengths where their lengths are unequal.
    pub inside: bool,
}

impl Lent {
    pub fn new(records: &Records, table: Table, text: &[u8]) -> Lent {
        let rows = records.elements().and_then(|s| table.rows().filter(|rows| well_formed(s, rows)).ok_or(NO_RECORD));
        let inside = rows.as_ref().is_ok_and(|rows| texts_inside(rows, text));
        Lent { table, text: text.to_vec(), rows, inside }
    }

    fn rows(&self) -> Result<&Vec<Row>, Refused> {
        self.rows.as_ref().map_err(|r| *r)
    }

    /// The rows, where the text is that of the table.
    fn beside(&self) -> Result<&Vec<Row>, Refused> {
        if self.inside {
            self.rows()
        } else {
            Err(NO_RECORD)
        }
    }
}

/// The result of a call, four numbers, and each lent output whole.
#[derive(Clone, Debug, PartialEq, Eq)]
pub struct Left {
    pub result: [u64; 4],
    pub cells: Vec<Vec<u32>>,
}

/// How many cells are answered, a second number, and the cells of each output.
struct Given {
    size: usize,
    other: u64,
    outputs: Vec<Vec<u32>>,
}

/// What is left in so many lent cells: an answer and then zeros, or zeros alone.
fn left(given: Result<Given, Refused>, lent: &[usize]) -> Left {
    let fits = |g: &Given| g.outputs.iter().zip(lent).all(|(cells, &n)| cells.len() <= n);
    match given.and_then(|g| if fits(&g) { Ok(g) } else { Err(refused(18, 0)) }) {
        Err(r) => Left { result: [r.number as u64, r.place as u64, 0, 0], cells: lent.iter().map(|&n| vec![0; n]).collect() },
        Ok(mut g) => {
            g.outputs.iter_mut().zip(lent).for_each(|(cells, &n)| cells.resize(n, 0));
            Left { result: [0, 0, g.size as u64, g.other], cells: g.outputs }
        }
    }
}

/// Rows in lent columns, which are of one length.
pub fn in_columns(rows: &Result<Vec<Row>, Refused>, lent: [usize; 6]) -> Left {
    if lent.iter().any(|&n| n != lent[0]) {
        return left(Err(NO_RECORD), &lent);
    }
    left(rows.clone().map(|rows| Given { size: rows.len(), other: 0, outputs: columns_of(&rows).to_vec() }), &lent)
}

/// Bytes in lent cells, with a second number.
pub fn in_bytes(bytes: Result<(Vec<u8>, u64), Refused>, lent: usize) -> Left {
    left(bytes.map(|(b, other)| Given { size: b.len(), other, outputs: vec![b.into_iter().map(u32::from).collect()] }), &[lent])
}

/// What the paths at the places asked for select, in lent items and counts.
pub fn in_items(found: Result<Vec<Vec<u32>>, Refused>, items: usize, counts: usize) -> Left {
    let given = |found: Vec<Vec<u32>>| {
        let (items, counts) = (found.concat(), found.iter().map(|f| f.len() as u32).collect());
        Given { size: items.len(), other: found.len() as u64, outputs: vec![items, counts] }
    };
    left(found.map(given), &[items, counts])
}

/// The record of a schema text, and the number of elements.
pub fn schema_record(text: &[u8]) -> Result<(Vec<u8>, u64), Refused> {
    read_schema(text).map(|s| (normal(&s), s.names.len() as u64))
}

/// The record of a bundle text, and the number of paths.
pub fn bundle_record(schema: &Record, text: &[u8]) -> Result<(Vec<u8>, u64), Refused> {
    read_bundle(&schema_held(schema)?, text).map(|paths| (text.to_vec(), paths.len() as u64))
}

pub fn needed_names(records: &Records) -> Left {
    let needed = records.elements().and_then(|s| records.paths().map(|paths| bits(&bundle_needs(s, paths))));
    left(needed.map(|other| Given { size: 0, other, outputs: Vec::new() }), &[])
}

pub fn journal_rows(records: &Records, text: &[u8]) -> Result<Vec<Row>, Refused> {
    read_journal(records.elements()?, text, MAX_JOURNAL)
}

/// Bits without a name mean nothing.
pub fn cut_rows(records: &Records, lent: &Lent, word: u64) -> Result<Vec<Row>, Refused> {
    let s = records.elements()?;
    let set: Names = (0..64).filter(|code| word >> code & 1 == 1).filter_map(Name::of_code).filter(|&n| s.has(n)).collect();
    lent.rows().map(|rows| cut(rows, &set))
}

pub fn extract_bytes(lent: &Lent) -> Result<(Vec<u8>, u64), Refused> {
    lent.beside().map(|rows| (write_extract(rows, &lent.text), 0))
}

pub fn extract_rows(records: &Records, extract: &[u8]) -> Result<Vec<Row>, Refused> {
    read_extract(records.elements()?, extract)
}

/// The numbers of the nodes that each path selects.
pub fn selections(records: &Records, lent: &Lent) -> Result<Vec<Vec<u32>>, Refused> {
    let (paths, rows) = (records.paths()?, lent.beside()?);
    Ok(paths.iter().map(|p| selected(rows, p).into_iter().map(|i| rows[i].number as u32).collect()).collect())
}

/// Those of the path at a place, counted from 1, or of all paths for 0.
pub fn at_place(found: &Result<Vec<Vec<u32>>, Refused>, place: usize) -> Result<Vec<Vec<u32>>, Refused> {
    match (found, place) {
        (Ok(found), 1..) => found.get(place - 1).map(|f| vec![f.clone()]).ok_or(NO_RECORD),
        _ => found.clone(),
    }
}

/// The text of a row as it is written, where it starts, and its decoded length.
pub fn row_text(lent: &Lent, position: usize) -> Result<(Vec<u8>, u64, u64), Refused> {
    let row = lent.beside()?.get(position).ok_or(NO_RECORD)?;
    Ok((lent.text[row.start..row.start + row.size].to_vec(), row.start as u64, row.decoded as u64))
}

/// The same in lent cells, with the decoded length at the place of a refusal's place.
pub fn in_text(text: Result<(Vec<u8>, u64, u64), Refused>, lent: usize) -> Left {
    let decoded = text.as_ref().map_or(0, |t| t.2);
    let mut all = in_bytes(text.map(|(bytes, start, _)| (bytes, start)), lent);
    if all.result[0] == 0 {
        all.result[1] = decoded;
    }
    all
}

pub fn row_chain(records: &Records, lent: &Lent, position: usize) -> Result<(Vec<u8>, u64), Refused> {
    let (s, rows) = (records.elements()?, lent.rows()?);
    if position < rows.len() {
        Ok((chain(s, rows, position), 0))
    } else {
        Err(NO_RECORD)
    }
}
