//! The two functions for C: what they answer, and what they leave in lent cells.
use crate::bundle::{read_bundle, Path};
use crate::extract::{read_extract, write_extract};
use crate::journal::read_journal;
use crate::needed::bundle_needs;
use crate::schema::read_schema;
use crate::table::{cut, selected, Row};
use crate::text::{refused, Refused};

const MAX_JOURNAL: usize = 1_048_576;
const MAX_PATHS: usize = 8;

/// How many cells are lent: for each of the six columns, for items and for counts.
#[derive(Clone, Copy, Debug)]
pub struct Lent {
    pub columns: [usize; 6],
    pub items: usize,
    pub counts: usize,
}

/// The result, and each output whole: the six columns, items, counts.
#[derive(Clone, Debug, PartialEq, Eq)]
pub struct Left {
    pub result: [u64; 5],
    pub cells: [Vec<u32>; 8],
}

struct Answer {
    rows: Vec<Row>,
    items: Vec<u32>,
    counts: Vec<u32>,
}

fn equal_columns(lent: &Lent) -> Result<(), Refused> {
    if lent.columns.iter().all(|&c| c == lent.columns[0]) {
        Ok(())
    } else {
        Err(refused(1, 0))
    }
}

fn filled(cells: impl Iterator<Item = u32>, lent: usize) -> Vec<u32> {
    let mut all: Vec<u32> = cells.collect();
    all.resize(lent, 0);
    all
}

fn left(answer: Result<Answer, Refused>, lent: &Lent) -> Left {
    let [numbers, names, parents, starts, lengths, decoded] = lent.columns;
    let sizes = [numbers, names, parents, starts, lengths, decoded, lent.items, lent.counts];
    let small = |a: &Answer| lent.columns[0] < a.rows.len() || lent.items < a.items.len() || lent.counts < a.counts.len();
    match answer.and_then(|a| if small(&a) { Err(refused(18, 0)) } else { Ok(a) }) {
        Err(r) => Left { result: [r.number as u64, r.place as u64, 0, 0, 0], cells: sizes.map(|n| vec![0; n]) },
        Ok(a) => {
            let column = |cell: fn(&Row) -> usize, n| filled(a.rows.iter().map(|r| cell(r) as u32), n);
            Left {
                result: [0, 0, a.rows.len() as u64, a.items.len() as u64, a.counts.len() as u64],
                cells: [
                    column(|r| r.number, sizes[0]),
                    column(|r| r.name.code() as usize, sizes[1]),
                    column(|r| r.parent, sizes[2]),
                    column(|r| r.start, sizes[3]),
                    column(|r| r.size, sizes[4]),
                    column(|r| r.decoded, sizes[5]),
                    filled(a.items.into_iter(), sizes[6]),
                    filled(a.counts.into_iter(), sizes[7]),
                ],
            }
        }
    }
}

fn made(schema: &[u8], bundle: &[u8], journal: &[u8], lent: &Lent) -> Result<Answer, Refused> {
    equal_columns(lent)?;
    let s = read_schema(schema)?;
    let paths = read_bundle(&s, bundle)?;
    let rows = read_journal(&s, journal, MAX_JOURNAL)?;
    let bytes = write_extract(&cut(&rows, &bundle_needs(&s, &paths)), journal);
    Ok(Answer { rows, items: bytes.into_iter().map(u32::from).collect(), counts: Vec::new() })
}

pub fn make_extract(schema: &[u8], bundle: &[u8], journal: &[u8], lent: &Lent) -> Left {
    left(made(schema, bundle, journal, lent), lent)
}

fn answered(schema: &[u8], bundle: &[u8], place: usize, extract: &[u8], lent: &Lent) -> Result<Answer, Refused> {
    equal_columns(lent)?;
    let paths = read_schema(schema).and_then(|s| read_bundle(&s, bundle));
    if place > paths.as_ref().map_or(MAX_PATHS, Vec::len) {
        return Err(refused(1, 0));
    }
    let asked: Vec<Path> = paths?.into_iter().enumerate().filter(|(k, _)| place == 0 || k + 1 == place).map(|x| x.1).collect();
    let rows = read_extract(&read_schema(schema)?, extract)?;
    let found: Vec<Vec<usize>> = asked.iter().map(|p| selected(&rows, p)).collect();
    let items = found.iter().flatten().map(|&i| rows[i].number as u32).collect();
    let counts = found.iter().map(|f| f.len() as u32).collect();
    Ok(Answer { rows, items, counts })
}

pub fn select(schema: &[u8], bundle: &[u8], place: usize, extract: &[u8], lent: &Lent) -> Left {
    left(answered(schema, bundle, place, extract, lent), lent)
}
