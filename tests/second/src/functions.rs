//! The functions for C of tests/functions, called on lent cells with guard cells on both sides.
use crate::cells::{Columns, Output};
use crate::records::{Left, Lent, Record, Records, Table, BUNDLE_CELLS, SCHEMA_CELLS};

#[repr(C)]
struct Outcome {
    number: u64,
    place: u64,
    size: u64,
    other: u64,
}

extern "C" {
    fn test_read_schema(text: *const u8, text_len: usize, out: *mut u8, out_len: usize) -> Outcome;
    fn test_read_bundle(schema: *const u8, schema_cells: usize, schema_len: usize, text: *const u8, text_len: usize, out: *mut u8, out_len: usize) -> Outcome;
    fn test_needed_names(schema: *const u8, schema_cells: usize, schema_len: usize, bundle: *const u8, bundle_cells: usize, bundle_len: usize) -> Outcome;
    fn test_read_journal(
        schema: *const u8, schema_cells: usize, schema_len: usize, text: *const u8, text_len: usize,
        numbers: *mut u16, numbers_len: usize, names: *mut u8, names_len: usize, parents: *mut u16, parents_len: usize,
        starts: *mut u32, starts_len: usize, lengths: *mut u16, lengths_len: usize, decoded: *mut u16, decoded_len: usize,
    ) -> Outcome;
    fn test_cut_table(
        schema: *const u8, schema_cells: usize, schema_len: usize,
        numbers: *const u16, numbers_len: usize, codes: *const u8, codes_len: usize, parents: *const u16, parents_len: usize,
        starts: *const u32, starts_len: usize, lengths: *const u16, lengths_len: usize, decoded: *const u16, decoded_len: usize,
        count: usize, word: u64,
        out_numbers: *mut u16, out_numbers_len: usize, out_names: *mut u8, out_names_len: usize, out_parents: *mut u16, out_parents_len: usize,
        out_starts: *mut u32, out_starts_len: usize, out_lengths: *mut u16, out_lengths_len: usize, out_decoded: *mut u16, out_decoded_len: usize,
    ) -> Outcome;
    fn test_select_nodes(
        schema: *const u8, schema_cells: usize, schema_len: usize, bundle: *const u8, bundle_cells: usize, bundle_len: usize, place: usize,
        numbers: *const u16, numbers_len: usize, codes: *const u8, codes_len: usize, parents: *const u16, parents_len: usize,
        starts: *const u32, starts_len: usize, lengths: *const u16, lengths_len: usize, decoded: *const u16, decoded_len: usize,
        count: usize, lent: *const u8, lent_len: usize, items: *mut u16, items_len: usize, counts: *mut u32, counts_len: usize,
    ) -> Outcome;
    fn test_write_extract(
        schema: *const u8, schema_cells: usize, schema_len: usize,
        numbers: *const u16, numbers_len: usize, codes: *const u8, codes_len: usize, parents: *const u16, parents_len: usize,
        starts: *const u32, starts_len: usize, lengths: *const u16, lengths_len: usize, decoded: *const u16, decoded_len: usize,
        count: usize, lent: *const u8, lent_len: usize, out: *mut u8, out_len: usize,
    ) -> Outcome;
    fn test_read_extract(
        schema: *const u8, schema_cells: usize, schema_len: usize, extract: *const u8, extract_len: usize,
        numbers: *mut u16, numbers_len: usize, names: *mut u8, names_len: usize, parents: *mut u16, parents_len: usize,
        starts: *mut u32, starts_len: usize, lengths: *mut u16, lengths_len: usize, decoded: *mut u16, decoded_len: usize,
    ) -> Outcome;
    // the decoded length as the place, where the text starts as the other number
    fn test_row_text(
        schema: *const u8, schema_cells: usize, schema_len: usize,
        numbers: *const u16, numbers_len: usize, codes: *const u8, codes_len: usize, parents: *const u16, parents_len: usize,
        starts: *const u32, starts_len: usize, lengths: *const u16, lengths_len: usize, decoded: *const u16, decoded_len: usize,
        count: usize, lent: *const u8, lent_len: usize, position: usize, out: *mut u8, out_len: usize,
    ) -> Outcome;
    fn test_row_chain(
        schema: *const u8, schema_cells: usize, schema_len: usize,
        numbers: *const u16, numbers_len: usize, codes: *const u8, codes_len: usize, parents: *const u16, parents_len: usize,
        starts: *const u32, starts_len: usize, lengths: *const u16, lengths_len: usize, decoded: *const u16, decoded_len: usize,
        count: usize, position: usize, out: *mut u8, out_len: usize,
    ) -> Outcome;
}

fn left(o: Outcome, cells: Vec<Vec<u32>>) -> Left {
    Left { result: [o.number, o.place, o.size, o.other], cells }
}

/// The columns of a table as they are handed in.
struct Handed {
    numbers: Vec<u16>,
    names: Vec<u8>,
    parents: Vec<u16>,
    starts: Vec<u32>,
    lengths: Vec<u16>,
    decoded: Vec<u16>,
}

fn narrow<T: TryFrom<u32>>(cells: &[u32]) -> Vec<T> {
    cells.iter().map(|&c| T::try_from(c).ok().expect("a value that fits its cell")).collect()
}

fn handed(table: &Table) -> Handed {
    let [numbers, names, parents, starts, lengths, decoded] = &table.columns;
    Handed {
        numbers: narrow(numbers),
        names: narrow(names),
        parents: narrow(parents),
        starts: starts.clone(),
        lengths: narrow(lengths),
        decoded: narrow(decoded),
    }
}

// In each call below a pointer is that of a slice, so it is aligned, not null, and has its length behind it; no two outputs overlap.

pub fn read_schema(text: &[u8]) -> Left {
    let mut out: Output<u8> = Output::new(SCHEMA_CELLS);
    let outcome = unsafe { test_read_schema(text.as_ptr(), text.len(), out.first(), out.size()) };
    left(outcome, vec![out.cells()])
}

pub fn read_bundle(schema: &Record, text: &[u8]) -> Left {
    let mut out: Output<u8> = Output::new(BUNDLE_CELLS);
    let outcome = unsafe { test_read_bundle(schema.bytes.as_ptr(), schema.bytes.len(), schema.len, text.as_ptr(), text.len(), out.first(), out.size()) };
    left(outcome, vec![out.cells()])
}

pub fn needed_names(records: &Records) -> Left {
    let (s, b) = (&records.schema, &records.bundle);
    left(unsafe { test_needed_names(s.bytes.as_ptr(), s.bytes.len(), s.len, b.bytes.as_ptr(), b.bytes.len(), b.len) }, Vec::new())
}

pub fn read_journal(records: &Records, text: &[u8], lent: [usize; 6]) -> Left {
    let (s, mut c) = (&records.schema, Columns::new(lent));
    let outcome = unsafe {
        test_read_journal(
            s.bytes.as_ptr(), s.bytes.len(), s.len, text.as_ptr(), text.len(),
            c.numbers.first(), c.numbers.size(), c.names.first(), c.names.size(), c.parents.first(), c.parents.size(),
            c.starts.first(), c.starts.size(), c.lengths.first(), c.lengths.size(), c.decoded.first(), c.decoded.size(),
        )
    };
    left(outcome, c.cells().to_vec())
}

pub fn cut_table(records: &Records, table: &Table, word: u64, lent: [usize; 6]) -> Left {
    let (s, h, mut c) = (&records.schema, handed(table), Columns::new(lent));
    let outcome = unsafe {
        test_cut_table(
            s.bytes.as_ptr(), s.bytes.len(), s.len,
            h.numbers.as_ptr(), h.numbers.len(), h.names.as_ptr(), h.names.len(), h.parents.as_ptr(), h.parents.len(),
            h.starts.as_ptr(), h.starts.len(), h.lengths.as_ptr(), h.lengths.len(), h.decoded.as_ptr(), h.decoded.len(),
            table.count, word,
            c.numbers.first(), c.numbers.size(), c.names.first(), c.names.size(), c.parents.first(), c.parents.size(),
            c.starts.first(), c.starts.size(), c.lengths.first(), c.lengths.size(), c.decoded.first(), c.decoded.size(),
        )
    };
    left(outcome, c.cells().to_vec())
}

pub fn select_nodes(records: &Records, place: usize, lent: &Lent, items: usize, counts: usize) -> Left {
    let (s, b, h) = (&records.schema, &records.bundle, handed(&lent.table));
    let (mut items, mut counts): (Output<u16>, Output<u32>) = (Output::new(items), Output::new(counts));
    let outcome = unsafe {
        test_select_nodes(
            s.bytes.as_ptr(), s.bytes.len(), s.len, b.bytes.as_ptr(), b.bytes.len(), b.len, place,
            h.numbers.as_ptr(), h.numbers.len(), h.names.as_ptr(), h.names.len(), h.parents.as_ptr(), h.parents.len(),
            h.starts.as_ptr(), h.starts.len(), h.lengths.as_ptr(), h.lengths.len(), h.decoded.as_ptr(), h.decoded.len(),
            lent.table.count, lent.text.as_ptr(), lent.text.len(), items.first(), items.size(), counts.first(), counts.size(),
        )
    };
    left(outcome, vec![items.cells(), counts.cells()])
}

pub fn write_extract(records: &Records, lent: &Lent, size: usize) -> Left {
    let (s, h, mut out) = (&records.schema, handed(&lent.table), Output::<u8>::new(size));
    let outcome = unsafe {
        test_write_extract(
            s.bytes.as_ptr(), s.bytes.len(), s.len,
            h.numbers.as_ptr(), h.numbers.len(), h.names.as_ptr(), h.names.len(), h.parents.as_ptr(), h.parents.len(),
            h.starts.as_ptr(), h.starts.len(), h.lengths.as_ptr(), h.lengths.len(), h.decoded.as_ptr(), h.decoded.len(),
            lent.table.count, lent.text.as_ptr(), lent.text.len(), out.first(), out.size(),
        )
    };
    left(outcome, vec![out.cells()])
}

pub fn read_extract(records: &Records, extract: &[u8], lent: [usize; 6]) -> Left {
    let (s, mut c) = (&records.schema, Columns::new(lent));
    let outcome = unsafe {
        test_read_extract(
            s.bytes.as_ptr(), s.bytes.len(), s.len, extract.as_ptr(), extract.len(),
            c.numbers.first(), c.numbers.size(), c.names.first(), c.names.size(), c.parents.first(), c.parents.size(),
            c.starts.first(), c.starts.size(), c.lengths.first(), c.lengths.size(), c.decoded.first(), c.decoded.size(),
        )
    };
    left(outcome, c.cells().to_vec())
}

pub fn row_text(records: &Records, lent: &Lent, position: usize, size: usize) -> Left {
    let (s, h, mut out) = (&records.schema, handed(&lent.table), Output::<u8>::new(size));
    let outcome = unsafe {
        test_row_text(
            s.bytes.as_ptr(), s.bytes.len(), s.len,
            h.numbers.as_ptr(), h.numbers.len(), h.names.as_ptr(), h.names.len(), h.parents.as_ptr(), h.parents.len(),
            h.starts.as_ptr(), h.starts.len(), h.lengths.as_ptr(), h.lengths.len(), h.decoded.as_ptr(), h.decoded.len(),
            lent.table.count, lent.text.as_ptr(), lent.text.len(), position, out.first(), out.size(),
        )
    };
    left(outcome, vec![out.cells()])
}

pub fn row_chain(records: &Records, lent: &Lent, position: usize, size: usize) -> Left {
    let (s, h, mut out) = (&records.schema, handed(&lent.table), Output::<u8>::new(size));
    let outcome = unsafe {
        test_row_chain(
            s.bytes.as_ptr(), s.bytes.len(), s.len,
            h.numbers.as_ptr(), h.numbers.len(), h.names.as_ptr(), h.names.len(), h.parents.as_ptr(), h.parents.len(),
            h.starts.as_ptr(), h.starts.len(), h.lengths.as_ptr(), h.lengths.len(), h.decoded.as_ptr(), h.decoded.len(),
            lent.table.count, position, out.first(), out.size(),
        )
    };
    left(outcome, vec![out.cells()])
}
