//! The two functions of the static library that is compared, called on lent cells with guard cells on both sides.
use crate::cells::{Columns, Output};
use crate::host::{Left, Lent};

#[repr(C)]
struct Outcome {
    number: u64,
    place: u64,
    rows: u64,
    items: u64,
    counts: u64,
}

extern "C" {
    fn host_make_extract(
        schema: *const u8, schema_len: usize, bundle: *const u8, bundle_len: usize, journal: *const u8, journal_len: usize,
        numbers: *mut u16, numbers_len: usize, names: *mut u8, names_len: usize, parents: *mut u16, parents_len: usize,
        starts: *mut u32, starts_len: usize, lengths: *mut u16, lengths_len: usize, decoded: *mut u16, decoded_len: usize, out: *mut u8, out_len: usize,
    ) -> Outcome;
    fn host_select(
        schema: *const u8, schema_len: usize, bundle: *const u8, bundle_len: usize, place: usize, extract: *const u8, extract_len: usize,
        numbers: *mut u16, numbers_len: usize, names: *mut u8, names_len: usize, parents: *mut u16, parents_len: usize,
        starts: *mut u32, starts_len: usize, lengths: *mut u16, lengths_len: usize, decoded: *mut u16, decoded_len: usize,
        items: *mut u16, items_len: usize, counts: *mut u32, counts_len: usize,
    ) -> Outcome;
}

fn left(c: &Columns, o: Outcome, items: Vec<u32>, counts: Vec<u32>) -> Left {
    let [numbers, names, parents, starts, lengths, decoded] = c.cells();
    Left { result: [o.number, o.place, o.rows, o.items, o.counts], cells: [numbers, names, parents, starts, lengths, decoded, items, counts] }
}

pub fn make_extract(schema: &[u8], bundle: &[u8], journal: &[u8], lent: &Lent) -> Left {
    let mut c = Columns::new(lent.columns);
    let mut out: Output<u8> = Output::new(lent.items);
    // each pointer is that of a slice, so it is aligned, not null, and has its length behind it; no two outputs overlap
    let outcome = unsafe {
        host_make_extract(
            schema.as_ptr(), schema.len(), bundle.as_ptr(), bundle.len(), journal.as_ptr(), journal.len(),
            c.numbers.first(), c.numbers.size(), c.names.first(), c.names.size(), c.parents.first(), c.parents.size(),
            c.starts.first(), c.starts.size(), c.lengths.first(), c.lengths.size(), c.decoded.first(), c.decoded.size(), out.first(), out.size(),
        )
    };
    left(&c, outcome, out.cells(), Vec::new())
}

pub fn select(schema: &[u8], bundle: &[u8], place: usize, extract: &[u8], lent: &Lent) -> Left {
    let mut c = Columns::new(lent.columns);
    let (mut items, mut counts): (Output<u16>, Output<u32>) = (Output::new(lent.items), Output::new(lent.counts));
    // as above
    let outcome = unsafe {
        host_select(
            schema.as_ptr(), schema.len(), bundle.as_ptr(), bundle.len(), place, extract.as_ptr(), extract.len(),
            c.numbers.first(), c.numbers.size(), c.names.first(), c.names.size(), c.parents.first(), c.parents.size(),
            c.starts.first(), c.starts.size(), c.lengths.first(), c.lengths.size(), c.decoded.first(), c.decoded.size(),
            items.first(), items.size(), counts.first(), counts.size(),
        )
    };
    left(&c, outcome, items.cells(), counts.cells())
}
