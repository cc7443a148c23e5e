//! The second implementation as a static library with the two functions of include/lozhymet.h: what is written in C can be tried on it before, and
//! beside, the proved one. Nothing here is proved.
#![allow(dead_code)]
mod bundle;
mod extract;
mod host;
mod journal;
mod needed;
mod schema;
mod table;
mod text;

use crate::host::{make_extract, select, Left, Lent};
use std::slice::{from_raw_parts, from_raw_parts_mut};

#[repr(C)]
pub struct Outcome {
    number: u64,
    place: u64,
    rows: u64,
    items: u64,
    counts: u64,
}

fn outcome(left: &Left) -> Outcome {
    let [number, place, rows, items, counts] = left.result;
    Outcome { number, place, rows, items, counts }
}

unsafe fn put<T: TryFrom<u32>>(cells: &[u32], to: *mut T, size: usize) {
    for (cell, &value) in from_raw_parts_mut(to, size).iter_mut().zip(cells) {
        *cell = T::try_from(value).ok().expect("a value that fits its cell");
    }
}

/// # Safety
/// As include/lozhymet.h says.
#[no_mangle]
pub unsafe extern "C" fn host_make_extract(
    schema: *const u8, schema_len: usize, bundle: *const u8, bundle_len: usize, journal: *const u8, journal_len: usize,
    numbers: *mut u16, numbers_len: usize, names: *mut u8, names_len: usize, parents: *mut u16, parents_len: usize,
    starts: *mut u32, starts_len: usize, lengths: *mut u16, lengths_len: usize, decoded: *mut u16, decoded_len: usize, out: *mut u8, out_len: usize,
) -> Outcome {
    let lent = Lent { columns: [numbers_len, names_len, parents_len, starts_len, lengths_len, decoded_len], items: out_len, counts: 0 };
    let left = make_extract(from_raw_parts(schema, schema_len), from_raw_parts(bundle, bundle_len), from_raw_parts(journal, journal_len), &lent);
    put(&left.cells[0], numbers, numbers_len);
    put(&left.cells[1], names, names_len);
    put(&left.cells[2], parents, parents_len);
    put(&left.cells[3], starts, starts_len);
    put(&left.cells[4], lengths, lengths_len);
    put(&left.cells[5], decoded, decoded_len);
    put(&left.cells[6], out, out_len);
    outcome(&left)
}

/// # Safety
/// As include/lozhymet.h says.
#[no_mangle]
pub unsafe extern "C" fn host_select(
    schema: *const u8, schema_len: usize, bundle: *const u8, bundle_len: usize, place: usize, extract: *const u8, extract_len: usize,
    numbers: *mut u16, numbers_len: usize, names: *mut u8, names_len: usize, parents: *mut u16, parents_len: usize,
    starts: *mut u32, starts_len: usize, lengths: *mut u16, lengths_len: usize, decoded: *mut u16, decoded_len: usize,
    items: *mut u16, items_len: usize, counts: *mut u32, counts_len: usize,
) -> Outcome {
    let lent = Lent { columns: [numbers_len, names_len, parents_len, starts_len, lengths_len, decoded_len], items: items_len, counts: counts_len };
    let left = select(from_raw_parts(schema, schema_len), from_raw_parts(bundle, bundle_len), place, from_raw_parts(extract, extract_len), &lent);
    put(&left.cells[0], numbers, numbers_len);
    put(&left.cells[1], names, names_len);
    put(&left.cells[2], parents, parents_len);
    put(&left.cells[3], starts, starts_len);
    put(&left.cells[4], lengths, lengths_len);
    put(&left.cells[5], decoded, decoded_len);
    put(&left.cells[6], items, items_len);
    put(&left.cells[7], counts, counts_len);
    outcome(&left)
}
