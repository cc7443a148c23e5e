//! Extracts: fields of a tag, a length and a value.
use crate::schema::{Name, Schema};
use crate::table::{row_characters, texts_inside, well_formed, Row};
use crate::text::{refused, Refused};

fn field(out: &mut Vec<u8>, tag: u8, value: &[u8]) {
    out.push(tag);
    out.extend((value.len() as u16).to_be_bytes());
    out.extend(value);
}

pub fn write_extract(rows: &[Row], text: &[u8]) -> Vec<u8> {
    let mut out = Vec::new();
    for r in rows {
        let mut value = (r.number as u16).to_be_bytes().to_vec();
        value.extend((rows[r.parent].number as u16).to_be_bytes());
        match r.name {
            Name::Element(e) => {
                value.push(e as u8);
                field(&mut out, 1, &value);
            }
            Name::Text(_) => {
                value.extend(row_characters(r, text).unwrap());
                field(&mut out, 2, &value);
            }
        }
    }
    field(&mut out, 3, &(rows.len() as u16).to_be_bytes());
    out
}

fn number(b: &[u8]) -> usize {
    b.iter().fold(0, |n, &b| n * 256 + b as usize)
}

/// The rows, where the fields are in order; whether they are a well-formed table is judged after. Both lengths of a text are that of its bytes, which
/// are not decoded again.
fn rows_of(bytes: &[u8]) -> Option<Vec<Row>> {
    let mut rows: Vec<Row> = Vec::new();
    let mut i = 0;
    loop {
        let size = number(bytes.get(i + 1..i + 3)?);
        let value = bytes.get(i + 3..i + 3 + size)?;
        match (bytes[i], size) {
            (3, 2) => return (i + 5 == bytes.len() && number(value) == rows.len()).then_some(rows),
            (1, 5) | (2, 5..) => {
                let parent = if rows.is_empty() {
                    if number(&value[2..4]) != 0 { return None } else { 0 }
                } else {
                    rows.iter().position(|r| r.number == number(&value[2..4]))?
                };
                let (name, start, size) = if bytes[i] == 1 {
                    (Name::of_code(value[4] as u32).filter(|n| matches!(n, Name::Element(_)))?, 0, 0)
                } else {
                    match rows.get(parent)?.name {
                        Name::Element(e) => (Name::Text(e), i + 7, size - 4),
                        Name::Text(_) => return None,
                    }
                };
                rows.push(Row { number: number(&value[..2]), name, parent, start, size, decoded: size });
            }
            _ => return None,
        }
        i += 3 + size;
    }
}

pub fn read_extract(schema: &Schema, bytes: &[u8]) -> Result<Vec<Row>, Refused> {
    if bytes.is_empty() {
        return Err(refused(2, 0));
    }
    match rows_of(bytes) {
        Some(rows) if well_formed(schema, &rows) && texts_inside(&rows, bytes) => Ok(rows),
        _ => Err(refused(17, 0)),
    }
}
