//! Random texts and extracts with one fault each, so that every refusal comes.
use crate::bundle::AXES;
use crate::random::{damaged, Random};
use crate::schema::Schema;

/// A schema text for a valid one: as it is, or with a fault.
pub fn schema(r: &mut Random, valid: &[u8], s: &Schema) -> Vec<u8> {
    let first = String::from_utf8(s.names[0].clone()).unwrap();
    let with = |more: String| [valid, more.as_bytes()].concat();
    match r.below(100) {
        0..=1 => damaged(r, valid),
        2 => with(format!("<!ELEMENT {first} EMPTY>")),
        3 => with(format!("<!ELEMENT another ({first}, missing?)>")),
        4 => with((0..33 - s.names.len() + r.below(2)).map(|k| format!("<!ELEMENT more{k} EMPTY>")).collect()),
        5 => with(format!("<!ELEMENT another ({})>", vec![first; 63 + r.below(3)].join("|"))),
        6 => with(format!("<!ELEMENT another {}{first}{}>", "(".repeat(7 + r.below(3)), ")".repeat(9))),
        7 => with(format!("<!ELEMENT {} EMPTY>", "n".repeat(30 + r.below(4)))),
        8 => with(" ".repeat(8191 + r.below(3) - valid.len().min(8000))),
        9 if r.chance(30) => Vec::new(),
        _ => valid.to_vec(),
    }
}

/// A bundle text for a valid one.
pub fn bundle(r: &mut Random, valid: &str, s: &Schema) -> Vec<u8> {
    let first = String::from_utf8(s.names[0].clone()).unwrap();
    let with = |more: String| (valid.to_string() + &more).into_bytes();
    match r.below(100) {
        0..=3 => damaged(r, valid.as_bytes()),
        4 => with("child::missing\n".to_string()),
        5 => with("self::node()\n".repeat(1 + r.below(8))),
        6 => with(vec![format!("self::{first}"); 15 + r.below(3)].join("/") + "\n"),
        7 => with(format!("self::node()[{}]\n", vec!["child::node()"; 3 + r.below(3)].join(" or "))),
        8 => with(format!("self::node()[{}]\n", vec!["parent::node()"; 3 + r.below(3)].join("/"))),
        9 => with(format!("self::{}\n", "n".repeat(30 + r.below(3)))),
        10 if r.chance(30) => Vec::new(),
        11 if r.chance(30) => with("self::node()\n".repeat(330)),
        12 => with(vec!["descendant-or-self::node()"; 18 + r.below(3)].join("/") + "\n"),
        // of one axis, which may stand for several steps
        13 => with(vec![any_axis(r).to_string() + "node()"; 15 + r.below(3)].join("/") + "\n"),
        14 => with(format!("self::node()[{}]\n", vec![any_axis(r).to_string() + "node()"; 3 + r.below(3)].join("/"))),
        15..=16 => with(misspelt_axis(r) + "node()\n"),
        _ => valid.as_bytes().to_vec(),
    }
}

fn any_axis(r: &mut Random) -> &'static str {
    AXES[r.below(AXES.len())].0
}

/// The first bytes of an axis, then the rest of one, most often of another.
fn misspelt_axis(r: &mut Random) -> String {
    let (first, second) = (any_axis(r), any_axis(r));
    first[..r.below(first.len())].to_string() + &second[r.below(second.len())..]
}

/// A journal for a valid one, beside damage: too deep, empty, with a bare byte outside the root.
pub fn journal(r: &mut Random, valid: Vec<u8>, s: &Schema) -> Vec<u8> {
    let first = String::from_utf8(s.names[0].clone()).unwrap();
    let depth = 63 + r.below(4);
    match r.below(100) {
        0 => (format!("<{first}>").repeat(depth) + &format!("</{first}>").repeat(depth)).into_bytes(),
        1 => [valid, b"<missing/>".to_vec()].concat(),
        2 if r.chance(30) => Vec::new(),
        3 => [valid, b" &amp;".to_vec()].concat(),
        4 => (format!("<{first}>").repeat(depth) + "<missing/>").into_bytes(),
        _ => valid,
    }
}

/// The first bytes of the fields of an extract.
fn fields(extract: &[u8]) -> Vec<usize> {
    let (mut all, mut i) = (Vec::new(), 0);
    while i + 3 <= extract.len() {
        all.push(i);
        i += 3 + extract[i + 1] as usize * 256 + extract[i + 2] as usize;
    }
    all
}

/// An extract for one that was written: as it is, or with a fault.
pub fn extract(r: &mut Random, written: &[u8]) -> Vec<u8> {
    let starts = fields(written);
    let k = r.below(starts.len());
    let end = starts.get(k + 1).copied().unwrap_or(written.len());
    let (before, field, after) = (&written[..starts[k]], &written[starts[k]..end], &written[end..]);
    let mut one = written.to_vec();
    let place = r.below(one.len());
    match r.below(20) {
        0 => one[place] ^= 1 << r.below(8),
        1 => one[place] = r.below(256) as u8,
        2 => one.truncate(place),
        3 => one.push(r.below(4) as u8),
        4 => one = [before, after].concat(),
        5 => one = [before, field, field, after].concat(),
        6 => one = counted([before, after].concat(), -1),
        7 => one = counted([before, field, field, after].concat(), 1),
        8 => one = counted(written.to_vec(), if r.chance(50) { 1 } else { -1 }),
        9 if field.len() > 7 => one[starts[k] + 3 + r.below(5)] = r.below(12) as u8,
        10 if r.chance(10) => one.clear(),
        11..=12 if field.len() > 7 => one = counted([before, field, &numbered_next(field), after].concat(), 1),
        _ => {}
    }
    one
}

/// The same row with the next number: well formed where that is free, but for a second text.
fn numbered_next(field: &[u8]) -> Vec<u8> {
    let mut next = field.to_vec();
    let number = u16::from_be_bytes([field[3], field[4]]).wrapping_add(1);
    next[3..5].copy_from_slice(&number.to_be_bytes());
    next
}

/// The count in the last field changed by so much.
fn counted(mut extract: Vec<u8>, by: i32) -> Vec<u8> {
    let size = extract.len();
    if size >= 2 {
        let count = (extract[size - 2] as i32 * 256 + extract[size - 1] as i32 + by) as u16;
        extract[size - 2..].copy_from_slice(&count.to_be_bytes());
    }
    extract
}
