//! Tables of rows: what is well formed, cutting, selecting, chains of tags.
use crate::bundle::{Axis, Path, Step, Test};
use crate::journal::characters;
use crate::schema::{Name, Names, Schema};
use crate::text::is_foreign;
use std::collections::HashSet;

#[derive(Clone, Debug, PartialEq, Eq)]
pub struct Row {
    pub number: usize,
    pub name: Name,
    pub parent: usize,
    pub start: usize,
    pub size: usize,
    pub decoded: usize,
}

/// The rows above row i, nearest first; row 0 has none.
pub fn above(rows: &[Row], i: usize) -> Vec<usize> {
    let mut all = Vec::new();
    let mut k = i;
    while k > 0 && all.len() <= rows.len() {
        k = rows[k].parent;
        all.push(k);
    }
    all
}

fn later_fits(schema: &Schema, rows: &[Row], i: usize) -> bool {
    let (r, before) = (&rows[i], &rows[i - 1]);
    if r.number <= before.number || r.number > 65_534 || r.parent >= i {
        return false;
    }
    if r.parent != i - 1 && !above(rows, i - 1).contains(&r.parent) {
        return false;
    }
    let depth = above(rows, i).len() + matches!(r.name, Name::Element(_)) as usize;
    schema.holds(rows[r.parent].name, r.name)
        && depth <= 64
        && match r.name {
            Name::Element(_) => (r.start, r.size, r.decoded) == (0, 0, 0),
            Name::Text(_) => {
                (1..=4096).contains(&r.size)
                    && (1..=r.size).contains(&r.decoded)
                    && !rows[1..i].iter().any(|z| matches!(z.name, Name::Text(_)) && z.parent == r.parent)
            }
        }
}

pub fn well_formed(schema: &Schema, rows: &[Row]) -> bool {
    rows.first().is_none_or(|r| *r == Row { number: 0, name: Name::Element(0), parent: 0, start: 0, size: 0, decoded: 0 })
        && (1..rows.len()).all(|i| later_fits(schema, rows, i))
}

/// What a text row stands for beside its text (document 02, R-2): the bytes themselves where its two lengths are equal, else the characters of one
/// journal text, as many as its decoded length. None where there is no such thing, or a byte fails 3.
pub fn row_characters(row: &Row, text: &[u8]) -> Option<Vec<u8>> {
    let part = text.get(row.start..row.start + row.size).filter(|part| !part.iter().any(|&b| is_foreign(b)))?;
    if row.size == row.decoded {
        return Some(part.to_vec());
    }
    characters(part).filter(|all| all.len() == row.decoded)
}

/// Each text row stands for something in the text.
pub fn texts_inside(rows: &[Row], text: &[u8]) -> bool {
    rows.iter().filter(|r| matches!(r.name, Name::Text(_))).all(|r| row_characters(r, text).is_some())
}

pub fn cut(rows: &[Row], set: &Names) -> Vec<Row> {
    let kept: Vec<usize> = (0..rows.len()).filter(|&i| set.contains(&rows[i].name) && above(rows, i).iter().all(|&k| set.contains(&rows[k].name))).collect();
    let place = |i: usize| kept.iter().position(|&k| k == i).unwrap();
    kept.iter().map(|&i| Row { parent: place(rows[i].parent), ..rows[i].clone() }).collect()
}

/// Whether y is on the axis from x. Rows stand in document order, so that a later row is one after it in that order.
fn on_axis(rows: &[Row], axis: Axis, x: usize, y: usize) -> bool {
    let is_above = |a: usize, b: usize| above(rows, b).contains(&a);
    let siblings = || x > 0 && y > 0 && rows[x].parent == rows[y].parent;
    match axis {
        Axis::SelfAxis => x == y,
        Axis::Child => above(rows, y).first() == Some(&x),
        Axis::Descendant => is_above(x, y),
        Axis::DescendantOrSelf => x == y || is_above(x, y),
        Axis::Parent => above(rows, x).first() == Some(&y),
        Axis::Ancestor => is_above(y, x),
        Axis::AncestorOrSelf => x == y || is_above(y, x),
        Axis::Following => y > x && !is_above(x, y),
        Axis::FollowingSibling => y > x && siblings(),
        Axis::Preceding => y < x && !is_above(y, x),
        Axis::PrecedingSibling => y < x && siblings(),
    }
}

pub fn passes(test: &Test<usize>, name: Name) -> bool {
    match test {
        Test::Node => true,
        Test::Text => matches!(name, Name::Text(_)),
        Test::Element(e) => name == Name::Element(*e),
    }
}

fn walked(rows: &[Row], from: &HashSet<usize>, steps: &[Step<usize>]) -> HashSet<usize> {
    let mut at = from.clone();
    for s in steps {
        at = (0..rows.len())
            .filter(|&y| passes(&s.test, rows[y].name) && at.iter().any(|&x| on_axis(rows, s.axis, x, y)))
            .filter(|&y| match &s.condition {
                None => true,
                Some(alternatives) => alternatives.iter().any(|a| !walked(rows, &HashSet::from([y]), a).is_empty()),
            })
            .collect();
    }
    at
}

/// The rows that a path selects, in document order.
pub fn selected(rows: &[Row], path: &Path) -> Vec<usize> {
    if rows.is_empty() {
        return Vec::new();
    }
    let mut all: Vec<usize> = walked(rows, &HashSet::from([0]), path).into_iter().collect();
    all.sort();
    all
}

pub fn chain(schema: &Schema, rows: &[Row], i: usize) -> Vec<u8> {
    let mut line = above(rows, i);
    line.reverse();
    line.push(i);
    line.iter()
        .flat_map(|&k| match rows[k].name {
            Name::Element(e) => [b"/", schema.names[e].as_slice()].concat(),
            Name::Text(_) => b"/text()".to_vec(),
        })
        .collect()
}
