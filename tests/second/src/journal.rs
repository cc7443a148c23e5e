//! Journals: tokens, a tree of elements, and its rows.
use crate::schema::{Content, Name, Schema};
use crate::table::Row;
use crate::text::*;

const MAX_DEPTH: usize = 64;
const MAX_NODES: usize = 65_535;
const MAX_TEXT: usize = 4096;

enum Token<'a> {
    Start(&'a [u8], usize),
    Empty(&'a [u8], usize),
    End(&'a [u8], usize),
    Data(usize, usize),
}

/// The tag at `place`, and where it ends.
fn tag(text: &[u8], place: usize) -> Option<(Token<'_>, usize)> {
    let closing = text.get(place + 1) == Some(&b'/');
    let from = place + 1 + closing as usize;
    let rest = &text[from.min(text.len())..];
    let size = rest.iter().take_while(|&&b| continues_name(b)).count();
    if size == 0 || size > MAX_NAME || !starts_name(rest[0]) {
        return None;
    }
    let name = &rest[..size];
    let after = size + rest[size..].iter().take_while(|&&b| is_blank(b)).count();
    match (&rest[after..], closing) {
        ([b'>', ..], true) => Some((Token::End(name, place), from + after + 1)),
        ([b'>', ..], false) => Some((Token::Start(name, place), from + after + 1)),
        ([b'/', b'>', ..], false) => Some((Token::Empty(name, place), from + after + 2)),
        _ => None,
    }
}

/// The five entities, and what each stands for.
pub const ENTITIES: [(&str, u8); 5] = [("&lt;", b'<'), ("&gt;", b'>'), ("&amp;", b'&'), ("&apos;", b'\''), ("&quot;", b'"')];

/// The entity at `place`.
fn entity(text: &[u8], place: usize) -> Option<(&'static str, u8)> {
    ENTITIES.into_iter().find(|(written, _)| text[place..].starts_with(written.as_bytes()))
}

/// Where the run of character data that starts at `place` ends, or the place of what is misspelt in it.
fn data(text: &[u8], place: usize) -> Result<usize, usize> {
    let mut i = place;
    while i < text.len() && text[i] != b'<' {
        if text[i..].starts_with(b"]]>") {
            return Err(i);
        }
        i += if text[i] == b'&' { entity(text, i).ok_or(i)?.0.len() } else { 1 };
    }
    Ok(i)
}

/// The characters that a journal's text stands for (document 02, R-2), where the bytes are one such text: a run that is not empty, with nothing
/// misspelt in it. What an entity stands for is not looked at again.
pub fn characters(run: &[u8]) -> Option<Vec<u8>> {
    if run.is_empty() || data(run, 0) != Ok(run.len()) {
        return None;
    }
    let mut all = Vec::new();
    let mut i = 0;
    while i < run.len() {
        let (size, character) = entity(run, i).map_or((1, run[i]), |(written, character)| (written.len(), character));
        all.push(character);
        i += size;
    }
    Some(all)
}

fn tokens(text: &[u8]) -> Result<Vec<Token<'_>>, Refused> {
    let mut all = Vec::new();
    let mut i = 0;
    while i < text.len() {
        if text[i] == b'<' {
            let (token, end) = tag(text, i).ok_or(refused(11, i))?;
            all.push(token);
            i = end;
        } else {
            let end = data(text, i).map_err(|place| refused(11, place))?;
            all.push(Token::Data(i, end));
            i = end;
        }
    }
    Ok(all)
}

enum Child<'a> {
    Element(Element<'a>),
    Data(usize, usize),
}

struct Element<'a> {
    name: &'a [u8],
    place: usize,
    children: Vec<Child<'a>>,
}

/// The root, or what is wrong with the nesting.
fn tree<'a>(text: &'a [u8], tokens: Vec<Token<'a>>) -> Result<Element<'a>, Refused> {
    let mut open: Vec<Element<'a>> = Vec::new();
    let mut root: Option<Element<'a>> = None;
    for token in tokens {
        match token {
            Token::Data(start, end) => match open.last_mut() {
                Some(parent) => parent.children.push(Child::Data(start, end)),
                None => {
                    if let Some(k) = text[start..end].iter().position(|&b| !is_blank(b)) {
                        return Err(refused(12, start + k));
                    }
                }
            },
            Token::Start(name, place) | Token::Empty(name, place) => {
                if root.is_some() {
                    return Err(refused(12, place));
                }
                if open.len() == MAX_DEPTH {
                    return Err(refused(13, place));
                }
                open.push(Element { name, place, children: Vec::new() });
                if matches!(token, Token::Empty(..)) {
                    close(&mut open, &mut root);
                }
            }
            Token::End(name, place) => {
                if open.last().map(|e| e.name) != Some(name) {
                    return Err(refused(12, place));
                }
                close(&mut open, &mut root);
            }
        }
    }
    root.ok_or(refused(12, text.len()))
}

fn close<'a>(open: &mut Vec<Element<'a>>, root: &mut Option<Element<'a>>) {
    let done = open.pop().unwrap();
    match open.last_mut() {
        Some(parent) => parent.children.push(Child::Element(done)),
        None => *root = Some(done),
    }
}

fn elements<'t, 'a>(e: &'t Element<'a>, all: &mut Vec<&'t Element<'a>>) {
    all.push(e);
    for c in &e.children {
        if let Child::Element(c) = c {
            elements(c, all);
        }
    }
}

fn content_fits(schema: &Schema, text: &[u8], e: &Element) -> bool {
    let children: Vec<usize> =
        e.children.iter().filter_map(|c| if let Child::Element(c) = c { schema.element(c.name) } else { None }).collect();
    let runs: Vec<&[u8]> = e.children.iter().filter_map(|c| if let Child::Data(i, j) = c { Some(&text[*i..*j]) } else { None }).collect();
    match &schema.contents[schema.element(e.name).unwrap()] {
        Content::Empty => e.children.is_empty(),
        Content::Characters => children.is_empty(),
        Content::Children(p) => runs.iter().all(|r| r.iter().all(|&b| is_blank(b))) && schema.fits(p, &children),
    }
}

/// The rows below a parent's row, in document order, and where each node starts.
fn rows(schema: &Schema, text: &[u8], e: &Element, parent: usize, all: &mut Vec<(Row, usize)>) {
    let own = all.len();
    let index = schema.element(e.name).unwrap();
    all.push((Row { number: own, name: Name::Element(index), parent, start: 0, size: 0, decoded: 0 }, e.place));
    for c in &e.children {
        match c {
            Child::Element(c) => rows(schema, text, c, own, all),
            Child::Data(i, j) => {
                if let Content::Characters = schema.contents[index] {
                    let (number, decoded) = (all.len(), characters(&text[*i..*j]).unwrap().len());
                    all.push((Row { number, name: Name::Text(index), parent: own, start: *i, size: j - i, decoded }, *i));
                }
            }
        }
    }
}

pub fn read_journal(schema: &Schema, text: &[u8], limit: usize) -> Result<Vec<Row>, Refused> {
    plain(text, limit)?;
    let root = tree(text, tokens(text)?)?;
    let mut all = Vec::new();
    elements(&root, &mut all);
    if let Some(e) = all.iter().find(|e| schema.element(e.name).is_none()) {
        return Err(refused(14, e.place));
    }
    let wrong_root = schema.element(root.name) != Some(0);
    if let Some(e) = all.iter().find(|e| (wrong_root && e.place == root.place) || !content_fits(schema, text, e)) {
        return Err(refused(15, e.place));
    }
    let mut made = Vec::new();
    rows(schema, text, &root, 0, &mut made);
    if let Some((_, place)) = made.iter().enumerate().find(|(k, (r, _))| *k >= MAX_NODES || r.size > MAX_TEXT).map(|x| x.1) {
        return Err(refused(16, *place));
    }
    Ok(made.into_iter().map(|x| x.0).collect())
}
