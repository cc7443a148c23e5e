//! Schemas: declarations as trees, what fits them, and which name holds which.
use crate::text::*;
use std::collections::{BTreeSet, HashMap};

/// A name of the type system.
#[derive(Clone, Copy, Debug, PartialEq, Eq, Hash, PartialOrd, Ord)]
pub enum Name {
    Element(usize),
    Text(usize),
}

impl Name {
    pub fn code(self) -> u32 {
        match self {
            Name::Element(e) => e as u32,
            Name::Text(e) => 32 + e as u32,
        }
    }

    pub fn of_code(code: u32) -> Option<Name> {
        match code {
            0..=31 => Some(Name::Element(code as usize)),
            32..=63 => Some(Name::Text(code as usize - 32)),
            _ => None,
        }
    }
}

pub type Names = BTreeSet<Name>;

#[derive(Clone, Debug)]
pub enum Particle<N> {
    Named(N),
    Sequence(Vec<Particle<N>>),
    Choice(Vec<Particle<N>>),
    Optional(Box<Particle<N>>),
    Any(Box<Particle<N>>),
    Many(Box<Particle<N>>),
}

#[derive(Clone, Debug)]
pub enum Content<N> {
    Empty,
    Characters,
    Children(Particle<N>),
}

pub struct Schema {
    pub names: Vec<Vec<u8>>,
    pub contents: Vec<Content<usize>>,
}

type Use = (Vec<u8>, usize);

const MAX_SCHEMA: usize = 8192;
const MAX_DECLARATIONS: usize = 32;
const MAX_MODEL_NAMES: usize = 64;
const MAX_GROUPS: usize = 8;

fn indicated<N>(r: &mut Reader, p: Particle<N>) -> Particle<N> {
    if r.take(b'?') {
        Particle::Optional(Box::new(p))
    } else if r.take(b'*') {
        Particle::Any(Box::new(p))
    } else if r.take(b'+') {
        Particle::Many(Box::new(p))
    } else {
        p
    }
}

/// A group after its `(`, with so many parentheses open, its own among them.
fn group(r: &mut Reader, depth: usize) -> Read<Particle<Use>> {
    let mut parts = Vec::new();
    let mut separator = None;
    loop {
        r.blanks();
        let part = if r.peek() == Some(b'(') {
            if depth == MAX_GROUPS {
                return r.fail();
            }
            r.place += 1;
            group(r, depth + 1)?
        } else {
            Particle::Named(r.name()?)
        };
        parts.push(indicated(r, part));
        r.blanks();
        match r.peek() {
            Some(b')') => {
                r.place += 1;
                return Ok(if separator == Some(b'|') { Particle::Choice(parts) } else { Particle::Sequence(parts) });
            }
            Some(b) if (b == b',' || b == b'|') && separator.is_none_or(|s| s == b) => {
                separator = Some(b);
                r.place += 1;
            }
            _ => return r.fail(),
        }
    }
}

struct Declaration {
    place: usize,
    name: Use,
    content: Content<Use>,
}

fn declaration(r: &mut Reader) -> Read<Declaration> {
    let place = r.place;
    r.word("<!ELEMENT")?;
    r.required_blanks()?;
    let name = r.name()?;
    r.required_blanks()?;
    let content = if r.peek() == Some(b'E') {
        r.word("EMPTY")?;
        Content::Empty
    } else {
        r.expect(b'(')?;
        r.blanks();
        if r.peek() == Some(b'#') {
            r.word("#PCDATA")?;
            r.blanks();
            r.expect(b')')?;
            Content::Characters
        } else {
            let whole = group(r, 1)?;
            Content::Children(indicated(r, whole))
        }
    };
    r.blanks();
    r.expect(b'>')?;
    Ok(Declaration { place, name, content })
}

fn declarations(text: &[u8]) -> Read<Vec<Declaration>> {
    let mut r = Reader::new(text);
    let mut all = Vec::new();
    r.blanks();
    loop {
        all.push(declaration(&mut r)?);
        r.blanks();
        if r.place == text.len() {
            return Ok(all);
        }
    }
}

fn uses<N: Clone>(p: &Particle<N>) -> Vec<N> {
    match p {
        Particle::Named(n) => vec![n.clone()],
        Particle::Sequence(ps) | Particle::Choice(ps) => ps.iter().flat_map(uses).collect(),
        Particle::Optional(p) | Particle::Any(p) | Particle::Many(p) => uses(p),
    }
}

fn content_uses<N: Clone>(c: &Content<N>) -> Vec<N> {
    match c {
        Content::Children(p) => uses(p),
        _ => Vec::new(),
    }
}

fn resolved(p: &Particle<Use>, known: &HashMap<Vec<u8>, usize>) -> Particle<usize> {
    let all = |ps: &Vec<Particle<Use>>| ps.iter().map(|p| resolved(p, known)).collect();
    let one = |p: &Particle<Use>| Box::new(resolved(p, known));
    match p {
        Particle::Named(n) => Particle::Named(known[&n.0]),
        Particle::Sequence(ps) => Particle::Sequence(all(ps)),
        Particle::Choice(ps) => Particle::Choice(all(ps)),
        Particle::Optional(p) => Particle::Optional(one(p)),
        Particle::Any(p) => Particle::Any(one(p)),
        Particle::Many(p) => Particle::Many(one(p)),
    }
}

pub fn read_schema(text: &[u8]) -> Result<Schema, Refused> {
    plain(text, MAX_SCHEMA)?;
    let all = declarations(text).map_err(|place| refused(4, place))?;
    let too_many = all.get(MAX_DECLARATIONS).map(|d| d.place);
    let too_long = all.iter().filter_map(|d| content_uses(&d.content).get(MAX_MODEL_NAMES).map(|u| u.1)).min();
    if let Some(place) = too_many.into_iter().chain(too_long).min() {
        return Err(refused(5, place));
    }
    let mut known = HashMap::new();
    for (e, d) in all.iter().enumerate() {
        if known.insert(d.name.0.clone(), e).is_some() {
            return Err(refused(6, d.name.1));
        }
    }
    if let Some(u) = all.iter().flat_map(|d| content_uses(&d.content)).find(|u| !known.contains_key(&u.0)) {
        return Err(refused(7, u.1));
    }
    let contents = all
        .iter()
        .map(|d| match &d.content {
            Content::Empty => Content::Empty,
            Content::Characters => Content::Characters,
            Content::Children(p) => Content::Children(resolved(p, &known)),
        })
        .collect();
    Ok(Schema { names: all.into_iter().map(|d| d.name.0).collect(), contents })
}

/// All places in `children` at which a match of p may end that begins at one of `from`.
fn ends(p: &Particle<usize>, children: &[usize], from: &BTreeSet<usize>) -> BTreeSet<usize> {
    match p {
        Particle::Named(e) => from.iter().filter(|&&i| children.get(i) == Some(e)).map(|i| i + 1).collect(),
        Particle::Sequence(ps) => ps.iter().fold(from.clone(), |at, p| ends(p, children, &at)),
        Particle::Choice(ps) => ps.iter().flat_map(|p| ends(p, children, from)).collect(),
        Particle::Optional(p) => from.union(&ends(p, children, from)).copied().collect(),
        Particle::Many(p) => repeated(p, children, ends(p, children, from)),
        Particle::Any(p) => repeated(p, children, from.clone()),
    }
}

fn repeated(p: &Particle<usize>, children: &[usize], from: BTreeSet<usize>) -> BTreeSet<usize> {
    let mut all = from.clone();
    let mut last = from;
    while !last.is_empty() {
        last = ends(p, children, &last).difference(&all).copied().collect();
        all.extend(&last);
    }
    all
}

impl Schema {
    pub fn element(&self, name: &[u8]) -> Option<usize> {
        self.names.iter().position(|n| n == name)
    }

    pub fn fits(&self, p: &Particle<usize>, children: &[usize]) -> bool {
        ends(p, children, &BTreeSet::from([0])).contains(&children.len())
    }

    pub fn has(&self, n: Name) -> bool {
        match n {
            Name::Element(e) => e < self.names.len(),
            Name::Text(e) => matches!(self.contents.get(e), Some(Content::Characters)),
        }
    }

    pub fn held_by(&self, n: Name) -> Names {
        match n {
            Name::Text(_) => Names::new(),
            Name::Element(e) => match &self.contents[e] {
                Content::Empty => Names::new(),
                Content::Characters => Names::from([Name::Text(e)]),
                Content::Children(p) => uses(p).into_iter().map(Name::Element).collect(),
            },
        }
    }

    pub fn holds(&self, a: Name, b: Name) -> bool {
        self.has(a) && self.held_by(a).contains(&b)
    }

    /// One or more holdings down.
    pub fn below(&self, n: Name) -> Names {
        let mut found = Names::new();
        let mut due: Vec<Name> = self.held_by(n).into_iter().collect();
        while let Some(m) = due.pop() {
            if found.insert(m) {
                due.extend(self.held_by(m));
            }
        }
        found
    }

    pub fn is_below(&self, low: Name, high: Name) -> bool {
        self.below(high).contains(&low)
    }
}
