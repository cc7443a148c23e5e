//! Bundles of paths.
use crate::schema::Schema;
use crate::text::*;

#[derive(Clone, Copy, Debug, PartialEq, Eq)]
pub enum Axis {
    SelfAxis,
    Child,
    Descendant,
    DescendantOrSelf,
    Parent,
    Ancestor,
    AncestorOrSelf,
    Following,
    FollowingSibling,
    Preceding,
    PrecedingSibling,
}

pub const AXES: [(&str, Axis); 11] = [
    ("self::", Axis::SelfAxis),
    ("child::", Axis::Child),
    ("descendant::", Axis::Descendant),
    ("descendant-or-self::", Axis::DescendantOrSelf),
    ("parent::", Axis::Parent),
    ("ancestor::", Axis::Ancestor),
    ("ancestor-or-self::", Axis::AncestorOrSelf),
    ("following::", Axis::Following),
    ("following-sibling::", Axis::FollowingSibling),
    ("preceding::", Axis::Preceding),
    ("preceding-sibling::", Axis::PrecedingSibling),
];

#[derive(Clone, Debug, PartialEq, Eq)]
pub enum Test<N> {
    Node,
    Text,
    Element(N),
}

#[derive(Clone, Debug)]
pub struct Step<N> {
    pub axis: Axis,
    pub test: Test<N>,
    /// None without brackets, else the alternatives.
    pub condition: Option<Vec<Vec<Step<N>>>>,
}

pub type Path = Vec<Step<usize>>;

type Use = (Vec<u8>, usize);

const MAX_BUNDLE: usize = 4104;
const MAX_PATHS: usize = 8;
const MAX_STEPS: usize = 16;
const MAX_ALTERNATIVES: usize = 4;
const MAX_ALTERNATIVE_STEPS: usize = 4;
const MAX_PATH: usize = 512;

fn axis(r: &mut Reader) -> Read<Axis> {
    let start = r.place;
    let mut left: Vec<(&str, Axis)> = AXES.to_vec();
    loop {
        let k = r.place - start;
        if let Some(done) = left.iter().find(|a| a.0.len() == k) {
            return Ok(done.1);
        }
        left.retain(|a| r.peek() == Some(a.0.as_bytes()[k]));
        if left.is_empty() {
            return r.fail();
        }
        r.place += 1;
    }
}

fn test(r: &mut Reader) -> Read<Test<Use>> {
    let name = r.name()?;
    if r.peek() == Some(b'(') && (name.0 == b"node" || name.0 == b"text") {
        r.place += 1;
        r.expect(b')')?;
        return Ok(if name.0 == b"node" { Test::Node } else { Test::Text });
    }
    Ok(Test::Element(name))
}

fn plain_step(r: &mut Reader) -> Read<Step<Use>> {
    Ok(Step { axis: axis(r)?, test: test(r)?, condition: None })
}

fn condition(r: &mut Reader) -> Read<Vec<Vec<Step<Use>>>> {
    let mut all = vec![Vec::new()];
    loop {
        let step = plain_step(r)?;
        all.last_mut().unwrap().push(step);
        match r.peek() {
            Some(b'/') => r.place += 1,
            Some(b']') => {
                r.place += 1;
                return Ok(all);
            }
            Some(b' ') => {
                r.word(" or ")?;
                all.push(Vec::new());
            }
            _ => return r.fail(),
        }
    }
}

struct Line {
    place: usize,
    size: usize,
    steps: Vec<Step<Use>>,
}

fn line(r: &mut Reader) -> Read<Line> {
    let place = r.place;
    let mut steps = Vec::new();
    loop {
        let mut step = plain_step(r)?;
        if r.take(b'[') {
            step.condition = Some(condition(r)?);
        }
        steps.push(step);
        if r.take(b'\n') {
            return Ok(Line { place, size: r.place - 1 - place, steps });
        }
        r.expect(b'/')?;
    }
}

fn over_limit(k: usize, l: &Line) -> bool {
    k >= MAX_PATHS
        || l.steps.len() > MAX_STEPS
        || l.size > MAX_PATH
        || l.steps.iter().filter_map(|s| s.condition.as_ref()).any(|c| c.len() > MAX_ALTERNATIVES || c.iter().any(|a| a.len() > MAX_ALTERNATIVE_STEPS))
}

fn used(steps: &[Step<Use>]) -> Vec<Use> {
    let mut all = Vec::new();
    for s in steps {
        if let Test::Element(u) = &s.test {
            all.push(u.clone());
        }
        all.extend(s.condition.iter().flatten().flat_map(|a| used(a)));
    }
    all
}

fn resolved(schema: &Schema, steps: &[Step<Use>]) -> Path {
    steps
        .iter()
        .map(|s| Step {
            axis: s.axis,
            test: match &s.test {
                Test::Node => Test::Node,
                Test::Text => Test::Text,
                Test::Element(u) => Test::Element(schema.element(&u.0).unwrap()),
            },
            condition: s.condition.as_ref().map(|c| c.iter().map(|a| resolved(schema, a)).collect()),
        })
        .collect()
}

pub fn read_bundle(schema: &Schema, text: &[u8]) -> Result<Vec<Path>, Refused> {
    plain(text, MAX_BUNDLE)?;
    let mut r = Reader::new(text);
    let mut lines = Vec::new();
    while r.place < text.len() {
        lines.push(line(&mut r).map_err(|place| refused(8, place))?);
    }
    if let Some((_, l)) = lines.iter().enumerate().find(|(k, l)| over_limit(*k, l)) {
        return Err(refused(9, l.place));
    }
    let unknown = lines.iter().flat_map(|l| used(&l.steps)).filter(|u| schema.element(&u.0).is_none()).map(|u| u.1).min();
    match unknown {
        Some(place) => Err(refused(10, place)),
        None => Ok(lines.iter().map(|l| resolved(schema, &l.steps)).collect()),
    }
}
