//! Random schemas, bundles and journals, most of them accepted, some damaged. The same seed gives the same texts.
use crate::bundle::AXES;
use crate::journal::ENTITIES;
use crate::schema::{Content, Particle, Schema};

/// Marsaglia's xorshift, 64 bits.
pub struct Random(u64);

impl Random {
    pub fn new(seed: u64) -> Self {
        Random(seed.wrapping_mul(0x9E37_79B9_7F4A_7C15) | 1)
    }

    pub fn below(&mut self, n: usize) -> usize {
        self.0 ^= self.0 << 13;
        self.0 ^= self.0 >> 7;
        self.0 ^= self.0 << 17;
        ((self.0 >> 11) % n as u64) as usize
    }

    pub fn chance(&mut self, percent: usize) -> bool {
        self.below(100) < percent
    }

    fn one<'a>(&mut self, of: &[&'a str]) -> &'a str {
        of[self.below(of.len())]
    }
}

const NAMES: [&str; 12] = ["scan", "plate", "well", "tile", "focus", "x", "y-1", "_z", "node", "text", "label.2", "image"];

fn blanks(r: &mut Random, percent: usize) -> &'static str {
    if r.chance(percent) {
        r.one(&[" ", "\n", "\t", "  ", " \n\t"])
    } else {
        ""
    }
}

/// A particle over the elements, more often over later ones, so that a journal can end.
fn particle(r: &mut Random, first: usize, count: usize, depth: usize) -> String {
    let body = if depth > 0 && r.chance(35) {
        group(r, first, count, depth - 1)
    } else if first + 1 < count && r.chance(85) {
        NAMES[first + 1 + r.below(count - first - 1)].to_string()
    } else {
        NAMES[r.below(count)].to_string()
    };
    body + r.one(&["", "", "?", "*", "*", "+"])
}

fn group(r: &mut Random, first: usize, count: usize, depth: usize) -> String {
    let separator = r.one(&[",", "|"]);
    let parts: Vec<String> = (0..1 + r.below(3)).map(|_| blanks(r, 10).to_string() + &particle(r, first, count, depth) + blanks(r, 10)).collect();
    format!("({})", parts.join(separator))
}

pub fn schema(r: &mut Random) -> String {
    let count = 1 + r.below(NAMES.len());
    let mut text = blanks(r, 10).to_string();
    for e in 0..count {
        let content = match r.below(10) {
            0 => "EMPTY".to_string(),
            1..=3 if e > 0 => format!("({}#PCDATA{})", blanks(r, 10), blanks(r, 10)),
            _ if e + 1 == count && r.chance(70) => "(#PCDATA)".to_string(),
            _ => group(r, e, count, 2) + r.one(&["", "*", "?", "+"]),
        };
        text += &format!("<!ELEMENT {}{} {}{}{}>", blanks(r, 10), NAMES[e], blanks(r, 10), content, blanks(r, 10));
        text += blanks(r, 20);
    }
    text
}

/// How deep an element must go at least, if it can end at all within so many levels.
fn heights(s: &Schema) -> Vec<usize> {
    let mut all = vec![usize::MAX; s.names.len()];
    for level in 0..s.names.len() + 1 {
        for e in 0..s.names.len() {
            let ends = match &s.contents[e] {
                Content::Children(p) => particle_height(p, &all).is_some_and(|h| h <= level),
                _ => true,
            };
            if ends && all[e] == usize::MAX {
                all[e] = level + 1;
            }
        }
    }
    all
}

fn particle_height(p: &Particle<usize>, all: &[usize]) -> Option<usize> {
    match p {
        Particle::Named(e) => (all[*e] < usize::MAX).then_some(all[*e]),
        Particle::Sequence(ps) => ps.iter().map(|p| particle_height(p, all)).collect::<Option<Vec<_>>>().map(|h| h.into_iter().max().unwrap_or(0)),
        Particle::Choice(ps) => ps.iter().filter_map(|p| particle_height(p, all)).min(),
        Particle::Optional(_) | Particle::Any(_) => Some(0),
        Particle::Many(p) => particle_height(p, all),
    }
}

struct Maker<'a> {
    s: &'a Schema,
    heights: Vec<usize>,
    nodes: usize,
    text: String,
}

impl Maker<'_> {
    fn children(&mut self, r: &mut Random, p: &Particle<usize>, room: usize) {
        let may = self.nodes < 60 && particle_height(p, &self.heights).is_some_and(|h| h <= room);
        match p {
            Particle::Named(e) => self.element(r, *e, room.saturating_sub(1)),
            Particle::Sequence(ps) => ps.iter().for_each(|p| self.children(r, p, room)),
            Particle::Choice(ps) => {
                let mut fit: Vec<&Particle<usize>> = ps.iter().filter(|p| particle_height(p, &self.heights).is_some_and(|h| h <= room)).collect();
                if fit.is_empty() || self.nodes >= 60 {
                    fit = vec![ps.iter().min_by_key(|p| particle_height(p, &self.heights).unwrap_or(usize::MAX)).unwrap()];
                }
                let chosen = fit[r.below(fit.len())];
                self.children(r, chosen, room)
            }
            Particle::Optional(p) | Particle::Any(p) => {
                let most = if matches!(**p, Particle::Named(_)) { 3 } else { 2 };
                let inner = particle_height(p, &self.heights).is_some_and(|h| h <= room);
                let times = if !inner || self.nodes >= 60 { 0 } else { r.below(most) };
                (0..times).for_each(|_| self.children(r, p, room));
            }
            Particle::Many(p) => (0..1 + if may { r.below(2) } else { 0 }).for_each(|_| self.children(r, p, room)),
        }
    }

    fn characters(&mut self, r: &mut Random) {
        if r.chance(1) {
            // about as many bytes as a text may have, of plain ones or of an entity again and again
            let (written, size) = (if r.chance(70) { ENTITIES[r.below(ENTITIES.len())].0 } else { "x" }, 4095 + r.below(3));
            self.text += &(written.repeat(size / written.len()) + &"x".repeat(size % written.len()));
            return;
        }
        for _ in 0..r.below(4) {
            let plain = ["12", " ", "a b", "]", "]]", ">", "\n", "x-1", "/", "'", "\""];
            self.text += if r.chance(50) { ENTITIES[r.below(ENTITIES.len())].0 } else { r.one(&plain) };
            // what then looks like an entity once it is decoded
            self.text += if self.text.ends_with("&amp;") && r.chance(30) { r.one(&["lt;", "amp;", "quot;"]) } else { "" };
        }
    }

    fn element(&mut self, r: &mut Random, e: usize, room: usize) {
        self.nodes += 1;
        if self.nodes > 400 {
            return;
        }
        let name = String::from_utf8(self.s.names[e].clone()).unwrap();
        let start = self.text.len();
        self.text += &format!("<{}{}>", name, blanks(r, 10));
        let inside = self.text.len();
        match &self.s.contents[e] {
            Content::Empty => {}
            Content::Characters => self.characters(r),
            Content::Children(p) => {
                self.text += blanks(r, 20);
                let p = p.clone();
                self.children(r, &p, room);
                self.text += blanks(r, 20);
            }
        }
        if self.text.len() == inside && r.chance(60) {
            self.text.truncate(start);
            self.text += &format!("<{}{}/>", name, blanks(r, 10));
        } else {
            self.text += &format!("</{}{}>", name, blanks(r, 10));
        }
    }
}

/// A journal that the schema's models make, as far as they end.
pub fn journal(r: &mut Random, s: &Schema) -> Vec<u8> {
    let mut m = Maker { s, heights: heights(s), nodes: 0, text: blanks(r, 10).to_string() };
    m.element(r, 0, 12);
    m.text += blanks(r, 10);
    m.text.into_bytes()
}

fn any_byte(r: &mut Random) -> u8 {
    match r.below(12) {
        0 => r.below(256) as u8,
        1 => 0x7F,
        _ => b"<>/&;]: abltx\n"[r.below(14)],
    }
}

/// One byte changed, put in or taken out; or a part moved.
pub fn damaged(r: &mut Random, text: &[u8]) -> Vec<u8> {
    let mut t = text.to_vec();
    if t.is_empty() {
        return vec![any_byte(r)];
    }
    let i = r.below(t.len());
    match r.below(5) {
        0 => t[i] = any_byte(r),
        1 => t.insert(i, any_byte(r)),
        2 => {
            t.remove(i);
        }
        3 => {
            let j = i + r.below((t.len() - i).min(12));
            let part: Vec<u8> = t.drain(i..j).collect();
            let k = r.below(t.len() + 1);
            t.splice(k..k, part);
        }
        _ => t.truncate(i),
    }
    t
}

/// The same characters spelt otherwise, now and then: `>` and both quotes by an entity, and those three entities by what they stand for.
pub fn respelt(r: &mut Random, text: &[u8]) -> Vec<u8> {
    let (mut out, mut i, mut in_tag) = (Vec::new(), 0, false);
    while i < text.len() {
        let changes = !in_tag && r.chance(40);
        let written = ENTITIES.iter().find(|(w, c)| !matches!(c, b'<' | b'&') && text[i..].starts_with(w.as_bytes()));
        let bare = ENTITIES.iter().find(|(_, c)| !matches!(c, b'<' | b'&') && text[i] == *c);
        match (changes, written, bare) {
            // `>` after `]]` has no other spelling
            (true, Some((w, c)), _) if *c != b'>' || !out.ends_with(b"]]") => {
                out.push(*c);
                i += w.len();
                continue;
            }
            (true, _, Some((w, _))) => out.extend(w.bytes()),
            _ => out.push(text[i]),
        }
        in_tag = text[i] == b'<' || (in_tag && text[i] != b'>');
        i += 1;
    }
    out
}

/// A tag changed whole: its name exchanged for another one, the tag dropped or written twice.
pub fn retagged(r: &mut Random, text: &[u8]) -> Vec<u8> {
    let tags: Vec<usize> = text.iter().enumerate().filter(|(_, &b)| b == b'<').map(|x| x.0).collect();
    if tags.is_empty() {
        return text.to_vec();
    }
    let start = tags[r.below(tags.len())];
    let end = start + text[start..].iter().position(|&b| b == b'>').map_or(1, |k| k + 1);
    let tag = &text[start..end];
    let new = match r.below(3) {
        0 => Vec::new(),
        1 => [tag, tag].concat(),
        _ => format!("<{}/>", NAMES[r.below(NAMES.len())]).into_bytes(),
    };
    [&text[..start], &new, &text[end..]].concat()
}

fn step(r: &mut Random, s: &Schema) -> String {
    // axes down more often than others, so that paths select nodes
    let axis = if r.chance(30) { r.one(&["child::", "child::", "descendant::"]) } else { AXES[r.below(AXES.len())].0 };
    let test = match r.below(10) {
        0..=2 => "node()".to_string(),
        3 => "text()".to_string(),
        4 if r.chance(4) => NAMES[r.below(NAMES.len())].to_string(),
        _ => String::from_utf8(s.names[r.below(s.names.len())].clone()).unwrap(),
    };
    axis.to_string() + &test
}

fn steps(r: &mut Random, s: &Schema, most: usize) -> Vec<String> {
    (0..1 + r.below(most)).map(|_| step(r, s)).collect()
}

fn condition(r: &mut Random, s: &Schema) -> String {
    let most = if r.chance(3) { 6 } else { 3 };
    let alternatives: Vec<String> = (0..1 + r.below(most)).map(|_| steps(r, s, if most == 6 { 5 } else { 2 }).join("/")).collect();
    format!("[{}]", alternatives.join(" or "))
}

/// A step, one in four with brackets.
pub fn conditional_step(r: &mut Random, s: &Schema) -> String {
    let written = step(r, s);
    if r.chance(25) {
        written + &condition(r, s)
    } else {
        written
    }
}

pub fn bundle(r: &mut Random, s: &Schema) -> String {
    let paths = if r.chance(4) { 9 } else { 3 };
    let mut text = String::new();
    for _ in 0..1 + r.below(paths) {
        let most = if r.chance(3) { 18 } else { 4 };
        let path: Vec<String> = (0..1 + r.below(most)).map(|_| conditional_step(r, s)).collect();
        text += &path.join("/");
        text += "\n";
    }
    text
}
