//! A second implementation of document 01 and of document 02's, written from them and not from the proved code, to compare with. Nothing
//! here is proved.
//! `second journals SEED COUNT CASES OUTCOMES` writes random journals under random schemas and their outcomes into two files, in the form of
//! tests/timing/plain_journal.c. `second demand3 SEED COUNT` tries demand 3 on random schemas, bundles and journals, and that journals of two spellings
//! give one extract. Without arguments standard input holds cases: what is done (a line), the number of texts (a line), the limits (a line), then each
//! text after its length in four bytes. Standard output holds for each the outcome as in tests/vectors, after its length in four bytes.
mod bundle;
mod extract;
#[allow(dead_code)]
mod faults;
mod guided;
#[allow(dead_code)]
mod inputs;
mod journal;
mod listing;
mod needed;
mod random;
#[allow(dead_code)]
mod records;
mod schema;
mod table;
mod text;

use crate::bundle::read_bundle;
use crate::inputs::{missing, random_bundle, random_texts, wanted_steps, wanted_texts, Seen, MAX_JOURNAL};
use crate::journal::read_journal;
use crate::needed::{bits, bundle_needs, path_needs};
use crate::schema::{read_schema, Name, Names, Schema};
use crate::table::Row;
use crate::text::{refused, Refused};
use std::io::{stdin, stdout, BufRead, Read, Write};

fn lines<'a>(rows: &'a [Row], cells: impl Fn(&'a Row) -> Vec<usize>) -> Vec<u8> {
    let mut out = format!("ok {}\n", rows.len());
    for r in rows {
        let line: Vec<String> = cells(r).iter().map(usize::to_string).collect();
        out += &(line.join(" ") + "\n");
    }
    out.into_bytes()
}

fn table(text: &[u8]) -> Option<Vec<Row>> {
    let text = String::from_utf8_lossy(text);
    text.lines()
        .map(|line| {
            let n: Vec<usize> = line.split(' ').map(|w| w.parse().unwrap()).collect();
            Some(Row { number: n[0], name: Name::of_code(n[1] as u32)?, parent: n[2], start: n[3], size: n[4], decoded: n[5] })
        })
        .collect()
}

/// For each path a line of node numbers.
fn selections(paths: &[bundle::Path], rows: &[Row]) -> Vec<u8> {
    let line = |p| numbers(rows, p).iter().map(usize::to_string).collect::<Vec<_>>().join(" ") + "\n";
    paths.iter().map(line).collect::<String>().into_bytes()
}

fn outcome(does: &str, texts: &[Vec<u8>], limits: &[usize]) -> Result<Vec<u8>, Refused> {
    if does == "listing" {
        return listing::listing(&texts[0], &texts[1], &texts[2]);
    }
    if does == "schema-record" {
        let record = records::Record { bytes: texts[0].clone(), len: limits[0] };
        return Ok(format!("ok {}\n", records::schema_held(&record)?.names.len()).into_bytes());
    }
    let s = read_schema(&texts[0])?;
    let journal_limit = limits.first().copied().unwrap_or(MAX_JOURNAL);
    match does {
        "schema" => Ok(format!("ok {}\n", s.names.len()).into_bytes()),
        "bundle" => Ok(format!("ok {}\n", read_bundle(&s, &texts[1])?.len()).into_bytes()),
        "journal" => {
            let rows = read_journal(&s, &texts[1], journal_limit)?;
            if limits.get(1).is_some_and(|&lent| lent < rows.len()) {
                return Err(refused(18, 0));
            }
            Ok(lines(&rows, |r| vec![r.number, r.name.code() as usize, r.parent, r.start, r.size, r.decoded]))
        }
        "needed" => {
            let ps = read_bundle(&s, &texts[1])?;
            let mut out = format!("{:016x}\n", bits(&bundle_needs(&s, &ps)));
            ps.iter().for_each(|p| out += &format!("{:016x}\n", bits(&path_needs(&s, p))));
            Ok(out.into_bytes())
        }
        "select" => {
            let ps = read_bundle(&s, &texts[1])?;
            let rows = read_journal(&s, &texts[2], journal_limit)?;
            Ok(selections(&ps, &rows))
        }
        "select-extract" => {
            let ps = read_bundle(&s, &texts[1])?;
            Ok(selections(&ps, &extract::read_extract(&s, &texts[2])?))
        }
        "extract" => {
            let ps = read_bundle(&s, &texts[1])?;
            let rows = read_journal(&s, &texts[2], journal_limit)?;
            let kept = table::cut(&rows, &bundle_needs(&s, &ps));
            let bytes = extract::write_extract(&kept, &texts[2]);
            Ok([format!("ok {} {}\n", kept.len(), bytes.len()).into_bytes(), bytes].concat())
        }
        "read-extract" => {
            let lent = limits.get(1..).unwrap_or_default();
            if lent.iter().any(|&n| n != lent[0]) {
                return Err(refused(1, 0));
            }
            let rows = extract::read_extract(&s, &texts[1])?;
            if lent.first().is_some_and(|&n| n < rows.len()) {
                return Err(refused(18, 0));
            }
            Ok(lines(&rows, |r| vec![r.number, r.name.code() as usize, r.parent, r.size, r.decoded]))
        }
        "table" => match table(&texts[1]) {
            Some(rows) if table::well_formed(&s, &rows) && table::texts_inside(&rows, &texts[2]) => Ok(format!("ok {}\n", rows.len()).into_bytes()),
            _ => Err(refused(1, 0)),
        },
        _ => panic!("unknown: {does}"),
    }
}

fn message(r: Refused) -> Vec<u8> {
    format!("refused {} at {}\n", r.number, r.place).into_bytes()
}

fn line(input: &mut impl BufRead) -> Option<String> {
    let mut l = String::new();
    (input.read_line(&mut l).unwrap() > 0).then(|| l.trim_end().to_string())
}

fn bytes(input: &mut impl Read) -> Vec<u8> {
    let mut size = [0; 4];
    input.read_exact(&mut size).unwrap();
    let mut text = vec![0; u32::from_be_bytes(size) as usize];
    input.read_exact(&mut text).unwrap();
    text
}

fn random_schema(r: &mut random::Random) -> (Vec<u8>, Schema) {
    loop {
        let text = random::schema(r).into_bytes();
        if let Ok(s) = read_schema(&text) {
            return (text, s);
        }
    }
}

/// A journal and the schema that it is read with: as made, damaged at a byte, or with a tag changed.
fn random_journal(r: &mut random::Random) -> (Vec<u8>, Vec<u8>) {
    let (schema, s) = random_schema(r);
    let made = random::journal(r, &s);
    let journal = match r.below(4) {
        0 | 1 => made,
        2 => random::damaged(r, &made),
        _ => random::retagged(r, &made),
    };
    (schema, journal)
}

fn write_journals(seed: u64, count: usize, cases: &str, outcomes: &str) {
    let mut r = random::Random::new(seed);
    let (mut into, mut expected) = (Vec::new(), Vec::new());
    let mut numbers = std::collections::BTreeMap::new();
    for _ in 0..count {
        let (schema, journal) = random_journal(&mut r);
        let lent = if r.chance(3) { r.below(20) } else { 65_535 };
        for n in [MAX_JOURNAL, lent] {
            into.extend((n as u32).to_be_bytes());
        }
        for t in [&schema, &journal] {
            into.extend((t.len() as u32).to_be_bytes());
            into.extend(t);
        }
        let gives = outcome("journal", &[schema, journal], &[MAX_JOURNAL, lent]);
        *numbers.entry(gives.as_ref().map_or_else(|r| r.number, |_| 0)).or_insert(0) += 1;
        expected.extend(gives.unwrap_or_else(message));
    }
    std::fs::write(cases, into).unwrap();
    std::fs::write(outcomes, expected).unwrap();
    println!("outcomes by refusal, 0 for none: {numbers:?}");
}

fn numbers(rows: &[Row], path: &bundle::Path) -> Vec<usize> {
    table::selected(rows, path).into_iter().map(|i| rows[i].number).collect()
}

/// What is counted of journals that are spelt otherwise.
const SPELT: &str = "a kept text spelt otherwise";

/// What is read from the extract of rows: the rows but for text starts and raw lengths, with the same characters, which are not decoded again.
fn try_writing(s: &Schema, rows: &[Row], text: &[u8]) -> Vec<Row> {
    let written = extract::write_extract(rows, text);
    let read = extract::read_extract(s, &written).expect("an extract is read back");
    let but_texts = |r: &Row| (r.number, r.name, r.parent, r.decoded);
    assert!(rows.iter().map(but_texts).eq(read.iter().map(but_texts)) && read.iter().all(|r| r.size == r.decoded));
    let texts = |rows: &[Row], text: &[u8]| {
        let all = rows.iter().filter(|r| matches!(r.name, Name::Text(_))).map(|r| table::row_characters(r, text).unwrap());
        all.collect::<Vec<_>>()
    };
    assert!(texts(rows, text) == texts(&read, &written));
    assert!(extract::write_extract(&read, &written) == written);
    read
}

/// Two journals that differ in spelling alone give one extract. The other spelling may pass the limit of a text.
fn try_spelling(r: &mut random::Random, seen: &mut Seen, s: &Schema, text: &[u8], needed: &Names, kept: &[Row]) {
    let other = random::respelt(r, text);
    let other_kept = match read_journal(s, &other, MAX_JOURNAL) {
        Ok(rows) => table::cut(&rows, needed),
        Err(refusal) => return assert!(refusal.number == 16),
    };
    assert!(extract::write_extract(&other_kept, &other) == extract::write_extract(kept, text));
    if kept.iter().zip(&other_kept).any(|(k, o)| k.size != o.size) {
        seen.note(SPELT.to_string());
    }
}

/// Each path selects the same nodes on the whole journal, on its extract, and on cuts to sets that contain the needed names.
fn try_demand3(seed: u64, count: usize) {
    let mut r = random::Random::new(seed);
    let (mut tried, mut found, mut smaller) = (0, 0, 0);
    let mut seen = Seen::default();
    while tried < count {
        let (_, s, text) = random_texts(&mut r);
        let bundle = random_bundle(&mut r, &s, &text);
        let (Ok(paths), Ok(rows)) = (read_bundle(&s, bundle.as_bytes()), read_journal(&s, &text, MAX_JOURNAL)) else { continue };
        let needed = bundle_needs(&s, &paths);
        let more: Names = (0..64).filter_map(Name::of_code).filter(|n| needed.contains(n) || r.chance(30)).collect();
        let kept = table::cut(&rows, &needed);
        let read = try_writing(&s, &kept, &text);
        try_spelling(&mut r, &mut seen, &s, &text, &needed, &kept);
        seen.texts(kept.iter(), &text);
        for p in &paths {
            let whole = numbers(&rows, p);
            assert!(whole == numbers(&kept, p) && whole == numbers(&table::cut(&rows, &more), p) && whole == numbers(&read, p), "{p:?}");
            found += !whole.is_empty() as usize;
            seen.path(p, whole.len());
        }
        smaller += (kept.len() < rows.len()) as usize;
        tried += 1;
    }
    let spelt = seen.counts.get(SPELT).copied().unwrap_or(0);
    println!("demand 3 held {tried} times; {found} selections had nodes, {smaller} extracts had fewer rows than their journals");
    println!("{spelt} journals whose kept texts were spelt otherwise gave the same extract");
    assert!(found > count / 10 && smaller > count / 10);
    let never = missing(&seen, wanted_steps().into_iter().chain(wanted_texts()).chain([SPELT.to_string()]).collect());
    assert!(never.is_empty(), "these never came: {}", never.join("; "));
}

fn main() {
    let arguments: Vec<String> = std::env::args().skip(1).collect();
    if let [what, seed, count, cases, outcomes] = &arguments[..] {
        assert_eq!(what, "journals");
        return write_journals(seed.parse().unwrap(), count.parse().unwrap(), cases, outcomes);
    }
    if let [what, seed, count] = &arguments[..] {
        assert_eq!(what, "demand3");
        return try_demand3(seed.parse().unwrap(), count.parse().unwrap());
    }
    let mut input = stdin().lock();
    let mut output = stdout().lock();
    while let Some(does) = line(&mut input) {
        let texts: usize = line(&mut input).unwrap().parse().unwrap();
        let limits: Vec<usize> = line(&mut input).unwrap().split_whitespace().map(|w| w.parse().unwrap()).collect();
        let texts: Vec<Vec<u8>> = (0..texts).map(|_| bytes(&mut input)).collect();
        let gives = outcome(&does, &texts, &limits).unwrap_or_else(message);
        output.write_all(&(gives.len() as u32).to_be_bytes()).unwrap();
        output.write_all(&gives).unwrap();
    }
}
