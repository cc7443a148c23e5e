//! Random paths that select something on a given table: each step is tried until one is found that leaves a node.
use crate::bundle::read_bundle;
use crate::random::{conditional_step, Random};
use crate::schema::Schema;
use crate::table::{selected, Row};

fn selects(s: &Schema, rows: &[Row], path: &str) -> bool {
    read_bundle(s, format!("{path}\n").as_bytes()).is_ok_and(|paths| !selected(rows, &paths[0]).is_empty())
}

fn path(r: &mut Random, s: &Schema, rows: &[Row]) -> String {
    let mut found = "self::node()".to_string();
    for k in 0..1 + r.below(5) {
        let tried: Vec<String> = (0..8).map(|_| if k == 0 { conditional_step(r, s) } else { format!("{found}/{}", conditional_step(r, s)) }).collect();
        if let Some(next) = tried.into_iter().find(|t| selects(s, rows, t)) {
            found = next;
        }
    }
    found
}

pub fn bundle(r: &mut Random, s: &Schema, rows: &[Row]) -> String {
    (0..1 + r.below(3)).map(|_| path(r, s, rows) + "\n").collect()
}
