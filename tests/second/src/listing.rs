//! What the program `listing` prints.
use crate::bundle::read_bundle;
use crate::journal::read_journal;
use crate::needed::bundle_needs;
use crate::schema::read_schema;
use crate::table::{chain, cut, selected};
use crate::text::{refused, Refused};

const MAX_LISTED_BYTES: usize = 32_768;
const MAX_LISTED_ROWS: usize = 4096;

pub fn listing(schema: &[u8], paths: &[u8], journal: &[u8]) -> Result<Vec<u8>, Refused> {
    let s = read_schema(schema)?;
    let ps = read_bundle(&s, paths)?;
    let rows = read_journal(&s, journal, MAX_LISTED_BYTES)?;
    if rows.len() > MAX_LISTED_ROWS {
        return Err(refused(18, 0));
    }
    let of_paths: Vec<Vec<usize>> = ps.iter().map(|p| selected(&rows, p)).collect();
    let chosen: Vec<(usize, usize)> = (0..rows.len()).filter_map(|i| of_paths.iter().position(|w| w.contains(&i)).map(|p| (i, p + 1))).collect();
    let kept = cut(&rows, &bundle_needs(&s, &ps)).len();
    let mut out = format!("selected {} kept {} of {}\n", chosen.len(), kept, rows.len()).into_bytes();
    for (i, place) in chosen {
        out.extend(format!("{} {} ", rows[i].number, place).bytes());
        out.extend(chain(&s, &rows, i));
        out.push(b'\n');
    }
    Ok(out)
}
