//! The listing program's text.

use crate::file::read;
use crate::mapping::Mapping;
use crate::record::*;
use crate::record::Entry::{Constant, Variable};
use crate::reduction::reduce;

/// The listing reads no more of its input.
pub const INPUT_LIMIT: usize = 65_536;

pub fn cut(input: &[u8]) -> &[u8] {
    &input[..input.len().min(INPUT_LIMIT)]
}

pub fn entry_text(entry: Entry) -> String {
    match entry {
        Constant(c) => format!("{c}"),
        Variable(v) => format!("v{v}"),
    }
}

fn entries_text(entries: &[Entry]) -> String {
    entries.iter().map(|&e| format!(" {}", entry_text(e))).collect()
}

/// The lines of one place. The mapping is absent exactly when the result is never.
pub fn place_text(place: usize, source: &Query, result: &Query, count: usize, mapping: Option<&Mapping>) -> String {
    let before = source.rows.len();
    let Some(mapping) = mapping else {
        return format!("place {place} rows {before} never replaced {count}\n");
    };
    let mut text = format!("place {place} rows {before} kept {} replaced {count}\n", result.rows.len());
    text += &format!("head{}\n", entries_text(&result.head));
    for row in &result.rows {
        text += &format!("row {}{}\n", row.relation, entries_text(&row.entries));
    }
    text += "map";
    for v in source.variables() {
        text += &format!(" v{v}={}", entry_text(mapping[v as usize]));
    }
    text + "\n"
}

pub fn list(input: &[u8]) -> String {
    let record = match read(cut(input)) {
        Ok(record) => record,
        Err(n) => return format!("refused {n}\n"),
    };
    let mut text = String::new();
    for (p, place) in record.places.iter().enumerate() {
        let Some(source) = place else { continue };
        let mut alone = record.clone();
        for (k, other) in alone.places.iter_mut().enumerate() {
            if k != p {
                *other = None;
            }
        }
        let target = if p == 0 { 1 } else { 0 };
        let (_, reduced) = reduce(&alone, p as u8, target).expect("a sound record, a filled and a vacant place");
        text += &place_text(p, source, &reduced.result, reduced.count, reduced.mapping.as_ref());
    }
    text
}
