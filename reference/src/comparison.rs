//! Comparing two places, and checking a mapping between them.

use crate::chase::chase_with_joins;
use crate::codes::{queries, read_images};
use crate::mapping::{find, is_mapping, Mapping};
use crate::record::*;

pub enum Verdict {
    /// p's query chases to never: contained, no mapping.
    ContainedAsNever,
    /// A mapping from q's query to p's chased query.
    Contained(Mapping),
    /// p's chased query.
    NotContained(Query),
}

/// Both queries as they are read.
fn two(record: &Record, p: u8, q: u8) -> Result<[Query; 2], Refusal> {
    let both = queries(record, [p, q])?;
    if both[0].head_length != both[1].head_length {
        return Err(HEAD_LENGTHS);
    }
    Ok(both)
}

/// Is p contained in q?
pub fn compare(record: &Record, p: u8, q: u8) -> Result<Verdict, Refusal> {
    let [of_p, of_q] = two(record, p, q)?;
    let chased = chase_with_joins(&record.dependencies, &record.joins, &of_p)?;
    Ok(if chased.is_never() {
        Verdict::ContainedAsNever
    } else {
        match find(&of_q, &chased) {
            Some(mapping) => Verdict::Contained(mapping),
            None => Verdict::NotContained(chased),
        }
    })
}

/// Is it a mapping from q's query to p's query, neither of them chased? Both are read, and so are the images of the variables that q's query has.
pub fn check(record: &Record, p: u8, q: u8, mapping: &Mapping) -> Result<bool, Refusal> {
    let [of_p, of_q] = two(record, p, q)?;
    Ok(is_mapping(&of_q, &of_p, &read_images(&record.codes, &of_q, mapping)))
}
