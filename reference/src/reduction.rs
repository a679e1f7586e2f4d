//! Reduction: the chased query without the rows it can do without, sorted.

use crate::chase::chase;
use crate::codes::queries;
use crate::mapping::{find, Mapping};
use crate::record::*;

pub struct Reduced {
    pub result: Query,
    /// Replacements the chase made.
    pub count: usize,
    /// From the source query, as it is read, to the result; none when the result is never.
    pub mapping: Option<Mapping>,
}

/// Rows are tried from the last position to the first, once each. A row goes if what is left with it maps into what is left without it; to ask for a mapping
/// from the whole query is the same, since that maps into what is left all along. The rows that stay are sorted.
pub fn core(query: &Query) -> Query {
    let mut kept = query.clone();
    for k in (0..query.rows.len()).rev() {
        // Only rows after position k have gone, so row k still stands there.
        let mut fewer = kept.clone();
        let row = fewer.rows.remove(k);
        // A repeated row goes without a search.
        if fewer.rows.contains(&row) || find(&kept, &fewer).is_some() {
            kept = fewer;
        }
    }
    // By relation, then by entries from the left.
    kept.rows.sort();
    kept
}

pub fn reduce_query(dependencies: &[Dependency], source: &Query) -> Reduced {
    let chased = chase(dependencies, source);
    let result = core(&chased.query);
    let mapping = find(source, &result);
    assert_eq!(mapping.is_none(), result.is_never());
    Reduced { result, count: chased.count, mapping }
}

pub fn reduce(record: &Record, source: u8, target: u8) -> Result<(Record, Reduced), Refusal> {
    record.sound()?;
    if source as usize >= PLACES || target as usize >= PLACES {
        return Err(PLACE);
    }
    let [query] = queries(record, [source])?;
    if record.places[target as usize].is_some() {
        return Err(FILLED);
    }
    let reduced = reduce_query(&record.dependencies, &query);
    let mut after = record.clone();
    after.places[target as usize] = Some(reduced.result.clone());
    Ok((after, reduced))
}
