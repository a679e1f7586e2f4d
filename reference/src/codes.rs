//! Reading: each old code as its current one, before anything else is done with a query, a mapping or a database.
//! A current code is no old one, so that to read twice is to read once. Variables and the numbers of relations are no codes.

use crate::mapping::Mapping;
use crate::record::*;
use crate::record::Entry::{Constant, Variable};

pub fn read_number(codes: &[CodePair], n: u32) -> u32 {
    codes.iter().find(|p| p.old == n).map_or(n, |p| p.current)
}

pub fn read_entry(codes: &[CodePair], entry: Entry) -> Entry {
    match entry {
        Constant(n) => Constant(read_number(codes, n)),
        Variable(_) => entry,
    }
}

fn read_entries(codes: &[CodePair], entries: &[Entry]) -> Vec<Entry> {
    entries.iter().map(|&e| read_entry(codes, e)).collect()
}

/// Head and rows. Never has no entries, so nothing of it is read.
pub fn read_query(codes: &[CodePair], query: &Query) -> Query {
    let row = |row: &Row| Row { relation: row.relation, entries: read_entries(codes, &row.entries) };
    Query { head_length: query.head_length, head: read_entries(codes, &query.head), rows: query.rows.iter().map(row).collect() }
}

/// The images of the variables that the query has. Those of others are not read.
pub fn read_images(codes: &[CodePair], query: &Query, mapping: &Mapping) -> Mapping {
    let mut out = *mapping;
    for v in query.variables() {
        out[v as usize] = read_entry(codes, out[v as usize]);
    }
    out
}

/// The queries of places to be read, as they are read. Refused as `Record::filled` is.
pub fn queries<const N: usize>(record: &Record, places: [u8; N]) -> Result<[Query; N], Refusal> {
    Ok(record.filled(places)?.map(|query| read_query(&record.codes, query)))
}
