//! The chase, in the order of SPECIFICATION, The chase.

use crate::joins::first_choice;
use crate::mapping::{identity, Mapping};
use crate::record::*;
use crate::record::Entry::{Constant, Variable};

pub struct Chased {
    /// The never query after a clash.
    pub query: Query,
    /// Replacements made.
    pub count: usize,
    /// What each variable of the given query became, without a clash; others map to themselves.
    pub became: Mapping,
}

/// The first pair of entries that some dependency makes equal and that differ. On an empty left set any two rows agree.
fn find_step(dependencies: &[Dependency], rows: &[Row]) -> Option<(Entry, Entry)> {
    for d in dependencies {
        for i in 0..rows.len() {
            for j in i + 1..rows.len() {
                let (a, b) = (&rows[i], &rows[j]);
                if a.relation != d.relation || b.relation != d.relation {
                    continue;
                }
                let agree = d.left_columns().all(|c| a.entries[c] == b.entries[c]);
                let (x, y) = (a.entries[d.right as usize], b.entries[d.right as usize]);
                if agree && x != y {
                    return Some((x, y));
                }
            }
        }
    }
    None
}

/// Of two different entries: the one that stays and the variable that goes. None when they clash.
pub(crate) fn survivor(x: Entry, y: Entry, head: &[Entry]) -> Option<(Entry, Entry)> {
    match (x, y) {
        (Constant(_), Constant(_)) => None,
        (Constant(_), Variable(_)) => Some((x, y)),
        (Variable(_), Constant(_)) => Some((y, x)),
        (Variable(a), Variable(b)) => {
            let first_stays = match (head.contains(&x), head.contains(&y)) {
                (true, false) => true,
                (false, true) => false,
                _ => a < b,
            };
            Some(if first_stays { (x, y) } else { (y, x) })
        }
    }
}

/// The chase with functional dependencies.
pub fn chase(dependencies: &[Dependency], source: &Query) -> Chased {
    let mut query = source.clone();
    let mut count = 0;
    let mut became = identity();
    while let Some((x, y)) = find_step(dependencies, &query.rows) {
        let Some((stays, goes)) = survivor(x, y, &query.head) else {
            return Chased { query: Query::never(source.head_length), count, became };
        };
        let all = query.rows.iter_mut().flat_map(|r| &mut r.entries).chain(&mut query.head).chain(&mut became);
        for e in all {
            if *e == goes {
                *e = stays;
            }
        }
        count += 1;
    }
    Chased { query, count, became }
}

/// Rows that repeat an earlier one go.
pub fn without_repeats(rows: &[Row]) -> Vec<Row> {
    let mut kept: Vec<Row> = vec![];
    for row in rows {
        if !kept.contains(row) {
            kept.push(row.clone());
        }
    }
    kept
}

/// The first row that some join dependency asks for and that is not there.
fn missing_row(joins: &[JoinDependency], rows: &[Row]) -> Option<Row> {
    let all: Vec<(u8, &[Entry])> = rows.iter().map(|r| (r.relation, &r.entries[..])).collect();
    joins.iter().find_map(|j| Some(Row { relation: j.relation, entries: first_choice(j, &all)?.yielded }))
}

/// The chase with dependencies of both kinds, refused where it would add a row to as many as are allowed. After a clash the query
/// is never, of which no row is missing.
pub fn chase_with_joins(dependencies: &[Dependency], joins: &[JoinDependency], source: &Query) -> Result<Query, Refusal> {
    let mut query = chase(dependencies, source).query;
    if joins.is_empty() {
        return Ok(query);
    }
    loop {
        query.rows = without_repeats(&query.rows);
        let Some(row) = missing_row(joins, &query.rows) else { return Ok(query) };
        if query.rows.len() == MAX_CHASED_ROWS {
            return Err(OVERFLOW);
        }
        query.rows.push(row);
        query = chase(dependencies, &query).query;
    }
}
