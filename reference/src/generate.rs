//! Seeded records, queries and files: sound ones of many shapes, and damaged files.

use crate::closure::determined;
use crate::codes::{read_number, read_query};
use crate::file::{bytes, codes_bytes, join, joins_bytes, query_bytes, record_parts};
use crate::random::Random;
use crate::record::*;
use crate::record::Entry::{Constant, Variable};

/// How a random query looks.
pub struct Profile {
    pub rows: (usize, usize),
    /// Entries are drawn from this many variables.
    pub variables: usize,
    /// Chance of a constant, of 100, and how many constants there are.
    pub constant_chance: usize,
    pub constants: u32,
    pub head: usize,
}

pub fn widths(r: &mut Random, relations: (usize, usize), columns: (usize, usize)) -> Vec<u8> {
    let n = r.between(relations.0, relations.1);
    (0..n).map(|_| r.between(columns.0, columns.1) as u8).collect()
}

pub fn dependency(r: &mut Random, widths: &[u8], left_most: usize) -> Dependency {
    let relation = r.below(widths.len()) as u8;
    let w = widths[relation as usize] as usize;
    let mut left = 0;
    for _ in 0..r.between(1, left_most) {
        left |= 1 << r.below(w);
    }
    Dependency { relation, left, right: r.below(w) as u8 }
}

/// The dependency whose numbers are all 0.
pub const ZEROS: Dependency = Dependency { relation: 0, left: 0, right: 0 };

/// A dependency with an empty left set, often that of zeros.
pub fn empty_left(r: &mut Random, widths: &[u8]) -> Dependency {
    if r.percent(25) {
        return ZEROS;
    }
    let relation = r.below(widths.len());
    Dependency { relation: relation as u8, left: 0, right: r.below(widths[relation] as usize) as u8 }
}

/// Dependencies, now and then one of them twice. In half of the lists some have an empty left set, often the first or the last.
pub fn dependencies(r: &mut Random, widths: &[u8], n: usize, left_most: usize) -> Vec<Dependency> {
    let mut all: Vec<Dependency> = vec![];
    for _ in 0..n {
        let d = if !all.is_empty() && r.percent(5) { *r.pick(&all) } else { dependency(r, widths, left_most) };
        all.push(d);
    }
    if n > 0 && r.percent(50) {
        for _ in 0..r.between(1, 1 + n / 3) {
            let any = r.below(n);
            let at = *r.pick(&[0, n - 1, any, any]);
            all[at] = empty_left(r, widths);
        }
    }
    all
}

/// A join dependency of a relation of this width. Each column is in one set at least; sets share none, some or a key.
pub fn join_of(r: &mut Random, relation: u8, width: u8) -> JoinDependency {
    let w = width as usize;
    let mut sets = vec![0u8; *r.pick(&[2, 2, 2, 3, 3, 4])];
    let key = if r.percent(50) { 1 << r.below(w) } else { 0 };
    let shared = *r.pick(&[0, 0, 0, 20, 50]);
    for c in 0..w {
        let at = r.below(sets.len());
        sets[at] |= 1 << c;
        sets.iter_mut().for_each(|set| *set |= (r.percent(shared) as u8) << c);
    }
    for set in &mut sets {
        *set |= if *set == 0 && key == 0 { 1 << r.below(w) } else { key };
    }
    JoinDependency { relation, sets }
}

/// Join dependencies, several of one relation among them, and repeats.
pub fn joins(r: &mut Random, widths: &[u8], n: usize) -> Vec<JoinDependency> {
    let mut all: Vec<JoinDependency> = vec![];
    let one = r.below(widths.len());
    for _ in 0..n {
        let relation = if r.percent(50) { one } else { r.below(widths.len()) };
        let j = if !all.is_empty() && r.percent(8) { r.pick(&all).clone() } else { join_of(r, relation as u8, widths[relation]) };
        all.push(j);
    }
    all
}

/// Head entries for these rows: variables that occur, or constants.
pub fn head(r: &mut Random, rows: &[Row], most: usize, constants: u32) -> Vec<Entry> {
    let occurring: Vec<u8> = Query::new(vec![], rows.to_vec()).variables();
    let n = r.below(most + 1);
    (0..n)
        .map(|_| {
            if occurring.is_empty() || r.percent(10) {
                Constant(r.below(constants as usize) as u32)
            } else {
                Variable(*r.pick(&occurring))
            }
        })
        .collect()
}

pub fn query(r: &mut Random, widths: &[u8], p: &Profile) -> Query {
    let n = r.between(p.rows.0, p.rows.1);
    let mut rows: Vec<Row> = vec![];
    for _ in 0..n {
        if !rows.is_empty() && r.percent(6) {
            let again = r.pick(&rows).clone();
            rows.push(again);
            continue;
        }
        let relation = r.below(widths.len());
        let entries = (0..widths[relation])
            .map(|_| {
                if r.percent(p.constant_chance) {
                    Constant(r.below(p.constants as usize) as u32)
                } else {
                    Variable(r.below(p.variables) as u8)
                }
            })
            .collect();
        rows.push(Row { relation: relation as u8, entries });
    }
    let head = head(r, &rows, p.head, p.constants);
    if rows.is_empty() {
        return Query::never(r.below(MAX_HEAD + 1) as u8);
    }
    Query::new(head, rows)
}

pub fn substitute(query: &Query, f: impl Fn(Entry) -> Entry) -> Query {
    let mut out = query.clone();
    out.head.iter_mut().chain(out.rows.iter_mut().flat_map(|r| &mut r.entries)).for_each(|e| *e = f(*e));
    out
}

/// Gives the variables other numbers.
pub fn renumber(r: &mut Random, query: &Query) -> Query {
    let mut numbers: Vec<u8> = (0..VARIABLES as u8).collect();
    r.shuffle(&mut numbers);
    substitute(query, |e| match e {
        Variable(v) => Variable(numbers[v as usize]),
        c => c,
    })
}

/// The record with other constants in its queries: some of one, two, three and four bytes, that come in another order by their first bytes or as text. Where it
/// has pairs of codes it gets others.
pub fn with_long_constants(r: &mut Random, record: &Record) -> Record {
    let mut numbers = [0, 2, 9, 10, 99, 255, 256, 257, 1000, 65_535, 65_536, 16_777_216, MAX_CONSTANT];
    r.shuffle(&mut numbers);
    let mut out = Record { codes: vec![], ..record.clone() };
    for query in out.places.iter_mut().flatten() {
        *query = substitute(&read_query(&record.codes, query), |e| match e {
            Constant(c) => Constant(numbers.get(c as usize).copied().unwrap_or(c)),
            v => v,
        });
    }
    if record.codes.is_empty() { out } else { with_codes(r, out) }
}

/// So many pairs of codes, by preference of these numbers. 0 is often among the old codes or the current ones, and pairs often share a current code.
pub fn codes(r: &mut Random, numbers: &[u32], n: usize) -> Vec<CodePair> {
    let mut near = numbers.to_vec();
    let few = [0, 1, 2, 3, 4, 7, 255, 256, 65_536, MAX_CONSTANT - 1, MAX_CONSTANT];
    near.extend((0..r.between(2, 5)).map(|_| *r.pick(&few)));
    while near.len() < 60 {
        near.push(if r.percent(50) { r.below(100) as u32 } else { (r.next() % (1 << 31)) as u32 });
    }
    let mut all: Vec<u32> = vec![];
    near.into_iter().for_each(|x| if !all.contains(&x) { all.push(x) });
    let first = (n + 4).min(all.len());
    r.shuffle(&mut all[..first]);
    let zero = r.below(100);
    all.retain(|&x| x != 0 || zero >= 70);
    match zero {
        0..=39 => all.insert(r.below(n.max(1)), 0),
        40..=69 => all.insert(n, 0),
        _ => {}
    }
    let (old, rest) = all.split_at(n);
    let current = &rest[..*r.pick(&[1, 1, 2, 3, 5])];
    old.iter().map(|&old| CodePair { old, current: *r.pick(current) }).collect()
}

/// A number that is read as this one is: now and then an old code in its stead.
pub fn alias(r: &mut Random, codes: &[CodePair], n: u32, chance: usize) -> u32 {
    let n = read_number(codes, n);
    let old: Vec<u32> = codes.iter().filter(|p| p.current == n).map(|p| p.old).collect();
    if old.is_empty() || !r.percent(chance) { n } else { *r.pick(&old) }
}

/// The query with other constants that are read as its constants are.
pub fn aliased(r: &mut Random, codes: &[CodePair], query: &Query, chance: usize) -> Query {
    let mut out = query.clone();
    for e in out.head.iter_mut().chain(out.rows.iter_mut().flat_map(|row| &mut row.entries)) {
        if let Constant(c) = *e {
            *e = Constant(alias(r, codes, c, chance));
        }
    }
    out
}

/// The record with pairs of codes, for which constants of its queries are old and current ones: some that were different are read as one now, and of others
/// old codes take the place. Now and then such a constant stands where one variable stood in several rows.
pub fn with_codes(r: &mut Random, mut record: Record) -> Record {
    let mut constants: Vec<u32> = vec![];
    for query in record.places.iter().flatten() {
        let all = query.head.iter().chain(query.rows.iter().flat_map(|row| &row.entries));
        constants.extend(all.filter_map(|e| if let Constant(c) = e { Some(*c) } else { None }));
    }
    constants.sort();
    constants.dedup();
    r.shuffle(&mut constants);
    constants.truncate(8);
    let few = r.between(1, 6);
    let n = *r.pick(&[few, few, few, few, few, few, 15, MAX_CODES]);
    record.codes = codes(r, &constants, n);
    let chance = *r.pick(&[30, 70, 70, 100]);
    for query in record.places.iter_mut().flatten() {
        for _ in 0..*r.pick(&[0, 0, 1, 2]) {
            let variables = query.variables();
            if !variables.is_empty() {
                let (v, current) = (*r.pick(&variables), r.pick(&record.codes).current);
                *query = substitute(query, |e| if e == Variable(v) { Constant(current) } else { e });
            }
        }
        *query = aliased(r, &record.codes, query, chance);
    }
    record
}

/// In three of ten records there are pairs of codes.
fn with_some_codes(r: &mut Random, record: Record) -> Record {
    let out = if r.percent(30) { with_codes(r, record) } else { record };
    assert!(out.is_sound());
    out
}

fn unused(query: &Query) -> Vec<u8> {
    let used = query.variables();
    (0..VARIABLES as u8).filter(|v| !used.contains(v)).collect()
}

/// Adds copies of some rows with some variables that aren't in the head renamed, or constants
/// made variables: rows that fold back.
pub fn unfold(r: &mut Random, query: &Query) -> Query {
    let mut out = query.clone();
    for _ in 0..r.between(1, 3) {
        let mut fresh = unused(&out);
        r.shuffle(&mut fresh);
        let mut names: std::collections::BTreeMap<Entry, Entry> = Default::default();
        let take = r.between(1, 5);
        let mut picked = out.rows.clone();
        r.shuffle(&mut picked);
        picked.truncate(take.min(MAX_ROWS.saturating_sub(out.rows.len())));
        for row in picked {
            let mut copy = row;
            for e in &mut copy.entries {
                if out.head.contains(e) {
                    continue;
                }
                if let Some(name) = names.get(e) {
                    *e = *name;
                } else if r.percent(70) {
                    if let Some(v) = fresh.pop() {
                        names.insert(*e, Variable(v));
                        *e = Variable(v);
                    }
                } else {
                    names.insert(*e, *e);
                }
            }
            out.rows.push(copy);
        }
    }
    out
}

/// Adds copies of rows that agree on a dependency's left side and differ elsewhere, or in the right column alone: rows that
/// the chase brings together again, or that clash.
pub fn split(r: &mut Random, query: &Query, dependencies: &[Dependency]) -> Query {
    let mut out = query.clone();
    for _ in 0..r.between(1, 4) {
        if dependencies.is_empty() || out.rows.len() >= MAX_ROWS {
            break;
        }
        let d = *r.pick(dependencies);
        let of_relation: Vec<Row> = out.rows.iter().filter(|x| x.relation == d.relation).cloned().collect();
        if of_relation.is_empty() {
            continue;
        }
        let mut copy = r.pick(&of_relation).clone();
        let mut fresh = unused(&out);
        r.shuffle(&mut fresh);
        let agree = if d.left == 0 && r.percent(60) { !(1 << d.right) } else { d.left };
        for c in 0..copy.entries.len() {
            if agree >> c & 1 == 0 && r.percent(80) {
                if r.percent(8) {
                    copy.entries[c] = Constant(r.below(4) as u32);
                } else if let Some(v) = fresh.pop() {
                    copy.entries[c] = Variable(v);
                    if out.head.len() < MAX_HEAD && r.percent(15) {
                        out.head.push(Variable(v));
                        out.head_length += 1;
                    }
                }
            }
        }
        out.rows.push(copy);
    }
    out
}

fn rearranged(r: &mut Random, query: &Query) -> Query {
    let mut out = renumber(r, query);
    r.shuffle(&mut out.rows);
    out
}

fn edge(a: usize, b: usize) -> Row {
    Row { relation: 0, entries: vec![Variable(a as u8), Variable(b as u8)] }
}

/// A graph of one relation with two columns, mostly under an empty head.
fn graph(r: &mut Random) -> Query {
    let mut rows = vec![];
    let mut base = 0;
    match r.below(4) {
        0 => {
            let points = r.between(2, 12);
            for _ in 0..r.between(3, 12) {
                rows.push(edge(r.below(points), r.below(points)));
            }
        }
        1 => {
            // Cycles and paths side by side.
            while rows.len() < 12 && !r.percent(25) {
                let n = r.between(1, (12 - rows.len()).min(7));
                let closed = r.percent(60);
                for k in 0..n {
                    let next = if closed { (k + 1) % n } else { k + 1 };
                    rows.push(edge(base + k, base + next));
                }
                base += n + 1;
            }
        }
        2 => {
            // Oriented cycles: edges either way round.
            let n = r.between(3, 12);
            for k in 0..n {
                let (a, b) = (k, (k + 1) % n);
                rows.push(if r.percent(65) { edge(a, b) } else { edge(b, a) });
            }
        }
        _ => {
            // Undirected edges: both ways.
            let points = r.between(3, 6);
            for _ in 0..r.between(3, 6) {
                let (a, b) = (r.below(points), r.below(points));
                rows.push(edge(a, b));
                rows.push(edge(b, a));
            }
        }
    }
    if rows.is_empty() {
        rows.push(edge(0, 0));
    }
    let most = if r.percent(70) { 0 } else { 2 };
    let head = head(r, &rows, most, 3);
    rearranged(r, &Query::new(head, rows))
}

/// Many rows without a common variable before a few that can't be carried anywhere else: a
/// search that goes back one row at a time takes very long.
fn scattered(r: &mut Random) -> (Vec<u8>, Query) {
    let widths = vec![2, r.between(1, 3) as u8, 3];
    let free = r.between(6, 9);
    let mut rows = vec![];
    for k in 0..free {
        let relation = r.below(2);
        let w = widths[relation] as usize;
        rows.push(Row {
            relation: relation as u8,
            entries: (0..w).map(|c| Variable((k * 3 + c) as u8)).collect(),
        });
    }
    let n = 12 - free;
    for k in 0..n {
        let v = |x: usize| Variable((40 + x % n) as u8);
        rows.push(Row { relation: 2, entries: vec![v(k), v(k + 1), v(k + r.below(2))] });
    }
    let head = if r.percent(50) { vec![] } else { head(r, &rows, 8, 3) };
    let query = Query::new(head, rows);
    let query = if r.percent(50) { rearranged(r, &query) } else { renumber(r, &query) };
    (widths, query)
}

/// Copies of a few rows, alike but for the variables that aren't in the head, in any order: rows of each could stay.
fn copies(r: &mut Random, widths: &[u8]) -> Query {
    let n = r.between(2, 4);
    let p = Profile { rows: (n, n), variables: r.between(2, 4), constant_chance: 5, constants: 2, head: 1 };
    let base = query(r, widths, &p);
    let mut out = base.clone();
    for k in 1..r.between(2, MAX_ROWS / n) {
        let copy = substitute(&base, |e| match e {
            Variable(v) if !base.head.contains(&e) => Variable(v + 4 * k as u8),
            e => e,
        });
        out.rows.extend(copy.rows);
    }
    rearranged(r, &out)
}

/// Rows that share a left side, which may be empty, while the dependencies stand in the unlucky order.
fn chain(r: &mut Random) -> (Vec<u8>, Vec<Dependency>, Query) {
    let w = r.between(2, 8);
    let mut deps: Vec<Dependency> =
        (1..w).map(|c| Dependency { relation: 0, left: 1 << (c - 1), right: c as u8 }).collect();
    let from_nothing = r.percent(30);
    if from_nothing {
        deps.insert(0, ZEROS);
    }
    match r.below(3) {
        0 => deps.reverse(),
        1 => r.shuffle(&mut deps),
        _ => {}
    }
    let n = r.between(2, 12);
    let ends = if from_nothing { n } else if r.percent(70) { 1 } else { 2 };
    let mut rows = vec![];
    for k in 0..n {
        let mut entries: Vec<Entry> = (0..w).map(|c| Variable((k * 8 + c) as u8)).collect();
        entries[0] = Variable(((k % ends) * 8) as u8);
        if r.percent(15) {
            let c = r.between(1, w - 1);
            entries[c] = Constant(r.below(2) as u32);
        }
        rows.push(Row { relation: 0, entries });
    }
    let head = head(r, &rows, 8, 2);
    (vec![w as u8], deps, rearranged(r, &Query::new(head, rows)))
}

/// All 96 variables, or as many as the widths allow, each standing once.
fn distinct(r: &mut Random, widths: &[u8]) -> Query {
    let mut rows = vec![];
    let mut v = 0;
    for _ in 0..MAX_ROWS {
        let relation = r.below(widths.len());
        let entries = (0..widths[relation]).map(|_| { v += 1; Variable(v - 1) }).collect();
        rows.push(Row { relation: relation as u8, entries });
    }
    let head = head(r, &rows, 8, 3);
    rearranged(r, &Query::new(head, rows))
}

/// Fills some places with queries that `make` gives; never and vacancy come in between.
fn fill(r: &mut Random, record: &mut Record, most: usize, mut make: impl FnMut(&mut Random) -> Query) {
    for k in 0..r.between(1, most) {
        if r.percent(12) {
            continue;
        }
        let query = if r.percent(5) { Query::never(r.below(MAX_HEAD + 1) as u8) } else { make(r) };
        record.places[k] = Some(query);
    }
}

/// Changes most queries in columns that never vary, so that the chase takes fewer of them to never or to a single row: constants become equal there, and in
/// some queries fresh variables take the place of others.
fn settle(r: &mut Random, record: &mut Record) {
    let still: Vec<u8> = (0..record.widths.len()).map(|k| determined(record, k as u8, 0).expect("a sound record").0).collect();
    for query in record.places.iter_mut().flatten() {
        if still.iter().all(|&set| set == 0) || r.percent(25) {
            continue;
        }
        let (apart, head, mut fresh) = (r.percent(60), query.head.clone(), unused(query));
        r.shuffle(&mut fresh);
        let mut constants: std::collections::BTreeMap<(u8, usize), Entry> = Default::default();
        for row in &mut query.rows {
            for c in columns(still[row.relation as usize]) {
                let e = &mut row.entries[c];
                match e {
                    Constant(_) => *e = *constants.entry((row.relation, c)).or_insert(*e),
                    Variable(_) if apart && !head.contains(e) => *e = fresh.pop().map_or(*e, Variable),
                    Variable(_) => {}
                }
            }
        }
    }
}

/// A relation that a join dependency makes a product, with key columns or without, and rows of it whose chase comes close to
/// 24 rows or passes them.
fn product(r: &mut Random) -> (Vec<u8>, JoinDependency, Query) {
    // How many values each part of the columns has.
    let sizes: &[usize] = *r.pick(&[
        &[4, 5][..], &[7, 3], &[2, 11], &[4, 6], &[6, 4], &[3, 8], &[12, 2], &[1, 12], &[5, 5], &[3, 9], &[2, 2, 5], &[2, 2, 6], &[4, 3, 2], &[3, 3, 3],
        &[2, 2, 2, 2], &[2, 3, 2, 2], &[1, 2, 3, 4], &[3, 2], &[2, 2],
    ]);
    // The part that each column belongs to. A key column is in every set.
    let mut parts: Vec<Option<usize>> = (0..sizes.len()).map(Some).collect();
    if r.percent(30) {
        parts.push(Some(r.below(sizes.len())));
    }
    if r.percent(40) {
        parts.push(None);
    }
    r.shuffle(&mut parts);
    let in_set = |c: usize, k: usize| parts[c].is_none() || parts[c] == Some(k);
    let set = |k: usize| (0..parts.len()).filter(|&c| in_set(c, k)).map(|c| 1u8 << c).sum();
    let mut sets: Vec<u8> = (0..sizes.len()).map(set).collect();
    let keys = *r.pick(&[1, 1, 2]);
    let constant_chance = *r.pick(&[0, 0, 10, 30]);
    let mut entries: Vec<Vec<Entry>> = vec![];
    for part in &parts {
        let first = entries.iter().map(|e| e.len()).sum::<usize>();
        let entry = |t: usize| if r.percent(constant_chance) { Constant(t as u32) } else { Variable((first + t) as u8) };
        entries.push((0..part.map_or(keys, |k| sizes[k])).map(entry).collect());
    }
    // The first rows have every value of every part, further ones any.
    let due = *sizes.iter().max().expect("parts");
    let count = if r.percent(40) { due } else { r.between(due, MAX_ROWS) };
    let mut rows = vec![];
    for t in 0..count {
        let values: Vec<usize> = sizes.iter().map(|&n| if t < due { t % n } else { r.below(n) }).collect();
        let key = r.below(keys);
        let row = parts.iter().zip(&entries).map(|(part, of_column)| of_column[part.map_or(key, |k| values[k])]);
        rows.push(Row { relation: 0, entries: row.collect() });
    }
    // Rows of another relation, and repeats, count too.
    for _ in 0..r.below(MAX_ROWS - rows.len() + 1).min(4) {
        let other = Row { relation: 1, entries: vec![Variable(r.between(80, 83) as u8)] };
        let again = r.pick(&rows).clone();
        rows.push(if r.percent(60) { other } else { again });
    }
    r.shuffle(&mut rows);
    r.shuffle(&mut sets);
    let head = head(r, &rows, 4, 3);
    (vec![parts.len() as u8, 1], JoinDependency { relation: 0, sets }, renumber(r, &Query::new(head, rows)))
}

/// Rows under few keys, a join dependency over the keys, and functional dependencies between its sets: an added row makes
/// entries equal, or they clash.
fn keyed(r: &mut Random) -> (Vec<u8>, Vec<Dependency>, JoinDependency, Vec<Query>) {
    let w = r.between(3, 5);
    let mut sets = vec![1u8; r.between(2, 3)];
    for c in 1..w {
        let k = if c <= sets.len() { c - 1 } else { r.below(sets.len()) };
        sets[k] |= 1 << c;
    }
    let mut deps = vec![];
    for _ in 0..r.between(1, 2) {
        let left = *r.pick(&sets);
        deps.push(Dependency { relation: 0, left, right: r.below(w) as u8 });
    }
    if r.percent(25) {
        let right = if r.percent(50) { 0 } else { r.below(w) as u8 };
        deps.push(Dependency { relation: 0, left: 0, right });
        r.shuffle(&mut deps);
    }
    let mut queries = vec![];
    for _ in 0..r.between(1, 3) {
        let (keys, variables, constant_chance) = (r.between(1, 2), r.between(3, 20), *r.pick(&[0, 10, 40]));
        let row = |r: &mut Random| {
            let mut entries = vec![Variable(r.below(keys) as u8)];
            for _ in 1..w {
                let entry = if r.percent(constant_chance) { Constant(r.below(3) as u32) } else { Variable((8 + r.below(variables)) as u8) };
                entries.push(entry);
            }
            Row { relation: 0, entries }
        };
        let rows: Vec<Row> = (0..r.between(2, 5)).map(|_| row(r)).collect();
        let head = head(r, &rows, 3, 3);
        queries.push(rearranged(r, &Query::new(head, rows)));
    }
    r.shuffle(&mut sets);
    (vec![w as u8], deps, JoinDependency { relation: 0, sets }, queries)
}

/// A sound record with join dependencies and queries that the chase with them makes grow.
pub fn record_with_joins(r: &mut Random) -> Record {
    let mut out = Record::default();
    match r.below(4) {
        0 | 1 => {
            let (w, j, q) = product(r);
            out.widths = w;
            out.joins = vec![j];
            if r.percent(25) {
                out.dependencies = dependencies(r, &out.widths, 1, 3);
            }
            out.places[r.below(8)] = Some(q);
        }
        2 => {
            let (w, d, j, queries) = keyed(r);
            out.widths = w;
            out.dependencies = d;
            out.joins = vec![j];
            for (p, q) in queries.into_iter().enumerate() {
                out.places[p] = Some(q);
            }
        }
        _ => {
            // Several of few relations.
            out.widths = widths(r, (1, 2), (2, 4));
            let n = r.between(2, 4);
            out.joins = joins(r, &out.widths, n);
            let n = r.below(3);
            out.dependencies = dependencies(r, &out.widths, n, 3);
            let w = out.widths.clone();
            let p = Profile { rows: (1, 6), variables: r.between(2, 9), constant_chance: 12, constants: 2, head: 3 };
            out.places[0] = Some(query(r, &w, &p));
            fill(r, &mut out, 4, |r| query(r, &w, &p));
        }
    }
    if out.joins.len() < MAX_JOINS && r.percent(30) {
        let n = r.between(1, MAX_JOINS - out.joins.len());
        let more = joins(r, &out.widths, n);
        out.joins.extend(more);
        r.shuffle(&mut out.joins);
    }
    settle(r, &mut out);
    with_some_codes(r, out)
}

/// A sound record of one of many shapes.
pub fn record(r: &mut Random) -> Record {
    if r.percent(20) {
        return record_with_joins(r);
    }
    let mut out = functional_record(r);
    if r.percent(15) {
        let n = r.between(1, MAX_JOINS);
        out.joins = joins(r, &out.widths, n);
    }
    with_some_codes(r, out)
}

/// A sound record without join dependencies and pairs of codes.
fn functional_record(r: &mut Random) -> Record {
    let mut out = Record::default();
    match r.below(14) {
        0 => {
            // Plain and small.
            out.widths = widths(r, (1, 3), (1, 4));
            let n = r.below(6);
            out.dependencies = dependencies(r, &out.widths, n, 2);
            let (w, variables) = (out.widths.clone(), r.between(1, 10));
            let p = Profile { rows: (0, 6), variables, constant_chance: 15, constants: 3, head: 3 };
            fill(r, &mut out, 4, |r| query(r, &w, &p));
        }
        1 => {
            // Everything as large as it can be.
            out.widths = vec![8; 8];
            out.dependencies = dependencies(r, &out.widths, 32, 3);
            let w = if r.percent(50) { vec![8] } else { out.widths.clone() };
            let variables = *r.pick(&[4, 20, 96]);
            for place in &mut out.places {
                let p = Profile { rows: (12, 12), variables, constant_chance: 5, constants: 9, head: 8 };
                let mut q = query(r, &w, &p);
                while q.head.len() < 8 {
                    q.head.push(Constant(5));
                }
                q.head_length = 8;
                *place = Some(q);
            }
        }
        2 => {
            // Graphs without dependencies.
            out.widths = vec![2];
            fill(r, &mut out, 5, graph);
        }
        3 => {
            // Graphs with dependencies.
            out.widths = vec![2];
            let n = r.between(1, 2);
            out.dependencies = dependencies(r, &out.widths, n, 1);
            fill(r, &mut out, 5, graph);
        }
        4 => {
            // Many dependencies, few variables, constants: clashes.
            out.widths = widths(r, (1, 2), (2, 5));
            let n = r.between(3, 20);
            out.dependencies = dependencies(r, &out.widths, n, 3);
            let w = out.widths.clone();
            let (variables, constant_chance) = (r.between(2, 30), r.below(40));
            let p = Profile { rows: (2, 12), variables, constant_chance, constants: 2, head: 8 };
            fill(r, &mut out, 6, |r| query(r, &w, &p));
        }
        5 | 6 | 7 => {
            // A short query with rows added that fold back or that the chase brings together.
            out.widths = widths(r, (1, 3), (2, 5));
            let n = r.below(9);
            out.dependencies = dependencies(r, &out.widths, n, 2);
            let (w, d) = (out.widths.clone(), out.dependencies.clone());
            let variables = r.between(2, 9);
            let p = Profile { rows: (1, 5), variables, constant_chance: 12, constants: 3, head: 4 };
            fill(r, &mut out, 5, |r| {
                let mut q = query(r, &w, &p);
                for _ in 0..r.between(1, 3) {
                    q = if r.percent(50) { unfold(r, &q) } else { split(r, &q, &d) };
                }
                rearranged(r, &q)
            });
        }
        8 => {
            // Constants only, or nearly.
            out.widths = widths(r, (1, 8), (1, 3));
            let n = r.below(4);
            out.dependencies = dependencies(r, &out.widths, n, 2);
            let w = out.widths.clone();
            let constant_chance = if r.percent(50) { 100 } else { 85 };
            let p = Profile { rows: (1, 12), variables: 3, constant_chance, constants: 3, head: 3 };
            fill(r, &mut out, 8, |r| query(r, &w, &p));
        }
        9 => {
            // Every variable once.
            out.widths = if r.percent(60) { vec![8] } else { widths(r, (1, 8), (1, 8)) };
            let n = r.below(33);
            out.dependencies = dependencies(r, &out.widths, n, 2);
            let w = out.widths.clone();
            fill(r, &mut out, 3, |r| distinct(r, &w));
        }
        10 => {
            let (w, d, q) = chain(r);
            out.widths = w;
            out.dependencies = d;
            out.places[r.below(8)] = Some(q);
        }
        11 => {
            let (w, q) = scattered(r);
            out.widths = w;
            out.places[r.below(8)] = Some(q);
        }
        12 => {
            out.widths = widths(r, (1, 2), (2, 3));
            let n = r.below(2);
            out.dependencies = dependencies(r, &out.widths, n, 1);
            let w = out.widths.clone();
            fill(r, &mut out, 3, |r| copies(r, &w));
        }
        _ => {
            // The ends of the ranges, and records without queries.
            out.widths = widths(r, (1, 8), (1, 8));
            let n = *r.pick(&[0, 1, 31, 32]);
            out.dependencies = dependencies(r, &out.widths, n, 8);
            let w = out.widths.clone();
            let p = Profile { rows: (1, 3), variables: 96, constant_chance: 30, constants: 3, head: 8 };
            if r.percent(75) {
                fill(r, &mut out, 8, |r| {
                    let q = query(r, &w, &p);
                    substitute(&q, |e| match e {
                        Constant(1) => Constant(MAX_CONSTANT),
                        Constant(2) => Constant(MAX_CONSTANT - 1),
                        Variable(v) if v > 90 => Variable(95),
                        e => e,
                    })
                });
            }
        }
    }
    settle(r, &mut out);
    out
}

/// Where the entries of a query's part begin, the head's first.
fn entry_offsets(query: &Query) -> Vec<usize> {
    let mut at = 2;
    let mut all = vec![];
    for _ in &query.head {
        all.push(at);
        at += 5;
    }
    for row in &query.rows {
        at += 1;
        for _ in &row.entries {
            all.push(at);
            at += 5;
        }
    }
    all
}

/// Breaks part k of a record's file, or takes it to a limit. The directory will be right.
fn damage_part(r: &mut Random, record: &Record, parts: &mut [Vec<u8>], k: usize) {
    let length = parts[k].len();
    match r.below(12) {
        0 => { parts[k].push(r.below(256) as u8); return; }
        1 => { parts[k].pop(); return; }
        2 => { parts[k].clear(); return; }
        3 => { let cut = r.below(length + 1); parts[k].truncate(cut); return; }
        _ => {}
    }
    if k == 0 {
        let n = record.widths.len();
        match r.below(5) {
            0 => parts[0][0] = *r.pick(&[0, 9, 255, n as u8 + 1, n as u8 - 1]),
            1 => { let at = r.between(1, n); parts[0][at] = *r.pick(&[0, 9, 255]) }
            2 => { parts[0].splice(..=n, [0]); }
            3 => { parts[0].splice(..=n, [9, 1, 1, 1, 1, 1, 1, 1, 1, 1]); }
            _ => { let at = r.between(1, n); parts[0][at] = r.between(1, 8) as u8 }
        }
    } else if k == 1 {
        let n = record.dependencies.len();
        match r.below(8) {
            0 => parts[1][0] = *r.pick(&[33, 255, n as u8 + 1, (n as u8).wrapping_sub(1)]),
            1 => {
                let (count, left) = (r.between(32, 33), r.below(2) as u8);
                parts[1] = [&[count as u8][..], &[0, left, 0].repeat(count)].concat();
            }
            2 => {
                // One of zeros more, counted or not.
                parts[1][0] += r.percent(60) as u8;
                parts[1].splice(1 + 3 * n..1 + 3 * n, [0, 0, 0]);
            }
            _ => {
                if n == 0 {
                    parts[1] = vec![1, 0, r.below(2) as u8, 0];
                }
                let at = 1 + 3 * r.below(n.max(1));
                let relation = parts[1][at] as usize;
                let w = record.widths[relation];
                let (relation, right) = (*r.pick(&[record.widths.len() as u8, 8, 255]), *r.pick(&[w, 8, 255]));
                match r.below(8) {
                    0 => parts[1][at] = relation,
                    1 => parts[1][at + 1] = 0,
                    2 => parts[1][at + 1] = (1u16 << w) as u8,
                    3 => parts[1][at + 1] |= 128,
                    4 => parts[1][at + 2] = right,
                    5 => parts[1][at..at + 2].copy_from_slice(&[relation, 0]),
                    6 => parts[1][at + 1..at + 3].copy_from_slice(&[0, right]),
                    _ => parts[1][at..at + 3].fill(0),
                }
            }
        }
    } else {
        let Some(query) = &record.places[k - 2] else {
            parts[k] = r.pick(&[vec![255, 255], vec![254], vec![0], vec![], vec![255, 0], vec![0, 0], vec![8, 0], vec![9, 0], vec![0, 0, 0]]).clone();
            return;
        };
        damage_query(r, record, query, &mut parts[k]);
    }
}

/// A query that isn't never, with a head variable that is in no row if there is one left.
fn loosened(r: &mut Random, query: &Query) -> Query {
    let mut out = query.clone();
    let free = unused(query);
    if !free.is_empty() {
        let v = Variable(*r.pick(&free));
        if out.head.is_empty() {
            out.head = vec![v];
            out.head_length = 1;
        } else {
            let at = r.below(out.head.len());
            out.head[at] = v;
        }
    }
    out
}

fn damage_query(r: &mut Random, record: &Record, query: &Query, part: &mut Vec<u8>) {
    let offsets = entry_offsets(query);
    match r.below(9) {
        0 => part[0] = *r.pick(&[9, 8, 255, query.head_length + 1, query.head_length.wrapping_sub(1)]),
        1 => part[1] = *r.pick(&[13, 12, 0, 255, query.rows.len() as u8 + 1, (query.rows.len() as u8).wrapping_sub(1)]),
        2 if !query.is_never() => {
            // 12 rows and 13 rows, complete.
            let mut q = query.clone();
            let due = r.between(12, 13);
            while q.rows.len() < due {
                let again = r.pick(&q.rows).clone();
                q.rows.push(again);
            }
            *part = query_bytes(&q);
        }
        3 if !query.is_never() => {
            // 8 and 9 head entries, complete.
            let mut q = query.clone();
            let due = r.between(8, 9);
            while q.head.len() < due {
                q.head.push(Constant(1));
                q.head_length += 1;
            }
            *part = query_bytes(&q);
        }
        4 if !query.is_never() => {
            // A head variable in no row, alone or with another fault of the same part.
            *part = query_bytes(&loosened(r, query));
            if r.percent(25) {
                part.push(0);
            }
        }
        5 if !query.is_never() => {
            // A relation that isn't held, or another one.
            let i = r.below(query.rows.len());
            let head = 2 + 5 * query.head.len();
            let at = head + query.rows[..i].iter().map(|x| 1 + 5 * x.entries.len()).sum::<usize>();
            part[at] = *r.pick(&[record.widths.len() as u8, record.widths.len() as u8 - 1, 8, 255]);
        }
        6 if query.is_never() => part.extend([1, 0, 0, 0, 0]),
        _ if !offsets.is_empty() => {
            let at = *r.pick(&offsets);
            let (tag, number): (u8, u32) = *r.pick(&[
                (2, 0),
                (255, 0),
                (1, 95),
                (1, 96),
                (1, 255),
                (1, 256),
                (1, 65_536),
                (1, u32::MAX),
                (0, MAX_CONSTANT),
                (0, MAX_CONSTANT + 1),
                (0, u32::MAX),
            ]);
            part[at] = tag;
            part[at + 1..at + 5].copy_from_slice(&number.to_le_bytes());
        }
        _ => part.push(1),
    }
}

/// Bytes past the functional dependencies that are wrong, or just right.
fn damaged_tail(r: &mut Random, record: &Record) -> Vec<u8> {
    let n = r.between(1, MAX_JOINS);
    let mut all = if record.joins.is_empty() || r.percent(30) { joins(r, &record.widths, n) } else { record.joins.clone() };
    let at = r.below(all.len());
    let w = record.widths[all[at].relation as usize];
    let whole = ((1u16 << w) - 1) as u8;
    let sets = all[at].sets.len();
    let k = r.below(sets);
    match r.below(11) {
        0 => all[at].relation = *r.pick(&[record.widths.len() as u8, 8, 255, 0]),
        1 | 9 | 10 => {
            // An empty set; its columns may be in another one.
            let gone = std::mem::take(&mut all[at].sets[k]);
            if r.percent(70) {
                all[at].sets[(k + 1) % sets] |= gone;
            }
        }
        2 => all[at].sets[k] |= *r.pick(&[(1u16 << w) as u8, 128]),
        3 => {
            // A column that is in no set.
            let c = r.below(w as usize);
            all[at].sets.iter_mut().for_each(|set| *set &= !(1 << c));
        }
        4 => all[at].sets = vec![whole; *r.pick(&[0, 1, 1, 2, 4, 5])],
        5 => while all.len() < 5 {
            let again = r.pick(&all).clone();
            all.push(again);
        },
        6 => return vec![0],
        _ => {}
    }
    let mut out = joins_bytes(&all);
    match r.below(12) {
        0 => out.push(*r.pick(&[0, 1, 2, 255])),
        1 => { out.pop(); }
        2 => { let cut = r.below(out.len() + 1); out.truncate(cut); }
        3 => out[0] = *r.pick(&[0, 1, 4, 5, 255, out[0] + 1, out[0] - 1]),
        4 => out[2] = *r.pick(&[0, 1, 2, 3, 4, 5, 255]),
        _ => {}
    }
    out
}

/// A pair that is never held, or two of which the second is not held beside the first.
pub fn bad_pairs(r: &mut Random) -> Vec<CodePair> {
    let mut number = |not: &[u32]| loop {
        let n = *r.pick(&[0, 0, 1, 2, 3, 4, 9, 256, MAX_CONSTANT]);
        if !not.contains(&n) {
            return n;
        }
    };
    let a = number(&[]);
    let b = number(&[a]);
    let c = number(&[a, b]);
    let pair = |old, current| CodePair { old, current };
    let high = *r.pick(&[MAX_CONSTANT + 1, MAX_CONSTANT + 1, u32::MAX, 1 << 31 | b]);
    match r.below(9) {
        0 => vec![pair(a, a)],
        1 => vec![pair(high, a)],
        2 => vec![pair(a, high)],
        3 => vec![pair(high, high + (high != u32::MAX) as u32)],
        // Old twice.
        4 => vec![pair(a, b), pair(a, c)],
        5 => vec![pair(a, b), pair(a, b)],
        // A chain, whichever end comes first, and a ring.
        6 => vec![pair(a, b), pair(b, c)],
        7 => vec![pair(b, c), pair(a, b)],
        _ => vec![pair(a, b), pair(b, a)],
    }
}

/// Bytes past the widths that are wrong, or just right.
fn damaged_codes(r: &mut Random, record: &Record) -> Vec<u8> {
    let n = r.between(1, MAX_CODES - 1);
    let mut all = if record.codes.is_empty() || r.percent(40) { codes(r, &[], n) } else { record.codes.clone() };
    match r.below(12) {
        0..=5 => {
            // They come before or after the others, from which they keep apart.
            let bad = bad_pairs(r);
            let near: Vec<u32> = bad.iter().flat_map(|p| [p.old, p.current]).collect();
            all.retain(|p| !near.contains(&p.old) && !near.contains(&p.current));
            for p in bad {
                all.insert(r.below(all.len().min(14) + 1), p);
            }
            all.truncate(MAX_CODES);
            if r.percent(80) {
                return codes_bytes(&all);
            }
        }
        6 => {
            // One with a code of another.
            let (p, k, at) = (*r.pick(&all), r.below(all.len()), r.below(4));
            let (x, q) = (if at & 1 == 0 { p.old } else { p.current }, &mut all[k]);
            if at & 2 == 0 { q.old = x } else { q.current = x }
        }
        7 => {
            // 16 and 17, all good.
            let all = codes(r, &[], 17);
            return codes_bytes(&all[..r.between(16, 17)]);
        }
        8 | 9 => {
            // Counts with pairs of zeros, or without any.
            let (count, zeros) = *r.pick(&[(0, 0), (0, 0), (0, 0), (0, 8), (1, 0), (1, 7), (1, 8), (16, 128)]);
            return [&[count][..], &vec![0; zeros]].concat();
        }
        _ => {}
    }
    let mut out = codes_bytes(&all);
    match r.below(13) {
        0 => out.push(*r.pick(&[0, 1, 2, 255])),
        1 => { out.pop(); }
        2 => { let cut = r.below(out.len() + 1); out.truncate(cut); }
        3 => out[0] = *r.pick(&[0, 1, 16, 17, 255, out[0] + 1, out[0] - 1]),
        4 => out.extend([0; 8]),
        5 => out.truncate(out.len() - 8),
        6 => {
            let k = 1 + r.below(out.len() - 1);
            out[k] ^= 128 >> r.below(8);
        }
        _ => {}
    }
    out
}

/// A file with other bytes past the widths, and now and then a fault in the widths, the dependencies or another part.
pub fn with_damaged_codes(r: &mut Random, record: &Record) -> Vec<u8> {
    let bare = Record { codes: vec![], ..record.clone() };
    let mut parts = record_parts(&bare);
    if r.percent(45) {
        let any = r.below(parts.len());
        let k = *r.pick(&[0, 1, 1, any]);
        damage_part(r, &bare, &mut parts, k);
    }
    parts[0].extend(damaged_codes(r, record));
    join(&parts)
}

/// A file that is damaged, or just inside a limit.
pub fn damaged(r: &mut Random) -> Vec<u8> {
    let record = record(r);
    let mut file = bytes(&record);
    let mut parts = record_parts(&record);
    let directory = 2 + 4 * parts.len();
    let word = |r: &mut Random, file: &mut Vec<u8>, at: usize| {
        let old = u16::from_le_bytes([file[at], file[at + 1]]);
        let new = *r.pick(&[old.wrapping_add(1), old.wrapping_sub(1), 0, 65_535, old ^ 256, old.rotate_left(8)]);
        file[at..at + 2].copy_from_slice(&new.to_le_bytes());
    };
    match r.below(28) {
        0 => {
            for _ in 0..r.between(1, 3) {
                let at = r.below(file.len());
                file[at] ^= 1 << r.below(8);
            }
        }
        1 => {
            for _ in 0..r.between(1, 3) {
                let at = r.below(file.len());
                file[at] = r.below(256) as u8;
            }
        }
        2 => {
            let length = if r.percent(40) { r.below(directory + 1) } else { r.below(file.len()) };
            file.truncate(length);
        }
        3 => {
            let extra = *r.pick(&[1, 1, 2, 4, 100]);
            file.extend(vec![r.below(256) as u8; extra]);
        }
        4 => {
            let at = 2 + 2 * r.below(2 * parts.len());
            word(r, &mut file, at);
        }
        5 => {
            // One length up and the next offset with it, or the last length alone.
            let k = r.below(parts.len());
            let at = 4 + 4 * k;
            file[at] = file[at].wrapping_add(1);
            if k + 1 < parts.len() && r.percent(70) {
                file[at + 2] = file[at + 2].wrapping_add(1);
                if r.percent(50) {
                    file[at + 4] = file[at + 4].wrapping_sub(1);
                }
            }
        }
        6 => {
            // Two pairs exchanged.
            let (a, b) = (2 + 4 * r.below(parts.len()), 2 + 4 * r.below(parts.len()));
            for k in 0..4 {
                file.swap(a + k, b + k);
            }
        }
        7 => {
            let n = parts.len() as u16;
            let new = *r.pick(&[0, 1, 2, 10, 11, 256, 65_535, n + 1, n - 1, n + 256]);
            file[..2].copy_from_slice(&new.to_le_bytes());
        }
        8 => {
            // A byte put in or taken out.
            let at = r.below(file.len());
            if r.percent(50) {
                file.insert(at, r.below(256) as u8);
            } else {
                file.remove(at);
            }
        }
        9 => {
            // Another number of parts, with a right directory.
            match r.below(4) {
                0 => parts.truncate(1),
                1 => parts.truncate(2),
                2 => parts.push(vec![255]),
                _ => while parts.len() < 11 { parts.push(vec![2, 0]) },
            }
            file = join(&parts);
        }
        10 => {
            // The last query parts 255.
            if parts.len() < 3 {
                parts.push(vec![2, 0]);
            }
            *parts.last_mut().unwrap() = vec![255];
            file = join(&parts);
        }
        11 => {
            let n = r.below(12);
            file = (0..n).map(|_| r.below(4) as u8).collect();
        }
        12 => {
            // Around the 65,536 bytes that the listing reads.
            match r.below(3) {
                0 => {
                    // A sound file, then bytes that nothing names.
                    let length = *r.pick(&[65_535, 65_536, 65_537, 70_000]);
                    file.resize(length, 0);
                }
                1 => {
                    // A last part that ends at or after the limit, right as far as the pairs go.
                    let rest = *r.pick(&[65_535, 65_536, 65_537, 66_000]);
                    let before: usize = 2 + 4 * parts.len() + parts[..parts.len() - 1].iter().map(|p| p.len()).sum::<usize>();
                    parts.last_mut().unwrap().resize(rest - before, 0);
                    file = join(&parts);
                }
                _ => file = vec![r.below(256) as u8; 66_000],
            }
        }
        13 | 14 => {
            // A loose head in one query, and now and then a fault in another part.
            let fit: Vec<usize> = (0..PLACES).filter(|&p| matches!(&record.places[p], Some(q) if !q.is_never())).collect();
            if !fit.is_empty() {
                let p = *r.pick(&fit);
                if r.percent(30) {
                    let k = r.below(parts.len());
                    damage_part(r, &record, &mut parts, k);
                }
                parts[p + 2] = query_bytes(&loosened(r, record.places[p].as_ref().unwrap()));
            }
            file = join(&parts);
        }
        15..=18 => {
            // Another tail of part 1, and now and then a fault in the functional dependencies or another part.
            let mut functional = record.clone();
            functional.joins.clear();
            let mut fresh = record_parts(&functional);
            if r.percent(35) {
                let k = if r.percent(60) { 1 } else { r.below(fresh.len()) };
                damage_part(r, &functional, &mut fresh, k);
            }
            fresh[1].extend(damaged_tail(r, &record));
            file = join(&fresh);
        }
        19..=23 => file = with_damaged_codes(r, &record),
        _ => {
            // One to three broken parts: the first in file order decides.
            for _ in 0..*r.pick(&[1, 1, 2, 3]) {
                let k = if r.percent(15) { 1 } else { r.below(parts.len()) };
                let fresh = record_parts(&record);
                parts[k] = fresh[k].clone();
                damage_part(r, &record, &mut parts, k);
            }
            file = join(&parts);
            if r.percent(10) {
                file.push(0);
            }
        }
    }
    file
}

/// The k-th file of a seed: three sound ones, then two damaged ones, and so on.
pub fn file(seed: u64, k: u64) -> Vec<u8> {
    let mut start = Random::new(seed);
    let mut r = Random::new(start.next() ^ k.wrapping_mul(0xD134_2543_DE82_EF95));
    if k % 5 >= 3 {
        return damaged(&mut r);
    }
    let record = record(&mut r);
    bytes(&if r.percent(20) { with_long_constants(&mut r, &record) } else { record })
}

/// Whether the dependency of zeros is held alone, is the first of several, is the last of several.
#[cfg(test)]
pub fn stand_of_zeros(record: &Record) -> [bool; 3] {
    let all = &record.dependencies;
    let several = all.len() > 1;
    [*all == [ZEROS], several && all[0] == ZEROS, several && all[all.len() - 1] == ZEROS]
}

#[cfg(test)]
mod tests {
    use super::*;
    use crate::file::read;
    use crate::judge::judge;
    use crate::listing::{cut, list};
    use std::collections::BTreeMap;

    #[test]
    fn files_are_varied_and_their_listings_right() {
        let mut refusals: BTreeMap<u8, usize> = BTreeMap::new();
        let mut damaged_but_sound = 0;
        // Dependencies, those with an empty left set, records that have one, and the dependency of zeros alone, first or last.
        let (mut dependencies, mut empty_left, mut records, mut zeros) = (0, 0, 0, [0; 3]);
        // Records without and with pairs of codes; of those 0 as an old code, 0 as a current one, a current code twice, 16 pairs, a query that reading changes.
        let (mut plain, mut coded, mut kinds) = (0, 0, [0; 5]);
        for k in 0..3000 {
            let file = file(1, k);
            assert_eq!(file, super::file(1, k));
            match read(cut(&file)) {
                Ok(record) => {
                    assert!(record.is_sound());
                    assert_eq!(bytes(&record), file);
                    damaged_but_sound += (k % 5 >= 3) as usize;
                    let of_record = record.dependencies.iter().filter(|d| d.left == 0).count();
                    dependencies += record.dependencies.len();
                    empty_left += of_record;
                    records += (of_record > 0) as usize;
                    for (n, is) in zeros.iter_mut().zip(stand_of_zeros(&record)) {
                        *n += is as usize;
                    }
                    let codes = &record.codes;
                    if codes.is_empty() { plain += 1 } else { coded += 1 }
                    let of = [
                        codes.iter().any(|p| p.old == 0),
                        codes.iter().any(|p| p.current == 0),
                        (0..codes.len()).any(|k| codes[..k].iter().any(|p| p.current == codes[k].current)),
                        codes.len() == MAX_CODES,
                        record.places.iter().flatten().any(|q| read_query(codes, q) != *q),
                    ];
                    for (n, is) in kinds.iter_mut().zip(of) {
                        *n += is as usize;
                    }
                }
                Err(n) => {
                    assert!(k % 5 >= 3);
                    *refusals.entry(n).or_default() += 1;
                }
            }
            assert_eq!(judge(&file, list(&file).as_bytes()), Ok(()));
        }
        for n in [1, 2, 3, 4, 5, 6, 15, 18] {
            assert!(refusals[&n] > 20, "{refusals:?}");
        }
        assert!(damaged_but_sound > 20);
        assert!(empty_left * 20 > dependencies && empty_left * 6 < dependencies, "{empty_left} of {dependencies}");
        assert!(records > 450 && records < 900, "{records}");
        assert!(zeros.iter().all(|&n| n > 50), "{zeros:?}");
        assert!(coded * 2 < plain && coded * 4 > plain, "{coded} {plain}");
        assert!(kinds.iter().all(|&n| n * 10 > coded) && kinds[4] * 2 > coded, "{kinds:?} of {coded}");
    }
}
