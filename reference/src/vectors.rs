//! Vectors: one line a call, numbers only, inputs then the right answer. README.md has the format.

use crate::chase::{chase, chase_with_joins};
use crate::closure::determined;
use crate::codes::{queries, read_number, read_query};
use crate::comparison::{check, compare, Verdict};
use crate::database::{answers_within, evaluate, facts, first_broken, first_broken_join, read_facts, test, words, Fact, Tested};
use crate::file::{bytes, query_bytes, read, write};
use crate::generate;
use crate::mapping::{find, Mapping};
use crate::random::Random;
use crate::record::*;
use crate::record::Entry::{Constant, Variable};
use crate::reduction::reduce;

/// The numbers of one line.
#[derive(Default)]
struct Line(Vec<u64>);

impl Line {
    fn number(&mut self, n: impl TryInto<u64>) {
        self.0.push(n.try_into().ok().expect("a natural number"));
    }

    fn list<T: Copy + Into<u64>>(&mut self, all: &[T]) {
        self.number(all.len());
        self.0.extend(all.iter().map(|&x| x.into()));
    }

    /// A record as its file; the blank record as the empty list.
    fn record(&mut self, record: &Record) {
        self.list(&if *record == Record::default() { vec![] } else { bytes(record) });
    }

    fn query(&mut self, query: &Query) {
        self.list(&query_bytes(query));
    }

    fn mapping(&mut self, mapping: &Mapping) {
        let flat: Vec<u32> = mapping
            .iter()
            .flat_map(|e| match e {
                Constant(c) => [0, *c],
                Variable(v) => [1, *v as u32],
            })
            .collect();
        self.list(&flat);
    }

    /// 0 and the answer, or the refusal's number alone.
    fn answer<T>(&mut self, answer: Result<T, Refusal>, say: impl FnOnce(&mut Line, T)) {
        match answer {
            Err(n) => self.number(n),
            Ok(t) => {
                self.number(0u8);
                say(self, t);
            }
        }
    }
}

pub const CALLS: [&str; 15] = [
    "read", "write", "open", "add", "put", "drop", "reduce", "compare", "check", "determined", "test", "evaluate", "chase", "add_join", "add_code",
];

/// A record of moderate size, now and then a large or the blank one.
fn record(r: &mut Random) -> Record {
    if r.percent(3) {
        return Record::default();
    }
    loop {
        let record = generate::record(r);
        if bytes(&record).len() < 900 || r.percent(10) {
            return record;
        }
    }
}

/// A place, by preference one that is filled (or vacant, as asked).
fn place(r: &mut Random, record: &Record, filled: bool) -> u8 {
    if r.percent(4) {
        return *r.pick(&[8, 9, 255]);
    }
    let fit: Vec<u8> = (0..8).filter(|&p| record.places[p as usize].is_some() == filled).collect();
    if fit.is_empty() || r.percent(8) { r.below(8) as u8 } else { *r.pick(&fit) }
}

/// A record that has a filled place, unless it is blank.
fn filled_record(r: &mut Random) -> Record {
    loop {
        let record = record(r);
        if record == Record::default() || record.places.iter().any(|p| p.is_some()) {
            return record;
        }
    }
}

/// A record with the places of a reduction.
pub fn any_reduction(r: &mut Random) -> (Record, u8, u8) {
    let mut record = filled_record(r);
    let source = place(r, &record, true);
    let target = if r.percent(5) { source } else { place(r, &record, false) };
    if r.percent(50) {
        record = generate::with_long_constants(r, &record);
    }
    (record, source, target)
}

/// Up to 12 rows of the query, given as it is read, that the chase with both kinds of dependencies gives.
fn some_chased(r: &mut Random, record: &Record, query: &Query) -> Query {
    let Ok(mut chased) = chase_with_joins(&record.dependencies, &record.joins, query) else { return query.clone() };
    if chased.rows.len() > MAX_ROWS || r.percent(50) {
        r.shuffle(&mut chased.rows);
        chased.rows.truncate(r.between(1, MAX_ROWS));
    }
    chased
}

/// A record in which two places hold queries that have to do with each other. Every other one has join dependencies, and nearly every other one pairs of codes.
pub fn related_record(r: &mut Random) -> (Record, u8, u8) {
    loop {
        let mut record = if r.percent(50) { generate::record_with_joins(r) } else { filled_record(r) };
        if record == Record::default() {
            return (record, r.below(9) as u8, r.below(9) as u8);
        }
        if record.codes.is_empty() && r.percent(25) {
            record = generate::with_codes(r, record);
        }
        if r.percent(15) {
            let (p, q) = (place(r, &record, true), place(r, &record, true));
            return (record, p, q);
        }
        let p = place(r, &record, true);
        let free: Vec<u8> = (0..8).filter(|&k| record.places[k as usize].is_none()).collect();
        let Some(base) = record.places.get(p as usize).and_then(|q| q.as_ref()).map(|q| read_query(&record.codes, q)) else { continue };
        if free.is_empty() {
            continue;
        }
        let q = *r.pick(&free);
        if !record.joins.is_empty() && r.percent(25) {
            // Not contained unless it is never, so that the chased query shows.
            record.places[q as usize] = Some(Query::never(base.head_length));
            return (record, p, q);
        }
        let empty_left: Vec<Dependency> = record.dependencies.iter().copied().filter(|d| d.left == 0).collect();
        let mut other = base.clone();
        for _ in 0..r.below(4) {
            if other.is_never() {
                break;
            }
            let all = other.variables();
            let at = r.below(other.rows.len());
            match r.below(if empty_left.is_empty() { 10 } else { 13 }) {
                0 => other = chase(&record.dependencies, &other).query,
                10.. => other = chase(&empty_left, &other).query,
                8 | 9 => other = some_chased(r, &record, &other),
                1 => {
                    // Fewer rows: wider or the same.
                    other.rows.remove(at);
                }
                2 | 3 => {
                    // One entry of one row changed.
                    let c = r.below(other.rows[at].entries.len());
                    let new = if r.percent(70) { Variable(r.below(96) as u8) } else { Constant(r.below(3) as u32) };
                    other.rows[at].entries[c] = new;
                }
                4 | 5 if !all.is_empty() => {
                    // Two variables made one, or one made a constant: narrower or the same.
                    let (a, b) = (Variable(*r.pick(&all)), Variable(*r.pick(&all)));
                    let a = if r.percent(80) { a } else { Constant(r.below(3) as u32) };
                    other = generate::substitute(&other, |e| if e == b { a } else { e });
                }
                6 => other = generate::unfold(r, &other),
                _ => other = generate::split(r, &other, &record.dependencies),
            }
        }
        if other.is_never() {
            other = Query::never(base.head_length);
        }
        if r.percent(50) {
            other = generate::renumber(r, &other);
        }
        if other.fault(&record.widths).is_some() {
            continue;
        }
        let chance = *r.pick(&[0, 50, 100]);
        record.places[q as usize] = Some(generate::aliased(r, &record.codes, &other, chance));
        return if r.percent(50) { (record, p, q) } else { (record, q, p) };
    }
}

/// A record and a dependency to add, which may break the rules. Many have an empty left set.
pub fn any_addition(r: &mut Random) -> (Record, Dependency) {
    let record = record(r);
    let mut d = match record.widths.is_empty() {
        true => Dependency { relation: 0, left: r.below(2) as u8, right: 0 },
        false if r.percent(35) => generate::empty_left(r, &record.widths),
        false => generate::dependency(r, &record.widths, 4),
    };
    match r.below(8) {
        0 => d.relation = *r.pick(&[record.widths.len() as u8, 8, 255]),
        1 | 2 => d.left = r.below(256) as u8,
        3 => d.right = r.below(9) as u8,
        _ => {}
    }
    (record, d)
}

/// A record, and a relation and a set to ask about, which may break the rules. Many sets are empty, of these many of a relation that has a dependency with
/// an empty left set.
pub fn any_question(r: &mut Random) -> (Record, u8, u8) {
    let record = record(r);
    let mut relation = r.below(record.widths.len().max(1)) as u8;
    let w = record.widths.get(relation as usize).copied().unwrap_or(1);
    let set = match r.below(8) {
        0 => r.below(256) as u8,
        1 | 2 => {
            if let Some(d) = record.dependencies.iter().find(|d| d.left == 0) {
                relation = d.relation;
            }
            0
        }
        3 | 4 => r.between(1, (1 << w) - 1) as u8,
        _ => 1 << r.below(w as usize),
    };
    let unknown = *r.pick(&[record.widths.len() as u8, 8, 255]);
    (record, if r.percent(12) { unknown } else { relation }, set)
}

/// A query that may break the rules: out of range, too long, loose. With pairs of codes many of its constants are codes.
fn any_query(r: &mut Random, widths: &[u8], codes: &[CodePair]) -> Query {
    let p = generate::Profile { rows: (0, 6), variables: 8, constant_chance: 20, constants: 5, head: 8 };
    let mut q = generate::query(r, widths, &p);
    if !codes.is_empty() {
        let pair: Vec<CodePair> = (0..3).map(|_| *r.pick(codes)).collect();
        q = generate::substitute(&q, |e| match e {
            Constant(c @ 0..=2) => Constant(pair[c as usize].old),
            Constant(3) => Constant(pair[0].current),
            e => e,
        });
    }
    if r.percent(35) {
        return q;
    }
    if q.is_never() {
        q.head_length = *r.pick(&[0, 8, 9, 255]);
        return q;
    }
    for _ in 0..*r.pick(&[1, 1, 1, 2]) {
        let at = r.below(q.rows.len());
        let entry = *r.pick(&[
            Variable(95), Variable(96), Variable(255), Constant(MAX_CONSTANT), Constant(MAX_CONSTANT + 1), Constant(u32::MAX),
        ]);
        match r.below(6) {
            0 => while q.rows.len() < 13 {
                let again = q.rows[0].clone();
                q.rows.push(again);
            },
            1 => while q.rows.len() < 12 {
                let again = q.rows[0].clone();
                q.rows.push(again);
            },
            2 => {
                let due = r.between(8, 9);
                while q.head.len() < due {
                    q.head.push(Constant(7));
                }
            }
            3 => q.rows[at] = Row { relation: *r.pick(&[widths.len() as u8, 8, 255]), entries: vec![] },
            4 if !q.rows[at].entries.is_empty() => {
                let c = r.below(q.rows[at].entries.len());
                q.rows[at].entries[c] = entry;
            }
            _ if q.head.is_empty() => q.head.push(Variable(r.below(97) as u8)),
            _ => {
                let c = r.below(q.head.len());
                q.head[c] = if r.percent(50) { entry } else { Variable(r.below(96) as u8) };
            }
        }
        q.head_length = q.head.len() as u8;
    }
    q
}

/// A record, and a query to put into a place, which may break the rules.
pub fn any_put(r: &mut Random) -> (Record, u8, Query) {
    let record = record(r);
    let p = place(r, &record, false);
    let widths = if record.widths.is_empty() { vec![1] } else { record.widths.clone() };
    let query = any_query(r, &widths, &record.codes);
    (record, p, query)
}

/// Facts over few values; some obey all functional dependencies, but for a value that is changed at the end, some come from the rows of a query. Where there
/// are pairs of codes, values are largely current codes first, and then old codes take the place of many.
pub fn any_facts(r: &mut Random, record: &Record, query: Option<&Query>) -> Vec<Fact> {
    let mut values: Vec<u32> = match r.below(4) {
        0 => vec![0, 1],
        1 => vec![0, 1, 2, 3],
        2 => vec![0, 1, 2, MAX_CONSTANT, MAX_CONSTANT + 1, u32::MAX],
        _ => (0..7).collect(),
    };
    if !record.codes.is_empty() {
        values.truncate(3);
        values.extend((0..3).map(|_| r.pick(&record.codes).current));
        values = values.iter().map(|&x| read_number(&record.codes, x)).collect();
    }
    let query = query.map(|q| read_query(&record.codes, q));
    let mut all: Vec<Fact> = vec![];
    let obey = r.percent(60);
    let still: Vec<u8> = (0..record.widths.len()).map(|k| determined(record, k as u8, 0).map_or(0, |(set, _)| set)).collect();
    let add = |all: &mut Vec<Fact>, mut fact: Fact| {
        if let Some(first) = all.iter().find(|f| obey && f.relation == fact.relation) {
            columns(still[fact.relation as usize]).for_each(|c| fact.values[c] = first.values[c]);
        }
        all.push(fact);
        if obey && first_broken(&record.dependencies, all).is_some() {
            all.pop();
        }
    };
    for _ in 0..r.below(4) {
        let Some(query) = &query else { break };
        let assignment: Vec<u32> = (0..VARIABLES).map(|_| *r.pick(&values)).collect();
        for row in &query.rows {
            let values = row.entries.iter().map(|e| match e {
                Constant(c) => *c,
                Variable(v) => assignment[*v as usize],
            });
            add(&mut all, Fact { relation: row.relation, values: values.collect() });
        }
    }
    for _ in 0..if r.percent(10) { 60 } else { r.below(12) } {
        if all.len() == 50 {
            break;
        }
        let relation = r.below(record.widths.len()) as u8;
        let values = (0..record.widths[relation as usize]).map(|_| *r.pick(&values)).collect();
        add(&mut all, Fact { relation, values });
    }
    if !record.joins.is_empty() && r.percent(60) {
        let first = if r.percent(70) { record.joins.len() } else { r.below(record.joins.len() + 1) };
        close(&record.joins[..first], &mut all);
        if !all.is_empty() && r.percent(40) {
            let gone = r.pick(&all).clone();
            all.retain(|f| *f != gone);
        }
    }
    if obey && !all.is_empty() && r.percent(15) {
        let (at, value) = (r.below(all.len()), *r.pick(&values));
        let c = r.below(all[at].values.len());
        all[at].values[c] = value;
    }
    for _ in 0..*r.pick(&[0, 0, 0, 1, 3]) {
        if !all.is_empty() {
            let again = r.pick(&all).clone();
            all.push(again);
        }
    }
    let chance = *r.pick(&[0, 50, 80, 100]);
    for fact in &mut all {
        fact.values.iter_mut().for_each(|x| *x = generate::alias(r, &record.codes, *x, chance));
    }
    r.shuffle(&mut all);
    all
}

/// Adds the rows that join dependencies ask for, until there are none or there are many rows.
fn close(joins: &[JoinDependency], facts: &mut Vec<Fact>) {
    while facts.len() < 50 {
        let Some((k, choice)) = first_broken_join(joins, facts) else { return };
        facts.push(Fact { relation: joins[k].relation, values: choice.yielded });
    }
}

fn any_words(r: &mut Random, record: &Record, query: Option<&Query>) -> Vec<u32> {
    if record.widths.is_empty() {
        return vec![9; r.below(4)];
    }
    let mut words = words(&any_facts(r, record, query));
    if r.percent(8) {
        match r.below(3) {
            0 => { words.pop(); }
            1 => words.push(*r.pick(&[record.widths.len() as u32, 8, 256, u32::MAX])),
            _ => words.push(0),
        }
    }
    words
}

/// A record and a join dependency to add, which may break the rules. Some records hold as many as they may.
pub fn any_join_addition(r: &mut Random) -> (Record, JoinDependency) {
    let mut record = record(r);
    let join = any_join(r, &record.widths);
    if !record.widths.is_empty() && r.percent(25) {
        while record.joins.len() < MAX_JOINS {
            let more = generate::joins(r, &record.widths, 1);
            record.joins.extend(more);
        }
    }
    (record, join)
}

/// A record and a pair of codes to add, which may break the rules. Some records hold as many as they may.
pub fn any_code_addition(r: &mut Random) -> (Record, CodePair) {
    let mut record = record(r);
    if !record.widths.is_empty() && r.percent(50) {
        let n = *r.pick(&[1, 2, 5, 15, 15, MAX_CODES, MAX_CODES]);
        record.codes = generate::codes(r, &[], n);
    }
    let bad = generate::bad_pairs(r);
    let mut pair = generate::codes(r, &[], 1)[0];
    if bad.len() > 1 && record.codes.len() < MAX_CODES && !record.widths.is_empty() && r.percent(30) {
        // The one that it must not stand beside is held.
        record.codes.retain(|p| CodePair::is_sound(*p, &bad[..1]));
        record.codes.insert(r.below(record.codes.len() + 1), bad[0]);
        pair = bad[1];
    } else if !record.codes.is_empty() {
        let (one, other) = (*r.pick(&record.codes), *r.pick(&record.codes));
        match r.below(15) {
            0 => pair.old = one.old,
            1 | 2 => pair.old = one.current,
            3 | 4 => pair.current = one.old,
            5 | 6 => pair.current = one.current,
            7 => pair = CodePair { old: one.current, current: other.current },
            8..=10 => pair = bad[0],
            _ => {}
        }
    } else if r.percent(30) {
        pair = bad[0];
    }
    (record, pair)
}

/// A record and a database to test it on.
pub fn any_database(r: &mut Random) -> (Record, Vec<u32>) {
    let record = if r.percent(50) { generate::record_with_joins(r) } else { record(r) };
    let query = record.places.iter().flatten().next().cloned();
    let words = any_words(r, &record, query.as_ref());
    (record, words)
}

/// A record, a place, a database to evaluate its query on, and how many words the answers have, which are at most 400. Less often there is one answer or none.
pub fn any_evaluation(r: &mut Random) -> (Record, u8, Vec<u32>, usize) {
    loop {
        let mut record = filled_record(r);
        if record.codes.is_empty() && record != Record::default() && r.percent(25) {
            record = generate::with_codes(r, record);
        }
        let p = place(r, &record, true);
        let query = record.places.get(p as usize).cloned().flatten();
        let words = any_words(r, &record, query.as_ref());
        let (Some(query), Ok(facts)) = (&query, facts(&record.widths, &words)) else { return (record, p, words, 0) };
        let (query, facts) = (read_query(&record.codes, query), read_facts(&record.codes, &facts));
        let n = answers_within(&query, &facts, 400).len();
        let due = n * query.head_length as usize;
        if due <= 400 && (n > 1 || r.percent(40)) {
            return (record, p, words, due);
        }
    }
}

/// A join dependency that may break the rules.
fn any_join(r: &mut Random, widths: &[u8]) -> JoinDependency {
    if widths.is_empty() {
        return JoinDependency { relation: 0, sets: vec![1, 1] };
    }
    let mut join = generate::joins(r, widths, 1).remove(0);
    let w = widths[join.relation as usize];
    let sets = join.sets.len();
    let k = r.below(sets);
    match r.below(12) {
        0 => join.relation = *r.pick(&[widths.len() as u8, 8, 255]),
        1 => {
            // An empty set; its columns may be in another one.
            let gone = std::mem::take(&mut join.sets[k]);
            if r.percent(70) {
                join.sets[(k + 1) % sets] |= gone;
            }
        }
        2 => join.sets[k] = r.below(256) as u8,
        3 => join.sets = vec![((1u16 << w) - 1) as u8; *r.pick(&[0, 1, 2, 4, 5, 9])],
        4 => {
            // A column that is in no set.
            let c = r.below(w as usize);
            join.sets.iter_mut().for_each(|set| *set &= !(1 << c));
        }
        5 => { join.sets.pop(); }
        _ => {}
    }
    join
}

/// A record, two places, and what may be a mapping from the query of the second to that of the first.
pub fn any_check(r: &mut Random) -> (Record, u8, u8, Mapping) {
    let (record, p, q) = related_record(r);
    let mut mapping = [Constant(0); VARIABLES];
    if let Ok([t, s]) = record.filled([p, q]) {
        mapping = any_mapping(r, &record.codes, s, t);
    }
    (record, p, q, mapping)
}

/// A mapping between the queries as they are read, or nearly one, with old codes for some current ones.
pub fn any_mapping(r: &mut Random, codes: &[CodePair], s: &Query, t: &Query) -> Mapping {
    let mut mapping = find(&read_query(codes, s), &read_query(codes, t)).unwrap_or([Constant(0); VARIABLES]);
    let entries: Vec<Entry> = t.rows.iter().flat_map(|x| x.entries.clone()).collect();
    let chance = *r.pick(&[0, 50, 100]);
    for v in s.variables() {
        if let Constant(c) = mapping[v as usize] {
            mapping[v as usize] = Constant(generate::alias(r, codes, c, chance));
        }
    }
    if !codes.is_empty() && r.percent(25) {
        // The image of a variable that may not occur: what 0 is read as, or what is read as 0.
        let v = r.below(VARIABLES);
        let zeros: Vec<u32> = codes.iter().filter(|p| p.current == 0).map(|p| p.old).collect();
        let n = if zeros.is_empty() { read_number(codes, 0) } else { *r.pick(&zeros) };
        if !s.variables().contains(&(v as u8)) {
            mapping[v] = Constant(n);
        }
    }
    match r.below(5) {
        0 => {
            let v = r.below(VARIABLES);
            mapping[v] = *r.pick(&[Constant(1), Variable(0), Variable(95), Variable(255), Constant(u32::MAX)]);
        }
        1 if !entries.is_empty() && !s.variables().is_empty() => {
            let v = *r.pick(&s.variables());
            mapping[v as usize] = *r.pick(&entries);
        }
        _ => {}
    }
    mapping
}

fn line(r: &mut Random, call: usize) -> Line {
    let mut out = Line::default();
    out.number(call);
    match call {
        0 => {
            let file = loop {
                let file = match r.below(10) {
                    0..=2 => bytes(&generate::record(r)),
                    3..=5 => {
                        let record = generate::record(r);
                        generate::with_damaged_codes(r, &record)
                    }
                    _ => generate::damaged(r),
                };
                if file.len() < 900 || (file.len() < 5000 && r.percent(10)) {
                    break file;
                }
            };
            out.list(&file);
            out.answer(read(&file), |_, _| {});
        }
        1 => {
            let record = record(r);
            let length = bytes(&record).len();
            let room = *r.pick(&[length, length - 1, length + 1, 0, 4574, 5000]);
            out.record(&record);
            out.number(room);
            out.answer(write(&record, &mut vec![0; room]), |out, n| out.number(n));
        }
        2 => {
            let mut widths = generate::widths(r, (1, 8), (1, 8));
            match r.below(6) {
                0 => widths.clear(),
                1 => widths = vec![1; 9],
                2 | 3 => { let at = r.below(widths.len()); widths[at] = *r.pick(&[0, 9, 255]) }
                _ => {}
            }
            out.list(&widths);
            out.answer(Record::open(&widths), |out, after| out.record(&after));
        }
        3 => {
            let (record, d) = any_addition(r);
            out.record(&record);
            [d.relation, d.left, d.right].into_iter().for_each(|n| out.number(n));
            out.answer(record.add(d), |out, after| out.record(&after));
        }
        4 => {
            let (record, p, query) = any_put(r);
            out.record(&record);
            out.number(p);
            out.query(&query);
            out.answer(record.put(p, &query), |out, after| out.record(&after));
        }
        5 => {
            let record = record(r);
            let p = place(r, &record, true);
            out.record(&record);
            out.number(p);
            out.answer(record.drop_place(p), |out, after| out.record(&after));
        }
        6 => {
            let (record, source, target) = any_reduction(r);
            out.record(&record);
            out.number(source);
            out.number(target);
            out.answer(reduce(&record, source, target), |out, (after, reduced)| {
                assert!(after.is_sound());
                out.number(reduced.count);
                out.query(&reduced.result);
            });
        }
        7 => {
            let (record, p, q) = related_record(r);
            out.record(&record);
            out.number(p);
            out.number(q);
            out.answer(compare(&record, p, q), |out, verdict| match verdict {
                Verdict::NotContained(chased) => {
                    out.number(0u8);
                    out.query(&chased);
                }
                Verdict::Contained(_) => out.0.extend([1, 0]),
                Verdict::ContainedAsNever => out.0.extend([2, 0]),
            });
        }
        8 => {
            let (record, p, q, mapping) = any_check(r);
            out.record(&record);
            out.number(p);
            out.number(q);
            out.mapping(&mapping);
            out.answer(check(&record, p, q, &mapping), |out, yes| out.number(yes as u8));
        }
        9 => {
            let (record, relation, set) = any_question(r);
            out.record(&record);
            out.number(relation);
            out.number(set);
            out.answer(determined(&record, relation, set), |out, (set, n)| {
                out.number(set);
                out.number(n);
            });
        }
        10 => {
            let (record, words) = any_database(r);
            out.record(&record);
            out.list(&words);
            out.answer(test(&record, &words), |out, tested| {
                let (verdict, dependency, rows) = match tested {
                    Tested::Obeys => (1u8, 0, vec![]),
                    Tested::Breaks(k, i, j) => (0, k, vec![i, j]),
                    Tested::BreaksJoin(k, rows) => (2, k, rows),
                };
                out.number(verdict);
                out.number(dependency);
                (0..4).for_each(|n| out.number(rows.get(n).copied().unwrap_or(0)));
            });
        }
        11 => {
            let (record, p, words, due) = any_evaluation(r);
            let room = *r.pick(&[due, due, due.saturating_sub(1), due + 1, 0, due + 9, 400]);
            let mut buffer = vec![0; room];
            out.record(&record);
            out.number(p);
            out.list(&words);
            out.number(room);
            out.answer(evaluate(&record, p, &words, &mut buffer), |out, n| {
                out.number(n);
                out.list(&buffer[..n * record.places[p as usize].as_ref().unwrap().head_length as usize]);
            });
        }
        12 => {
            let record = filled_record(r);
            let p = place(r, &record, true);
            out.record(&record);
            out.number(p);
            out.answer(queries(&record, [p]), |out, [query]| {
                let chased = chase(&record.dependencies, &query);
                out.number(chased.count);
                out.query(&chased.query);
            });
        }
        13 => {
            let (record, join) = any_join_addition(r);
            out.record(&record);
            out.number(join.relation);
            out.list(&join.sets);
            out.answer(record.add_join(&join), |out, after| out.record(&after));
        }
        _ => {
            let (record, pair) = any_code_addition(r);
            out.record(&record);
            out.number(pair.old);
            out.number(pair.current);
            out.answer(record.add_code(pair), |out, after| out.record(&after));
        }
    }
    out
}

/// The k-th vector of a seed. The calls take turns.
pub fn vector(seed: u64, k: u64) -> String {
    let mut start = Random::new(!seed);
    let mut r = Random::new(start.next() ^ k.wrapping_mul(0xD134_2543_DE82_EF95));
    let line = line(&mut r, (k % CALLS.len() as u64) as usize);
    let words: Vec<String> = line.0.iter().map(|n| n.to_string()).collect();
    words.join(" ") + "\n"
}

#[cfg(test)]
mod tests {
    use super::*;
    use std::collections::BTreeMap;

    /// Takes numbers from a line as a reader would.
    struct Reader(std::vec::IntoIter<u64>);

    impl Reader {
        fn number(&mut self) -> u64 {
            self.0.next().expect("a number")
        }
        fn list(&mut self) -> Vec<u64> {
            (0..self.number()).map(|_| self.number()).collect()
        }
    }

    #[test]
    fn lines_read_as_the_readme_says() {
        let mut seen: BTreeMap<(u64, u64), usize> = BTreeMap::new();
        let mut verdicts: BTreeMap<(u64, u64), usize> = BTreeMap::new();
        for k in 0..15 * 250 {
            let text = vector(5, k);
            assert_eq!(text, vector(5, k));
            let numbers: Vec<u64> = text.trim_end().split(' ').map(|n| n.parse().unwrap()).collect();
            let mut line = Reader(numbers.into_iter());
            let call = line.number();
            assert_eq!(call, k % 15);
            line.list();
            // Inputs after the first list: n a number, l a list.
            for kind in ["", "n", "", "nnn", "nl", "n", "nn", "nn", "nnl", "nn", "l", "nln", "n", "nl", "nn"][call as usize].chars() {
                if kind == 'n' { line.number(); } else { line.list(); }
            }
            let refusal = line.number();
            *seen.entry((call, refusal)).or_default() += 1;
            if refusal == 0 {
                for (at, kind) in ["", "n", "l", "l", "l", "l", "nl", "nl", "n", "nn", "nnnnnn", "nl", "nl", "l", "l"][call as usize].chars().enumerate() {
                    if kind == 'l' {
                        line.list();
                    } else {
                        let n = line.number();
                        if at == 0 && [7, 8, 10].contains(&call) {
                            *verdicts.entry((call, n)).or_default() += 1;
                        }
                    }
                }
            }
            assert_eq!(line.0.next(), None);
        }
        let due: [&[u64]; 15] = [
            &[0, 1, 2, 3, 4, 5, 6, 15, 18], &[0, 10, 14], &[0, 3], &[0, 4, 13, 14], &[0, 5, 6, 7, 12, 14], &[0, 7, 11, 14],
            &[0, 7, 11, 12, 14], &[0, 7, 8, 11, 14, 17], &[0, 7, 8, 11, 14], &[0, 4, 14], &[0, 9, 14], &[0, 7, 9, 10, 11, 14], &[0, 7, 11, 14],
            &[0, 14, 15, 16], &[0, 14, 18, 19],
        ];
        for (call, refusals) in due.iter().enumerate() {
            let got: Vec<u64> = seen.keys().filter(|k| k.0 == call as u64).map(|k| k.1).collect();
            assert_eq!(got, *refusals, "{} {seen:?}", CALLS[call]);
        }
        for verdict in [(7, 0), (7, 1), (7, 2), (8, 0), (8, 1), (10, 0), (10, 1), (10, 2)] {
            assert!(verdicts.get(&verdict).copied().unwrap_or(0) > 10, "{verdicts:?}");
        }
    }

    #[test]
    fn additions_meet_empty_left_sets() {
        let mut r = Random::new(6);
        // Before and after an addition: the dependency of zeros alone, first and last. By their refusal: what has an empty left set.
        let (mut before, mut after, mut refusals) = ([0; 3], [0; 3], BTreeMap::new());
        for _ in 0..1000 {
            let (record, d) = any_addition(&mut r);
            let added = record.add(d);
            if d.left == 0 {
                let unknown = d.relation as usize >= record.widths.len();
                *refusals.entry((added.as_ref().err().copied(), unknown)).or_insert(0) += 1;
            }
            let Ok(added) = added else { continue };
            for (all, record) in [(&mut before, &record), (&mut after, &added)] {
                for (n, is) in all.iter_mut().zip(generate::stand_of_zeros(record)) {
                    *n += is as usize;
                }
            }
        }
        assert!(before.iter().chain(&after).all(|&n| n > 10), "{before:?} {after:?}");
        for kind in [(None, false), (Some(DEPENDENCIES), true), (Some(DEPENDENCIES), false), (Some(BROKEN), true)] {
            assert!(refusals.get(&kind).copied().unwrap_or(0) > 5, "{refusals:?}");
        }
    }
}
