//! Wrong engines, each with one mistake that is easily made. What is generated must show every one of them up: files, and for
//! join dependencies comparisons and databases too, for empty left sets the inputs of each call that reads them.

use crate::chase::{chase, survivor};
use crate::closure::determined;
use crate::codes::{queries, read_query};
use crate::comparison::{compare, Verdict};
use crate::database::{facts, first_broken, first_broken_join, read_facts, test, words, Fact, Tested};
use crate::file::{bytes, parts, read};
use crate::generate::{file, record, record_with_joins, ZEROS};
use crate::judge::judge;
use crate::listing::{cut, list, place_text};
use crate::mapping::{find, image};
use crate::random::Random;
use crate::record::*;
use crate::record::Entry::{Constant, Variable};
use crate::reduction::core;
use crate::vectors::{any_addition, any_database, any_facts, any_join_addition, any_question, any_reduction, related_record};

#[derive(Clone, Copy, PartialEq, Debug)]
enum Mistake {
    Nothing,
    WalkOnce,
    NotInTheHead,
    OnlyInTheRow,
    HeadVariablesApart,
    LowerSurvives,
    FirstSurvives,
    VariableSurvives,
    NoRestart,
    LaterPairFirst,
    ClashCountsZero,
    ClashCountsItself,
    ClashIgnored,
    NoChase,
    RepeatsStay,
    NoCore,
    HeadForgotten,
    RelationIgnored,
    ConstantsMapped,
    AlwaysNever,
    MapOfTheChased,
    // Of the rows that are tried
    LowestFirst,
    SortedFirst,
    LastRepeatStays,
    NextNotTried,
    NoneAfterOne,
    AllOutsideTheImage,
    // Of the order
    NotSorted,
    HighestFirst,
    ByRelationAlone,
    ByEntriesAlone,
    FromTheRight,
    VariablesFirst,
    KindsMixed,
    HeadVariablesFirst,
    AsText,
    AsInTheFile,
}
use Mistake::*;

const OF_LISTING: [Mistake; 20] = [
    WalkOnce, NotInTheHead, OnlyInTheRow, HeadVariablesApart, LowerSurvives, FirstSurvives, VariableSurvives, NoRestart,
    LaterPairFirst, ClashCountsZero, ClashCountsItself, ClashIgnored, NoChase, RepeatsStay, NoCore, HeadForgotten,
    RelationIgnored, ConstantsMapped, AlwaysNever, MapOfTheChased,
];
const OF_ROWS: [Mistake; 16] = [
    LowestFirst, SortedFirst, LastRepeatStays, NextNotTried, NoneAfterOne, AllOutsideTheImage, NotSorted, HighestFirst,
    ByRelationAlone, ByEntriesAlone, FromTheRight, VariablesFirst, KindsMixed, HeadVariablesFirst, AsText, AsInTheFile,
];

/// All pairs of entries that a dependency makes equal and that differ now, with the second row.
fn steps(d: &Dependency, rows: &[Row], backwards: bool) -> Vec<(usize, usize)> {
    let mut pairs = vec![];
    for i in 0..rows.len() {
        for j in i + 1..rows.len() {
            let (a, b) = (&rows[i], &rows[j]);
            if a.relation == d.relation
                && b.relation == d.relation
                && d.left_columns().all(|c| a.entries[c] == b.entries[c])
                && a.entries[d.right as usize] != b.entries[d.right as usize]
            {
                pairs.push((i, j));
            }
        }
    }
    if backwards {
        pairs.reverse();
    }
    pairs
}

fn wrong_chase(m: Mistake, deps: &[Dependency], source: &Query) -> (Query, usize) {
    let (mut query, mut count) = (source.clone(), 0);
    if m == NoChase {
        return (query, 0);
    }
    let mut at = 0;
    // The mistakes can go on for ever; 100 rounds are enough to differ.
    for _ in 0..100 {
        let next = (at..deps.len()).find_map(|k| {
            let all = steps(&deps[k], &query.rows, m == LaterPairFirst);
            let free = |&&(i, j): &&(usize, usize)| {
                let (x, y) = (query.rows[i].entries[deps[k].right as usize], query.rows[j].entries[deps[k].right as usize]);
                let clash = matches!((x, y), (Constant(_), Constant(_)));
                let both = query.head.contains(&x) && query.head.contains(&y);
                !(m == ClashIgnored && clash) && !(m == HeadVariablesApart && both && !clash)
            };
            all.iter().find(free).map(|&(i, j)| (k, i, j))
        });
        let Some((k, i, j)) = next else { break };
        at = match m {
            WalkOnce => k + 1,
            NoRestart => k,
            _ => 0,
        };
        let c = deps[k].right as usize;
        let (x, y) = (query.rows[i].entries[c], query.rows[j].entries[c]);
        let (stays, goes) = match (x, y) {
            (Constant(_), Constant(_)) => {
                let n = match m {
                    ClashCountsZero => 0,
                    ClashCountsItself => count + 1,
                    _ => count,
                };
                return (Query::never(source.head_length), n);
            }
            (Constant(_), _) => if m == VariableSurvives { (y, x) } else { (x, y) },
            (_, Constant(_)) => if m == VariableSurvives { (x, y) } else { (y, x) },
            (Variable(a), Variable(b)) => match (query.head.contains(&x), query.head.contains(&y)) {
                _ if m == FirstSurvives => (x, y),
                (true, false) if m != LowerSurvives => (x, y),
                (false, true) if m != LowerSurvives => (y, x),
                _ => if a < b { (x, y) } else { (y, x) },
            },
        };
        if m == OnlyInTheRow {
            query.rows[i].entries[c] = stays;
            query.rows[j].entries[c] = stays;
        } else {
            query.rows.iter_mut().flat_map(|r| &mut r.entries).filter(|e| **e == goes).for_each(|e| *e = stays);
            if m != NotInTheHead {
                query.head.iter_mut().filter(|e| **e == goes).for_each(|e| *e = stays);
            }
        }
        count += 1;
    }
    (query, count)
}

/// The rows that stay, in the order of the query.
fn wrong_rows(m: Mistake, query: &Query) -> Vec<Row> {
    let mut rows = query.rows.clone();
    match m {
        SortedFirst => rows.sort(),
        // A repeated row is tried where it stands last.
        LastRepeatStays => rows = (0..rows.len()).filter(|&i| !rows[i + 1..].contains(&rows[i])).map(|i| rows[i].clone()).collect(),
        _ => {}
    }
    let mut order: Vec<usize> = (0..rows.len()).rev().collect();
    if m == LowestFirst {
        order.reverse();
    }
    let mut stays = vec![true; rows.len()];
    let (mut lost, mut pass) = (false, false);
    for k in order {
        if (m == NextNotTried && pass) || (m == NoneAfterOne && lost) || !stays[k] {
            pass = false;
            continue;
        }
        stays[k] = false;
        let fewer = Query::new(query.head.clone(), (0..rows.len()).filter(|&i| stays[i]).map(|i| rows[i].clone()).collect());
        let mapping = find(query, &fewer);
        pass = mapping.is_some();
        lost |= pass;
        match mapping {
            None => stays[k] = true,
            Some(mapping) if m == AllOutsideTheImage => {
                let onto = |row: &Row| Row { relation: row.relation, entries: row.entries.iter().map(|&e| image(&mapping, e)).collect() };
                let reached: Vec<Row> = rows.iter().map(onto).collect();
                (0..rows.len()).for_each(|i| stays[i] &= reached.contains(&rows[i]));
            }
            Some(_) => {}
        }
    }
    (0..rows.len()).filter(|&i| stays[i]).map(|i| rows[i].clone()).collect()
}

/// Numbers that are compared from the left in the stead of an entry.
fn wrong_key(m: Mistake, e: Entry, head: &[Entry]) -> Vec<u32> {
    let (kind, n) = match e {
        Constant(n) => (0, n),
        Variable(v) => (1, v as u32),
    };
    match m {
        VariablesFirst => vec![1 - kind, n],
        KindsMixed => vec![n, kind],
        HeadVariablesFirst if kind == 1 => vec![kind, !head.contains(&e) as u32, n],
        AsText => std::iter::once(kind).chain(n.to_string().bytes().map(|b| b as u32)).collect(),
        AsInTheFile => std::iter::once(kind).chain(n.to_le_bytes().map(|b| b as u32)).collect(),
        _ => vec![kind, n],
    }
}

fn wrong_order(m: Mistake, head: &[Entry], rows: &mut [Row]) {
    let entries = |row: &Row| {
        let mut all: Vec<Vec<u32>> = row.entries.iter().map(|&e| wrong_key(m, e, head)).collect();
        if m == FromTheRight {
            all.reverse();
        }
        all
    };
    match m {
        NotSorted => {}
        ByRelationAlone => rows.sort_by_key(|row| row.relation),
        ByEntriesAlone => rows.sort_by_key(|row| (entries(row), row.relation)),
        _ => rows.sort_by_key(|row| (row.relation, entries(row))),
    }
    if m == HighestFirst {
        rows.reverse();
    }
}

fn wrong_core(m: Mistake, query: &Query) -> Query {
    let mut out = query.clone();
    match m {
        NoCore => {
            let mut seen = vec![];
            out.rows.retain(|r| !seen.contains(r) && { seen.push(r.clone()); true });
        }
        RepeatsStay => {
            let least = core(query).rows;
            out.rows.retain(|r| least.contains(r));
        }
        HeadForgotten => out.rows = core(&Query::new(vec![], query.rows.clone())).rows,
        RelationIgnored => {
            // Only where all rows are of one width.
            if query.rows.iter().all(|r| r.entries.len() == query.rows[0].entries.len()) {
                let mut same = query.clone();
                same.rows.iter_mut().for_each(|r| r.relation = 0);
                let least = core(&same).rows;
                let bare = |r: &Row| Row { relation: 0, entries: r.entries.clone() };
                let mut seen = vec![];
                out.rows.retain(|r| least.contains(&bare(r)) && !seen.contains(&bare(r)) && { seen.push(bare(r)); true });
            } else {
                out = core(query);
            }
        }
        ConstantsMapped => {
            let used = query.variables();
            let mut free = (0..VARIABLES as u8).filter(|v| !used.contains(v));
            let mut names = std::collections::BTreeMap::new();
            for e in query.rows.iter().flat_map(|r| &r.entries) {
                if matches!(e, Constant(_)) && !names.contains_key(e) {
                    let Some(v) = free.next() else { return core(query) };
                    names.insert(*e, Variable(v));
                }
            }
            let rename = |e: Entry| names.get(&e).copied().unwrap_or(e);
            let least = core(&crate::generate::substitute(query, rename)).rows;
            let mut seen = vec![];
            out.rows.retain(|r| {
                let renamed = Row { relation: r.relation, entries: r.entries.iter().map(|&e| rename(e)).collect() };
                least.contains(&renamed) && !seen.contains(r) && { seen.push(r.clone()); true }
            });
        }
        _ => out.rows = wrong_rows(m, query),
    }
    wrong_order(m, &query.head, &mut out.rows);
    out
}

fn wrong_list(m: Mistake, record: &Record) -> String {
    let mut text = String::new();
    for (p, place) in record.places.iter().enumerate() {
        let Some(stored) = place else { continue };
        let source = &read_query(&record.codes, stored);
        let (chased, count) = wrong_chase(m, &record.dependencies, source);
        let result = if m == AlwaysNever { Query::never(source.head_length) } else { wrong_core(m, &chased) };
        if result.is_never() {
            text += &place_text(p, source, &result, count, None);
            continue;
        }
        let from = if m == MapOfTheChased { &chased } else { source };
        // The best mapping there is, or any.
        let mapping = find(from, &result).unwrap_or([Constant(0); VARIABLES]);
        text += &place_text(p, source, &result, count, Some(&mapping));
    }
    text
}

fn files_show_up(mistakes: &[Mistake]) {
    let files = (0..1500).map(|k| file(3, k));
    let records: Vec<(Vec<u8>, Record, String)> = files.filter_map(|f| read(&f).ok().map(|r| (f.clone(), r, list(&f)))).collect();
    let wrong = |m| {
        // The reference's own listing is right.
        let is_wrong = |f: &[u8], text: &str, right: &str| text != right && judge(f, text.as_bytes()).is_err();
        records.iter().filter(|(f, r, right)| is_wrong(f, &wrong_list(m, r), right)).count()
    };
    assert_eq!(wrong(Nothing), 0);
    let found: Vec<(Mistake, usize)> = mistakes.iter().map(|&m| (m, wrong(m))).collect();
    println!("{found:?} of {}", records.len());
    assert!(found.iter().all(|&(_, n)| n >= 5), "{found:?}");
}

#[test]
fn generated_files_show_up_mistakes() {
    files_show_up(&OF_LISTING);
}

#[test]
fn generated_files_show_up_mistakes_in_rows() {
    files_show_up(&OF_ROWS);
}

/// The reductions of vectors show up the mistakes in which rows stay and in their order.
#[test]
fn reductions_show_up_mistakes() {
    let mut r = Random::new(7);
    let queries: Vec<Query> = (0..1000)
        .filter_map(|_| {
            let (record, source, _) = any_reduction(&mut r);
            let [query] = queries(&record, [source]).ok()?;
            Some(chase(&record.dependencies, &query).query)
        })
        .collect();
    let wrong = |m| queries.iter().filter(|q| wrong_core(m, q) != core(q)).count();
    assert_eq!(wrong(Nothing), 0);
    let found: Vec<(Mistake, usize)> = OF_ROWS.iter().map(|&m| (m, wrong(m))).collect();
    println!("{found:?} of {}", queries.len());
    assert!(found.iter().all(|&(_, n)| n >= 3), "{found:?}");
}

/// Mistakes with join dependencies, in reading a file, in comparing and in testing.
#[derive(Clone, Copy, PartialEq, Debug)]
enum JoinMistake {
    NoMistake,
    // Of reading
    TailIgnored,
    TailIsFour,
    TailBeforeFunctional,
    CountZeroAccepted,
    CountFiveAccepted,
    OneSetAccepted,
    EmptySetAccepted,
    ColumnForgotten,
    BytesLeftOver,
    // Of comparing
    JoinsIgnored,
    RepeatedRowsKept,
    LaterRepeatStays,
    RepeatsOfTheRelationOnly,
    RepeatsGoWithoutJoins,
    NewRowFirst,
    JoinsBeforeFunctional,
    FunctionalOnlyAtFirst,
    TwelveRows,
    TwentyThreeRows,
    TwentyFiveRows,
    OnlyTheRelationCounts,
    OverflowIsNever,
    OverflowFirst,
    OverflowAfterTheMapping,
    OnlyTheFirstJoin,
    LastJoinFirst,
    SecondQueryChased,
    // Of comparing and testing
    LastSetFirst,
    LastChoice,
    OverlapIgnored,
    OtherRelations,
    // Of testing
    JoinsTestedFirst,
    JoinsNotTested,
    PositionsInTheRelation,
    RepeatsNotCounted,
}
use JoinMistake::*;

const OF_READING: [JoinMistake; 9] = [
    TailIgnored, TailIsFour, TailBeforeFunctional, CountZeroAccepted, CountFiveAccepted, OneSetAccepted, EmptySetAccepted, ColumnForgotten, BytesLeftOver,
];
const OF_COMPARING: [JoinMistake; 22] = [
    JoinsIgnored, RepeatedRowsKept, LaterRepeatStays, RepeatsOfTheRelationOnly, RepeatsGoWithoutJoins, NewRowFirst, JoinsBeforeFunctional,
    FunctionalOnlyAtFirst, TwelveRows, TwentyThreeRows, TwentyFiveRows, OnlyTheRelationCounts, OverflowIsNever, OverflowFirst, OverflowAfterTheMapping,
    OnlyTheFirstJoin, LastJoinFirst, SecondQueryChased, LastSetFirst, LastChoice, OverlapIgnored, OtherRelations,
];
const OF_TESTING: [JoinMistake; 9] = [
    JoinsTestedFirst, JoinsNotTested, PositionsInTheRelation, RepeatsNotCounted, OnlyTheFirstJoin, LastJoinFirst, LastSetFirst, LastChoice, OverlapIgnored,
];

/// The refusal of part 1.
fn wrong_part_1(m: JoinMistake, widths: &[u8], part: &[u8]) -> Option<Refusal> {
    let n = *part.first().unwrap_or(&255) as usize;
    if n > MAX_DEPENDENCIES || part.len() < 1 + 3 * n {
        return Some(4);
    }
    let (functional, tail) = part[1..].split_at(3 * n);
    let bad = functional.chunks(3).any(|d| !Dependency { relation: d[0], left: d[1], right: d[2] }.is_sound(widths));
    let wrong = wrong_tail(m, widths, tail).is_none();
    match (bad, wrong) {
        (true, true) if m == TailBeforeFunctional => Some(15),
        (true, _) => Some(4),
        (false, true) => Some(if m == TailIsFour { 4 } else { 15 }),
        (false, false) => None,
    }
}

/// None if the bytes past the functional dependencies are refused.
fn wrong_tail(m: JoinMistake, widths: &[u8], tail: &[u8]) -> Option<()> {
    let (least, most) = (if m == CountZeroAccepted { 0 } else { 1 }, if m == CountFiveAccepted { 5 } else { 4 });
    let fewest = if m == OneSetAccepted { 1 } else { 2 };
    let Some((&count, mut rest)) = tail.split_first() else { return Some(()) };
    if m == TailIgnored {
        return Some(());
    }
    if !(least..=most).contains(&count) {
        return None;
    }
    for _ in 0..count {
        let (relation, n) = (*rest.first()?, *rest.get(1)? as usize);
        let sets = rest.get(2..2 + n)?;
        rest = &rest[2 + n..];
        let w = *widths.get(relation as usize)?;
        let whole = ((1u16 << w) - 1) as u8;
        let all = sets.iter().fold(0, |all, set| all | set);
        let empty = sets.contains(&0) && m != EmptySetAccepted;
        if !(fewest..=4).contains(&n) || empty || all & !whole != 0 || (all != whole && m != ColumnForgotten) {
            return None;
        }
    }
    (rest.is_empty() || m == BytesLeftOver).then_some(())
}

fn wrong_read(m: JoinMistake, file: &[u8]) -> Result<(), Refusal> {
    match read(file).map(|_| ()) {
        Err(n) if n < 4 || n == 18 => Err(n),
        right => {
            let parts = parts(file).expect("a directory");
            match wrong_part_1(m, &parts[0][1..=parts[0][0] as usize], parts[1]) {
                Some(n) => Err(n),
                // Whatever the other parts are, the answer is wrong already if part 1 decided.
                None => right.map_err(|n| if n == 4 || n == 15 { 0 } else { n }),
            }
        }
    }
}

/// A choice of rows that yields one that is not present: its positions and that row.
fn wrong_choice<T: Copy + Eq>(m: JoinMistake, join: &JoinDependency, rows: &[(u8, &[T])]) -> Option<(Vec<usize>, Vec<T>)> {
    let width = rows.iter().find(|r| r.0 == join.relation)?.1.len();
    let fits = |row: &(u8, &[T])| if m == OtherRelations { row.1.len() == width } else { row.0 == join.relation };
    let mut of_relation: Vec<usize> = (0..rows.len()).filter(|&i| fits(&rows[i])).collect();
    if m == LastChoice {
        of_relation.reverse();
    }
    // Of rows that are alike in a set's columns the first one is enough.
    let part = |set: u8, i: usize| columns(set).map(|c| rows[i].1[c]).collect::<Vec<T>>();
    let first_alike = |&set: &u8| {
        let mut seen = vec![];
        of_relation.iter().copied().filter(|&i| !seen.contains(&part(set, i)) && { seen.push(part(set, i)); true }).collect()
    };
    let candidates: Vec<Vec<usize>> = join.sets.iter().map(first_alike).collect();
    let sets = join.sets.len();
    for number in 0..candidates.iter().map(|all| all.len()).product() {
        let (mut choice, mut rest) = (vec![0; sets], number);
        for t in 0..sets {
            let k = if m == LastSetFirst { t } else { sets - 1 - t };
            choice[k] = candidates[k][rest % candidates[k].len()];
            rest /= candidates[k].len();
        }
        let mut yielded: Vec<Option<T>> = vec![None; width];
        let agree = (0..sets).all(|k| columns(join.sets[k]).all(|c| *yielded[c].get_or_insert(rows[choice[k]].1[c]) == rows[choice[k]].1[c]));
        if m == OverlapIgnored {
            for k in (0..sets).rev() {
                columns(join.sets[k]).for_each(|c| yielded[c] = Some(rows[choice[k]].1[c]));
            }
        } else if !agree {
            continue;
        }
        let yielded: Vec<T> = yielded.into_iter().map(|x| x.expect("every column")).collect();
        if !of_relation.iter().any(|&i| *rows[i].1 == yielded) {
            return Some((choice, yielded));
        }
    }
    None
}

/// The held join dependencies that are looked at, with their positions, in order.
fn looked_at(m: JoinMistake, joins: &[JoinDependency]) -> Vec<(usize, &JoinDependency)> {
    let mut all: Vec<(usize, &JoinDependency)> = joins.iter().enumerate().collect();
    match m {
        OnlyTheFirstJoin => all.truncate(1),
        LastJoinFirst => all.reverse(),
        JoinsIgnored | JoinsNotTested => all.clear(),
        _ => {}
    }
    all
}

fn wrong_join_chase(m: JoinMistake, record: &Record, source: &Query) -> Result<Query, Refusal> {
    let limit = match m {
        TwelveRows => 12,
        TwentyThreeRows => 23,
        TwentyFiveRows => 25,
        _ => 24,
    };
    let mut query = source.clone();
    // Two mistakes never rest.
    for round in 0..60 {
        let functional = |query: &Query| if m == FunctionalOnlyAtFirst && round > 0 { query.clone() } else { chase(&record.dependencies, query).query };
        if m != JoinsBeforeFunctional {
            query = functional(&query);
        }
        if query.is_never() || (record.joins.is_empty() && m != RepeatsGoWithoutJoins) {
            return Ok(functional(&query));
        }
        let all = query.rows.clone();
        let stays = |i: usize| match m {
            RepeatedRowsKept => true,
            LaterRepeatStays => !all[i + 1..].contains(&all[i]),
            RepeatsOfTheRelationOnly => !all[..i].contains(&all[i]) || !record.joins.iter().any(|j| j.relation == all[i].relation),
            _ => !all[..i].contains(&all[i]),
        };
        query.rows = (0..all.len()).filter(|&i| stays(i)).map(|i| all[i].clone()).collect();
        let rows: Vec<(u8, &[Entry])> = query.rows.iter().map(|r| (r.relation, &r.entries[..])).collect();
        let missing = looked_at(m, &record.joins).into_iter().find_map(|(_, j)| Some((j.relation, wrong_choice(m, j, &rows)?.1)));
        let Some((relation, entries)) = missing else {
            let after = functional(&query);
            if after == query {
                return Ok(query);
            }
            query = after;
            continue;
        };
        let count = if m == OnlyTheRelationCounts { rows.iter().filter(|r| r.0 == relation).count() } else { rows.len() };
        if count >= limit {
            return if m == OverflowIsNever { Ok(Query::never(source.head_length)) } else { Err(17) };
        }
        let at = if m == NewRowFirst { 0 } else { query.rows.len() };
        query.rows.insert(at, Row { relation, entries });
    }
    Err(17)
}

/// The verdict's number with the query shown, or the refusal.
type Compared = Result<(u8, Option<Query>), Refusal>;

fn right_compare(record: &Record, p: u8, q: u8) -> Compared {
    compare(record, p, q).map(|verdict| match verdict {
        Verdict::NotContained(chased) => (0, Some(chased)),
        Verdict::Contained(_) => (1, None),
        Verdict::ContainedAsNever => (2, None),
    })
}

fn wrong_compare(m: JoinMistake, record: &Record, p: u8, q: u8) -> Compared {
    if m == OverflowFirst {
        let [first] = queries(record, [p])?;
        wrong_join_chase(m, record, &first)?;
    }
    let [of_p, of_q] = queries(record, [p, q])?;
    if of_p.head_length != of_q.head_length {
        return Err(8);
    }
    let (of_p, of_q) = match m {
        SecondQueryChased => (Ok(of_p), wrong_join_chase(m, record, &of_q)?),
        _ => (wrong_join_chase(m, record, &of_p), of_q),
    };
    if m == OverflowAfterTheMapping && of_p.is_err() && of_q.is_never() {
        return Ok((0, None));
    }
    let of_p = of_p?;
    Ok(if of_p.is_never() {
        (2, None)
    } else if find(&of_q, &of_p).is_some() {
        (1, None)
    } else {
        (0, Some(of_p))
    })
}

fn wrong_test(m: JoinMistake, record: &Record, facts: &[Fact]) -> Tested {
    let facts = &read_facts(&record.codes, facts);
    let rows: Vec<(u8, &[u32])> = facts.iter().map(|f| (f.relation, &f.values[..])).collect();
    let functional = first_broken(&record.dependencies, facts).map(|(k, i, j)| Tested::Breaks(k, i, j));
    let broken = looked_at(m, &record.joins).into_iter().find_map(|(k, j)| Some((k, j.relation, wrong_choice(m, j, &rows)?.0)));
    let join = broken.map(|(k, relation, mut choice)| {
        for i in &mut choice {
            match m {
                PositionsInTheRelation => *i = facts[..*i].iter().filter(|f| f.relation == relation).count(),
                RepeatsNotCounted => *i = (0..*i).filter(|&k| !facts[..k].contains(&facts[k])).count(),
                _ => {}
            }
        }
        Tested::BreaksJoin(k, choice)
    });
    let first = if m == JoinsTestedFirst { join.clone().or(functional) } else { functional.or(join) };
    first.unwrap_or(Tested::Obeys)
}

pub fn each_is_shown_up<M: Copy + std::fmt::Debug>(none: M, all: &[M], wrong: impl Fn(M) -> usize) {
    each_is_shown_up_by(3, none, all, wrong);
}

/// By so many inputs at least.
pub fn each_is_shown_up_by<M: Copy + std::fmt::Debug>(least: usize, none: M, all: &[M], wrong: impl Fn(M) -> usize) {
    assert_eq!(wrong(none), 0);
    let found: Vec<(M, usize)> = all.iter().map(|&m| (m, wrong(m))).collect();
    println!("{found:?}");
    assert!(found.iter().all(|&(_, n)| n >= least), "{found:?}");
}

#[test]
fn generated_files_show_up_mistakes_with_joins() {
    let files: Vec<Vec<u8>> = (0..5000).map(|k| file(4, k)).collect();
    each_is_shown_up(NoMistake, &OF_READING, |m| files.iter().filter(|f| wrong_read(m, f) != read(f).map(|_| ())).count());
}

#[test]
fn comparisons_show_up_mistakes_with_joins() {
    let mut r = Random::new(5);
    let all: Vec<(Record, u8, u8)> = (0..1500).map(|_| related_record(&mut r)).collect();
    let right: Vec<Compared> = all.iter().map(|(x, p, q)| right_compare(x, *p, *q)).collect();
    each_is_shown_up(NoMistake, &OF_COMPARING, |m| all.iter().zip(&right).filter(|((x, p, q), due)| wrong_compare(m, x, *p, *q) != **due).count());
}

#[test]
fn databases_show_up_mistakes_with_joins() {
    let mut r = Random::new(6);
    let all: Vec<(Record, Vec<Fact>)> = (0..400)
        .map(|_| {
            let record = record_with_joins(&mut r);
            let facts = any_facts(&mut r, &record, record.places.iter().flatten().next());
            (record, facts)
        })
        .collect();
    each_is_shown_up(NoMistake, &OF_TESTING, |m| all.iter().filter(|(x, facts)| Ok(wrong_test(m, x, facts)) != test(x, &words(facts))).count());
}

/// Mistakes with functional dependencies that have an empty left set, and with the one of them whose numbers are all 0.
#[derive(Clone, Copy, PartialEq, Debug)]
enum EmptyMistake {
    NoneAtAll,
    // Of what is refused
    EmptyRefused,
    ZerosRefused,
    EmptyNotLookedAt,
    EmptySetInJoin,
    // Of what is in use
    ZerosDropped,
    LastZerosDropped,
    CutAtZeros,
    ZerosReplaced,
    // Of agreement
    NeverAgrees,
    OtherRelationsAgree,
    NothingDetermined,
    WithTheRowBefore,
}
use EmptyMistake::*;

const OF_ADDING: [EmptyMistake; 7] = [EmptyRefused, ZerosRefused, EmptyNotLookedAt, ZerosDropped, LastZerosDropped, CutAtZeros, ZerosReplaced];
const OF_FILES: [EmptyMistake; 8] = [
    EmptyRefused, ZerosRefused, EmptyNotLookedAt, ZerosDropped, LastZerosDropped, CutAtZeros, NeverAgrees, OtherRelationsAgree,
];
const OF_WRITING: [EmptyMistake; 3] = [ZerosDropped, LastZerosDropped, CutAtZeros];
const OF_QUESTIONS: [EmptyMistake; 7] = [EmptyRefused, EmptyNotLookedAt, ZerosDropped, LastZerosDropped, CutAtZeros, NeverAgrees, NothingDetermined];
const OF_THE_CHASE: [EmptyMistake; 5] = [ZerosDropped, LastZerosDropped, CutAtZeros, NeverAgrees, OtherRelationsAgree];
const OF_DATABASES: [EmptyMistake; 6] = [ZerosDropped, LastZerosDropped, CutAtZeros, NeverAgrees, OtherRelationsAgree, WithTheRowBefore];

fn accepted(m: EmptyMistake, widths: &[u8], d: Dependency) -> bool {
    match m {
        EmptyRefused if d.left == 0 => false,
        ZerosRefused if d == ZEROS => false,
        EmptyNotLookedAt if d.left == 0 => true,
        _ => d.is_sound(widths),
    }
}

/// Whether the k-th of these dependencies is held, or does something.
fn in_use(m: EmptyMistake, all: &[Dependency], k: usize) -> bool {
    match m {
        ZerosDropped => all[k] != ZEROS,
        LastZerosDropped => all[k..].iter().any(|d| *d != ZEROS),
        CutAtZeros => !all[..=k].contains(&ZEROS),
        NeverAgrees => all[k].left != 0,
        _ => true,
    }
}

/// The record with the dependencies that are in use.
fn held(m: EmptyMistake, record: &Record) -> Record {
    let all = &record.dependencies;
    let dependencies = (0..all.len()).filter(|&k| in_use(m, all, k)).map(|k| all[k]).collect();
    Record { dependencies, ..record.clone() }
}

/// Whether a dependency is asked of the rows of this relation and width.
fn asked_about(m: EmptyMistake, d: &Dependency, relation: u8, width: usize) -> bool {
    relation == d.relation || (m == OtherRelationsAgree && d.left == 0 && width > d.right as usize)
}

fn wrong_addition(m: EmptyMistake, record: &Record, d: Dependency) -> Result<Record, Refusal> {
    record.sound()?;
    if !accepted(m, &record.widths, d) {
        return Err(4);
    }
    if record.dependencies.len() == 32 {
        return Err(13);
    }
    let mut after = record.clone();
    match after.dependencies.iter().position(|d| *d == ZEROS) {
        Some(k) if m == ZerosReplaced => after.dependencies[k] = d,
        _ => after.dependencies.push(d),
    }
    Ok(held(m, &after))
}

fn wrong_join_addition(m: EmptyMistake, record: &Record, join: &JoinDependency) -> Result<(), Refusal> {
    // An empty set passes like one that adds no column.
    let filled = |&set: &u8| if m == EmptySetInJoin && set == 0 { *join.sets.iter().find(|&&set| set != 0).unwrap_or(&0) } else { set };
    record.add_join(&JoinDependency { relation: join.relation, sets: join.sets.iter().map(filled).collect() }).map(|_| ())
}

fn wrong_question(m: EmptyMistake, record: &Record, relation: u8, set: u8) -> Result<(u8, u32), Refusal> {
    record.sound()?;
    match m {
        EmptyRefused if set == 0 => Err(4),
        EmptyNotLookedAt if set == 0 && relation as usize >= record.widths.len() => Ok((0, 0)),
        NothingDetermined if set == 0 => determined(record, relation, set).map(|_| (0, 0)),
        _ => determined(&held(m, record), relation, set),
    }
}

/// The query after the chase, and the count.
fn wrong_empty_chase(m: EmptyMistake, record: &Record, source: &Query) -> (Query, usize) {
    let used = held(m, record).dependencies;
    if m != OtherRelationsAgree {
        let chased = chase(&used, source);
        return (chased.query, chased.count);
    }
    let (mut query, mut count) = (source.clone(), 0);
    loop {
        let step = used.iter().find_map(|d| {
            let rows: Vec<&[Entry]> =
                query.rows.iter().filter(|r| asked_about(m, d, r.relation, r.entries.len())).map(|r| &r.entries[..]).collect();
            let pairs = (0..rows.len()).flat_map(|i| (i + 1..rows.len()).map(move |j| (i, j)));
            let mut made_equal = pairs
                .filter(|&(i, j)| d.left_columns().all(|c| rows[i][c] == rows[j][c]))
                .map(|(i, j)| (rows[i][d.right as usize], rows[j][d.right as usize]));
            made_equal.find(|(x, y)| x != y)
        });
        let Some((x, y)) = step else { return (query, count) };
        let Some((stays, goes)) = survivor(x, y, &query.head) else { return (Query::never(source.head_length), count) };
        query = crate::generate::substitute(&query, |e| if e == goes { stays } else { e });
        count += 1;
    }
}

/// The listing with the map of any mapping there is.
fn wrong_file_list(m: EmptyMistake, file: &[u8]) -> String {
    let file = cut(file);
    let right = read(file);
    if matches!(right, Err(1..=3 | 18)) {
        return list(file);
    }
    let parts = parts(file).expect("a directory");
    let (widths, part) = (&parts[0][1..=parts[0][0] as usize], parts[1]);
    let n = *part.first().unwrap_or(&255) as usize;
    let all_there = n <= MAX_DEPENDENCIES && part.len() > 3 * n;
    let passes = all_there && part[1..1 + 3 * n].chunks(3).all(|d| accepted(m, widths, Dependency { relation: d[0], left: d[1], right: d[2] }));
    match right {
        _ if !passes => "refused 4\n".into(),
        // Whatever the other parts are, the answer is wrong already.
        Err(4) => String::new(),
        Err(n) => format!("refused {n}\n"),
        Ok(record) => {
            let mut text = String::new();
            for (p, place) in record.places.iter().enumerate() {
                let Some(stored) = place else { continue };
                let source = &read_query(&record.codes, stored);
                let (chased, count) = wrong_empty_chase(m, &record, source);
                let result = core(&chased);
                let mapping = find(source, &result).unwrap_or([Constant(0); VARIABLES]);
                text += &place_text(p, source, &result, count, (!result.is_never()).then_some(&mapping));
            }
            text
        }
    }
}

fn wrong_empty_test(m: EmptyMistake, record: &Record, facts: &[Fact]) -> Tested {
    let facts = &read_facts(&record.codes, facts);
    let broken = |d: &Dependency| {
        let rows: Vec<usize> = (0..facts.len()).filter(|&i| asked_about(m, d, facts[i].relation, facts[i].values.len())).collect();
        let value = |i: usize| facts[i].values[d.right as usize];
        match m {
            OtherRelationsAgree if d.left == 0 => rows.iter().find(|&&j| value(j) != value(rows[0])).map(|&j| (rows[0], j)),
            WithTheRowBefore if d.left == 0 => rows.windows(2).find(|two| value(two[0]) != value(two[1])).map(|two| (two[0], two[1])),
            _ => first_broken(&[*d], facts).map(|(_, i, j)| (i, j)),
        }
    };
    let all = &record.dependencies;
    let functional = (0..all.len()).filter(|&k| in_use(m, all, k)).find_map(|k| broken(&all[k]).map(|(i, j)| Tested::Breaks(k, i, j)));
    let join = || first_broken_join(&record.joins, facts).map(|(k, choice)| Tested::BreaksJoin(k, choice.rows));
    functional.or_else(join).unwrap_or(Tested::Obeys)
}

#[test]
fn additions_show_up_mistakes_with_empty_left_sets() {
    let mut r = Random::new(20);
    let all: Vec<(Record, Dependency)> = (0..1000).map(|_| any_addition(&mut r)).collect();
    each_is_shown_up(NoneAtAll, &OF_ADDING, |m| all.iter().filter(|(x, d)| wrong_addition(m, x, *d) != x.add(*d)).count());
    let all: Vec<(Record, JoinDependency)> = (0..1000).map(|_| any_join_addition(&mut r)).collect();
    each_is_shown_up(NoneAtAll, &[EmptySetInJoin], |m| all.iter().filter(|(x, j)| wrong_join_addition(m, x, j) != x.add_join(j).map(|_| ())).count());
}

#[test]
fn generated_files_show_up_mistakes_with_empty_left_sets() {
    let files: Vec<(Vec<u8>, String)> = (0..2000).map(|k| file(21, k)).map(|f| (f.clone(), list(&f))).collect();
    let is_wrong = |f: &[u8], text: &str, right: &str| text != right && judge(f, text.as_bytes()).is_err();
    each_is_shown_up(NoneAtAll, &OF_FILES, |m| files.iter().filter(|(f, right)| is_wrong(f, &wrong_file_list(m, f), right)).count());
}

#[test]
fn writing_shows_up_mistakes_with_empty_left_sets() {
    let mut r = Random::new(22);
    let all: Vec<Record> = (0..500).map(|_| record(&mut r)).collect();
    each_is_shown_up(NoneAtAll, &OF_WRITING, |m| all.iter().filter(|x| bytes(&held(m, x)) != bytes(x)).count());
}

#[test]
fn questions_show_up_mistakes_with_empty_left_sets() {
    let mut r = Random::new(23);
    let all: Vec<(Record, u8, u8)> = (0..1000).map(|_| any_question(&mut r)).collect();
    let wrong = |m, x: &(Record, u8, u8)| wrong_question(m, &x.0, x.1, x.2) != determined(&x.0, x.1, x.2);
    each_is_shown_up(NoneAtAll, &OF_QUESTIONS, |m| all.iter().filter(|x| wrong(m, x)).count());
}

#[test]
fn reductions_show_up_mistakes_with_empty_left_sets() {
    let mut r = Random::new(24);
    let all: Vec<(Record, u8)> = (0..1000).map(|_| any_reduction(&mut r)).map(|(x, source, _)| (x, source)).collect();
    let wrong = |m, x: &Record, source: u8| {
        let Ok([query]) = queries(x, [source]) else { return false };
        let (chased, count) = wrong_empty_chase(m, x, &query);
        let right = chase(&x.dependencies, &query);
        (core(&chased), count) != (core(&right.query), right.count)
    };
    each_is_shown_up(NoneAtAll, &OF_THE_CHASE, |m| all.iter().filter(|(x, source)| wrong(m, x, *source)).count());
}

#[test]
fn comparisons_show_up_mistakes_with_empty_left_sets() {
    let mut r = Random::new(25);
    let all: Vec<(Record, u8, u8)> = (0..1500).map(|_| related_record(&mut r)).collect();
    // The verdict alone.
    let verdict = |compared: Compared| compared.map(|(n, _)| n);
    let wrong = |m, (x, p, q): &(Record, u8, u8)| verdict(right_compare(&held(m, x), *p, *q)) != verdict(right_compare(x, *p, *q));
    each_is_shown_up(NoneAtAll, &OF_THE_CHASE[..4], |m| all.iter().filter(|x| wrong(m, x)).count());
}

#[test]
fn databases_show_up_mistakes_with_empty_left_sets() {
    let mut r = Random::new(26);
    let all: Vec<(Record, Vec<u32>)> = (0..1000).map(|_| any_database(&mut r)).collect();
    let wrong = |m, x: &Record, words: &[u32]| match facts(&x.widths, words) {
        Ok(facts) if x.is_sound() => Ok(wrong_empty_test(m, x, &facts)) != test(x, words),
        _ => false,
    };
    each_is_shown_up(NoneAtAll, &OF_DATABASES, |m| all.iter().filter(|(x, words)| wrong(m, x, words)).count());
}
