//! The examples of SPECIFICATION, Examples, and some that single out each rule of reduction, of join dependencies, of empty left sets and of pairs of codes.

use crate::chase::chase_with_joins;
use crate::closure::determined;
use crate::comparison::{check, compare, Verdict};
use crate::database::{evaluate, test, Tested};
use crate::file::{bytes, read, write};
use crate::listing::list;
use crate::mapping::is_mapping;
use crate::record::*;
use crate::record::Entry::{Constant, Variable};
use crate::reduction::{reduce, Reduced};

pub const EXAMPLE_FILE: &str = "0300 0E000200 10000400 14003100 0103 01000101 \
    0302 0100000000 0101000000 0102000000 00 0100000000 0101000000 0102000000 00 0100000000 0007000000 0103000000";
pub const EXAMPLE_LISTING: &str = "\
place 0 rows 2 kept 1 replaced 1
head v0 7 v2
row 0 v0 7 v2
map v0=v0 v1=7 v2=v2 v3=v2
";

pub fn unhex(text: &str) -> Vec<u8> {
    let digits: Vec<u32> = text.chars().filter_map(|c| c.to_digit(16)).collect();
    digits.chunks(2).map(|d| (d[0] * 16 + d[1]) as u8).collect()
}

/// "v0" or "7".
fn e(text: &str) -> Entry {
    match text.strip_prefix('v') {
        Some(v) => Variable(v.parse().unwrap()),
        None => Constant(text.parse().unwrap()),
    }
}

fn es(text: &str) -> Vec<Entry> {
    text.split_whitespace().map(e).collect()
}

const R: u8 = 0;
const S: u8 = 1;

fn q(head: &str, rows: &[(u8, &str)]) -> Query {
    Query::new(es(head), rows.iter().map(|&(relation, t)| Row { relation, entries: es(t) }).collect())
}

fn record(deps: &[(u8, u8, u8)], queries: &[Query]) -> Record {
    let mut record = Record::open(&[2, 3]).unwrap();
    for &(relation, left, right) in deps {
        record = record.add(Dependency { relation, left, right }).unwrap();
    }
    for (p, query) in queries.iter().enumerate() {
        record = record.put(p as u8, query).unwrap();
    }
    record
}

fn with_joins(deps: &[(u8, u8, u8)], joins: &[(u8, &[u8])], queries: &[Query]) -> Record {
    let mut record = record(deps, queries);
    for &(relation, sets) in joins {
        record = record.add_join(&JoinDependency { relation, sets: sets.to_vec() }).unwrap();
    }
    record
}

/// The chase with both kinds of a query without head: its rows, or the refusal.
fn joined(deps: &[(u8, u8, u8)], joins: &[(u8, &[u8])], rows: &[(u8, &str)]) -> Result<Vec<Row>, Refusal> {
    let record = with_joins(deps, joins, &[q("", rows)]);
    Ok(chase_with_joins(&record.dependencies, &record.joins, record.places[0].as_ref().unwrap())?.rows)
}

fn reduced(deps: &[(u8, u8, u8)], query: Query) -> Reduced {
    let before = record(deps, &[query.clone()]);
    let (after, reduced) = reduce(&before, 0, 1).unwrap();
    assert_eq!(after.places[1].as_ref(), Some(&reduced.result));
    assert_eq!(after.drop_place(1).unwrap(), before);
    match &reduced.mapping {
        None => assert!(reduced.result.is_never()),
        Some(m) => assert!(is_mapping(&query, &reduced.result, m)),
    }
    reduced
}

#[test]
fn p1_p2_p3() {
    let rows = [(R, "v0 v1"), (R, "v0 v2")];
    let p1 = reduced(&[], q("v0", &rows));
    assert_eq!((p1.result, p1.count), (q("v0", &rows[..1]), 0));
    let p2 = reduced(&[], q("v0 v1 v2", &rows));
    assert_eq!((p2.result, p2.count), (q("v0 v1 v2", &rows), 0));
    let p3 = reduced(&[(R, 1, 1)], q("v0 v1 v2", &rows));
    assert_eq!((p3.result, p3.count), (q("v0 v1 v1", &rows[..1]), 1));
}

#[test]
fn p4_p5() {
    let query = q("v0", &[(R, "v0 3"), (R, "v0 4")]);
    let p4 = reduced(&[(R, 1, 1)], query.clone());
    assert_eq!((p4.result, p4.count), (Query::never(1), 0));
    let p5 = reduced(&[], query.clone());
    assert_eq!((p5.result, p5.count), (query, 0));
}

#[test]
fn p6() {
    let p6 = reduced(&[(S, 2, 2), (S, 1, 1)], q("v0", &[(S, "v0 v1 v2"), (S, "v0 v3 v4")]));
    assert_eq!((p6.result, p6.count), (q("v0", &[(S, "v0 v1 v2")]), 2));
}

#[test]
fn p7_p8() {
    let mut rows = vec![(R, "v0 v1"), (R, "v1 v2"), (R, "v2 v0")];
    assert_eq!(reduced(&[], q("", &rows)).result, q("", &rows));
    rows.push((R, "v3 v3"));
    assert_eq!(reduced(&[], q("", &rows)).result, q("", &rows[3..]));
}

/// The rows of a result of reduction without dependencies.
fn kept(head: &str, all: &[(u8, &str)]) -> Vec<Row> {
    reduced(&[], q(head, all)).result.rows
}

#[test]
fn the_last_rows_are_tried_first() {
    assert_eq!(kept("v0", &[(R, "v0 v1"), (R, "v0 v2")]), rows(&[(R, "v0 v1")]));
    // Where they stand, not as they are sorted.
    assert_eq!(kept("v0", &[(R, "v0 v2"), (R, "v0 v1")]), rows(&[(R, "v0 v2")]));
    // Each once, those after a row that goes or stays too.
    assert_eq!(kept("v0", &[(R, "v0 v3"), (R, "v0 v1"), (R, "v0 v2")]), rows(&[(R, "v0 v3")]));
    assert_eq!(kept("v0", &[(R, "v0 v1"), (R, "v0 v2"), (S, "v0 v3 v3"), (R, "v0 v4")]), rows(&[(R, "v0 v1"), (S, "v0 v3 v3")]));
    // One at a time: that all three rows can go to the second doesn't take the first away.
    assert_eq!(kept("", &[(R, "v0 v1"), (R, "v2 v3"), (R, "v4 v5")]), rows(&[(R, "v0 v1")]));
    // A repeated row is tried where it stands first.
    assert_eq!(kept("v0", &[(R, "v0 v1"), (R, "v0 v2"), (R, "v0 v1")]), rows(&[(R, "v0 v1")]));
    assert_eq!(kept("v0", &[(R, "v0 v2"), (R, "v0 v1"), (R, "v0 v1")]), rows(&[(R, "v0 v2")]));
    // A row that the others go to stays wherever it stands.
    assert_eq!(kept("", &[(R, "v0 v1"), (R, "v1 v2"), (R, "3 3")]), rows(&[(R, "3 3")]));
}

#[test]
fn kept_rows_are_sorted() {
    // By relation before entries.
    assert_eq!(kept("v0 v1", &[(S, "v0 v0 v1"), (R, "v1 v0")]), rows(&[(R, "v1 v0"), (S, "v0 v0 v1")]));
    // From the left.
    assert_eq!(kept("v0 v1", &[(R, "v1 v0"), (R, "v0 v1")]), rows(&[(R, "v0 v1"), (R, "v1 v0")]));
    assert_eq!(kept("v0 v1 v2", &[(R, "v0 v2"), (R, "v0 v1")]), rows(&[(R, "v0 v1"), (R, "v0 v2")]));
    // Constants before variables of whatever number.
    assert_eq!(kept("v0", &[(R, "v0 v0"), (R, "7 v0")]), rows(&[(R, "7 v0"), (R, "v0 v0")]));
    // By number, not as text or by the lowest byte.
    let numbers = [(R, "256 v0"), (R, "2147483647 v0"), (R, "10 v0"), (R, "9 v0")];
    assert_eq!(kept("v0", &numbers), rows(&[numbers[3], numbers[2], numbers[0], numbers[1]]));
    assert_eq!(kept("v9 v10", &[(R, "v10 v9"), (R, "v9 v10")]), rows(&[(R, "v9 v10"), (R, "v10 v9")]));
    // Variables of the head among the others.
    assert_eq!(kept("v5", &[(R, "v5 v6"), (R, "v2 v5")]), rows(&[(R, "v2 v5"), (R, "v5 v6")]));
    // After the chase: v8 became 3.
    let after = reduced(&[(R, 1, 1)], q("v5 v9", &[(S, "v5 v5 v5"), (S, "v8 v5 v5"), (R, "v9 3"), (R, "v9 v8")])).result;
    assert_eq!(after, q("v5 v9", &[(R, "v9 3"), (S, "3 v5 v5"), (S, "v5 v5 v5")]));
}

#[test]
fn p9_p10() {
    let record = record(&[], &[q("", &[(R, "v0 v0")]), q("", &[(R, "v0 v1")])]);
    assert!(matches!(compare(&record, 0, 1), Ok(Verdict::Contained(_))));
    match compare(&record, 1, 0) {
        Ok(Verdict::NotContained(shown)) => assert_eq!(Some(shown), record.places[1]),
        _ => panic!(),
    }
}

#[test]
fn p11() {
    let record = record(&[(S, 1, 1), (S, 2, 2)], &[]);
    assert_eq!(determined(&record, S, 1), Ok((7, 3)));
    assert_eq!(determined(&record, S, 4), Ok((4, 1)));
    assert_eq!(determined(&record, S, 0), Ok((0, 0)));
    for (relation, set) in [(2, 1), (2, 0), (S, 8), (R, 4)] {
        assert_eq!(determined(&record, relation, set), Err(4));
    }
}

#[test]
fn v1_v2_v3() {
    let apart = q("v0 v3", &[(R, "v0 v1"), (R, "v2 v3")]);
    let v1 = reduced(&[R_B], apart.clone());
    assert_eq!((v1.result, v1.count), (q("v0 v3", &[(R, "v0 v3")]), 1));
    let v2 = reduced(&[], apart.clone());
    assert_eq!((v2.result, v2.count), (apart, 0));
    let v3 = reduced(&[R_B], q("", &[(R, "v0 3"), (R, "v1 4")]));
    assert_eq!((v3.result, v3.count), (Query::never(0), 0));
}

#[test]
fn v4_v5() {
    let queries = [q("v0 v3", &[(R, "v0 v1"), (R, "v2 v3")]), q("v0 v1", &[(R, "v0 v1")])];
    assert!(matches!(compare(&record(&[R_B], &queries), 0, 1), Ok(Verdict::Contained(_))));
    assert!(matches!(compare(&record(&[], &queries), 0, 1), Ok(Verdict::NotContained(_))));
    let of_none = |deps: &[_]| determined(&record(deps, &[]), S, 0).map(|(_, n)| n);
    assert_eq!((of_none(&[]), of_none(&[A_TO_B]), of_none(&[A_TO_B, S_A])), (Ok(0), Ok(0), Ok(2)));
}

#[test]
fn limits() {
    let rows = |n| q("", &vec![(R, "v0 v1"); n]);
    let one = |a: Entry| Query::new(vec![], vec![Row { relation: R, entries: vec![a, a] }]);
    let record = record(&[], &[]);
    for good in [rows(12), one(Variable(95)), one(Constant(2_147_483_647))] {
        let held = record.put(0, &good).unwrap();
        assert_eq!(read(&bytes(&held)), Ok(held.clone()));
        assert_eq!(reduce(&held, 0, 0).err(), Some(12));
    }
    for bad in [rows(13), one(Variable(96)), one(Constant(2_147_483_648))] {
        assert_eq!(record.put(0, &bad), Err(5));
        let mut broken = record.clone();
        broken.places[0] = Some(bad);
        assert_eq!(read(&bytes(&broken)), Err(5));
        assert_eq!(broken.drop_place(0), Err(14));
    }
}

#[test]
fn the_file_and_its_listing() {
    let file = unhex(EXAMPLE_FILE);
    assert_eq!(file.len(), 69);
    let record = read(&file).unwrap();
    assert_eq!(bytes(&record), file);
    assert_eq!(list(&file), EXAMPLE_LISTING);
}

#[test]
fn the_longest_file() {
    let mut record = Record::open(&[8; 8]).unwrap();
    for _ in 0..32 {
        record = record.add(Dependency { relation: 7, left: 255, right: 7 }).unwrap();
    }
    let row = Row { relation: 7, entries: vec![Variable(95); 8] };
    for p in 0..8 {
        record = record.put(p, &Query::new(vec![Variable(95); 8], vec![row.clone(); 12])).unwrap();
    }
    assert_eq!(bytes(&record).len(), 4420);
    let join = JoinDependency { relation: 7, sets: vec![255, 1, 1, 255] };
    for _ in 0..4 {
        record = record.add_join(&join).unwrap();
    }
    assert_eq!(bytes(&record).len(), 4445);
    for k in 0..16 {
        record = record.add_code(CodePair { old: k, current: MAX_CONSTANT }).unwrap();
    }
    let mut buffer = vec![9; 5000];
    assert_eq!(write(&record, &mut buffer), Ok(4574));
    assert_eq!(read(&buffer[..4574]), Ok(record.clone()));
    assert!(buffer[4574..].iter().all(|&b| b == 9));
    assert_eq!(write(&record, &mut buffer[..4573]), Err(10));
    assert_eq!(record.add_code(CodePair { old: 16, current: MAX_CONSTANT }), Err(19));
    assert_eq!(record.add_code(CodePair { old: 0, current: MAX_CONSTANT }), Err(18));
    assert_eq!(record.add_join(&join), Err(16));
    assert_eq!(record.add_join(&JoinDependency { relation: 8, ..join }), Err(15));
    assert_eq!(record.add(record.dependencies[0]), Err(13));
    assert_eq!(record.add(Dependency { relation: 8, left: 1, right: 0 }), Err(4));
}

#[test]
fn order_of_refusals() {
    let two = record(&[], &[q("v0", &[(R, "v0 v1")]), q("", &[(R, "v0 v1")])]);
    let good = q("", &[(R, "v0 v1")]);
    let loose = q("v9", &[(R, "v0 v1")]);
    let bad = q("v9", &[(R, "v0 v96")]);
    let blank = Record::default();
    assert_eq!(blank.put(9, &bad), Err(14));
    assert_eq!(two.put(8, &bad), Err(7));
    assert_eq!(two.put(0, &bad), Err(5));
    assert_eq!(two.put(0, &loose), Err(6));
    assert_eq!(two.put(0, &good), Err(12));
    assert_eq!(two.drop_place(8), Err(7));
    assert_eq!(two.drop_place(2), Err(11));
    // A place above 7 comes before a vacant one, wherever it stands.
    assert_eq!(reduce(&two, 5, 8).err(), Some(7));
    assert_eq!(reduce(&two, 8, 0).err(), Some(7));
    assert_eq!(reduce(&two, 5, 0).err(), Some(11));
    assert_eq!(reduce(&two, 0, 1).err(), Some(12));
    assert_eq!(compare(&two, 5, 8).err(), Some(7));
    assert_eq!(compare(&two, 5, 0).err(), Some(11));
    assert_eq!(compare(&two, 0, 1).err(), Some(8));
    assert_eq!(check(&two, 0, 1, &[Constant(0); 96]).err(), Some(8));
    assert_eq!(test(&two, &[0, 1]), Err(9));
    assert_eq!(test(&two, &[2]), Err(9));
    assert_eq!(evaluate(&two, 5, &[2], &mut []), Err(11));
    assert_eq!(evaluate(&two, 0, &[2], &mut []), Err(9));
    assert_eq!(evaluate(&two, 0, &[0, 1, 2], &mut []), Err(10));
    assert_eq!(evaluate(&two, 1, &[0, 1, 2], &mut []), Ok(1));
    for widths in [&[][..], &[0], &[9], &[1; 9]] {
        assert_eq!(Record::open(widths), Err(3));
    }
}

#[test]
fn file_refusals() {
    let parts = |all: &[&[u8]]| read(&crate::file::join(&all.iter().map(|p| p.to_vec()).collect::<Vec<_>>())).err();
    let (w, d): (&[u8], &[u8]) = (&[1, 1], &[0]);
    let row: &[u8] = &[0, 1, 0, 1, 5, 0, 0, 0];
    let loose: &[u8] = &[1, 1, 1, 4, 0, 0, 0, 0, 1, 5, 0, 0, 0];
    assert_eq!(parts(&[w, d]), None);
    assert_eq!(parts(&[w, d, row]), None);
    assert_eq!(parts(&[w, d, &[255], row]), None);
    assert_eq!(parts(&[w]), Some(1));
    assert_eq!(parts(&[w; 11]), Some(1));
    assert_eq!(parts(&[&[], &[], &[]]), Some(3));
    assert_eq!(parts(&[w, &[], loose]), Some(4));
    assert_eq!(parts(&[w, d, &[]]), Some(5));
    assert_eq!(parts(&[w, d, row, &[255]]), Some(5));
    assert_eq!(parts(&[w, d, loose, &[255]]), Some(6));
    assert_eq!(parts(&[w, d, &[255, 255]]), Some(5));
    assert_eq!(parts(&[w, d, &[8, 0]]), None);
    assert_eq!(parts(&[w, d, &[9, 0]]), Some(5));
    assert_eq!(parts(&[w, d, &[0, 0, 0]]), Some(5));
    let mut both = loose.to_vec();
    both.push(0);
    assert_eq!(parts(&[w, d, &both]), Some(5));
    assert_eq!(read(&[]).err(), Some(1));
    assert_eq!(read(&[2]).err(), Some(1));
    assert_eq!(read(&[2, 0, 10, 0, 2, 0, 12, 0, 1]).err(), Some(1));
    assert_eq!(read(&[2, 0, 10, 0, 2, 0, 12, 0, 1, 0]).err(), Some(2));
    let mut long = crate::file::join(&[w.to_vec(), d.to_vec(), row.to_vec()]);
    long.push(0);
    assert_eq!(read(&long).err(), Some(2));
    assert_eq!(list(&long), "refused 2\n");
}

#[test]
fn listing_of_bare_queries() {
    let mut all = record(&[(R, 1, 1)], &[q("", &[(R, "1 2")]), Query::never(3), q("v0", &[(R, "v0 3"), (R, "v0 4")])]);
    all.places[5] = all.places[0].clone();
    let text = "place 0 rows 1 kept 1 replaced 0\nhead\nrow 0 1 2\nmap\n\
                place 1 rows 0 never replaced 0\n\
                place 2 rows 2 never replaced 0\n\
                place 5 rows 1 kept 1 replaced 0\nhead\nrow 0 1 2\nmap\n";
    assert_eq!(list(&bytes(&all)), text);
    assert_eq!(list(&bytes(&record(&[], &[]))), "");
}

#[test]
fn comparison_with_never() {
    let clash = q("v0", &[(R, "v0 3"), (R, "v0 4")]);
    let all = record(&[(R, 1, 1)], &[Query::never(1), q("v0", &[(R, "v0 v1")]), clash]);
    for q in 0..3 {
        assert!(matches!(compare(&all, 0, q), Ok(Verdict::ContainedAsNever)));
        assert!(matches!(compare(&all, 2, q), Ok(Verdict::ContainedAsNever)));
    }
    assert!(matches!(compare(&all, 1, 0), Ok(Verdict::NotContained(_))));
    // The second query isn't chased.
    assert!(matches!(compare(&all, 1, 2), Ok(Verdict::NotContained(_))));
    assert_eq!(check(&all, 0, 0, &[Constant(0); 96]), Ok(false));
    assert_eq!(check(&all, 1, 0, &[Constant(0); 96]), Ok(false));
}

#[test]
fn mapping_of_absent_variables() {
    let all = record(&[], &[q("", &[(R, "v0 v0")]), q("", &[(R, "v0 v1")])]);
    let mut mapping = [Constant(0); 96];
    mapping[0] = Variable(0);
    mapping[1] = Variable(0);
    assert_eq!(check(&all, 0, 1, &mapping), Ok(true));
    assert_eq!(check(&all, 1, 0, &mapping), Ok(false));
    mapping[2] = Variable(0);
    assert_eq!(check(&all, 0, 1, &mapping), Ok(false));
}

// Sets of columns: R is the product of a and b, or of b and a; S is the join of a, b and a, c, or of its three pairs.
const A_B: (u8, &[u8]) = (R, &[1, 2]);
const B_A: (u8, &[u8]) = (R, &[2, 1]);
const AB_AC: (u8, &[u8]) = (S, &[3, 5]);
const AB_BC_CA: (u8, &[u8]) = (S, &[3, 6, 5]);
// In S: a and b determine c; a determines b.
const AB_TO_C: (u8, u8, u8) = (S, 3, 2);
const A_TO_B: (u8, u8, u8) = (S, 1, 1);

fn rows(all: &[(u8, &str)]) -> Vec<Row> {
    q("", all).rows
}

#[test]
fn repeated_rows_go_while_a_join_dependency_is_held() {
    let all = [(R, "v0 v1"), (R, "v1 v0"), (S, "v0 v1 v2"), (R, "v0 v1"), (S, "v0 v1 v2"), (R, "v0 1")];
    let once = [(R, "v0 v1"), (R, "v1 v0"), (S, "v0 v1 v2"), (R, "v0 1")];
    assert_eq!(joined(&[], &[AB_AC], &all), Ok(rows(&once)));
    assert_eq!(joined(&[], &[], &all), Ok(rows(&all)));
    // Rows that a functional step makes equal.
    let two = [(S, "v0 v1 v2"), (R, "v0 v1"), (S, "v0 v3 v2")];
    assert_eq!(joined(&[A_TO_B], &[A_B], &two), Ok(rows(&two[..2])));
    assert_eq!(joined(&[A_TO_B], &[], &two), Ok(rows(&[two[0], two[1], two[0]])));
}

#[test]
fn rows_are_added_in_order() {
    let two = [(R, "v0 v1"), (R, "v2 v3")];
    // At the end, by the first set's row and then by the second's; so the order of the sets counts.
    assert_eq!(joined(&[], &[A_B], &two), Ok(rows(&[two[0], two[1], (R, "v0 v3"), (R, "v2 v1")])));
    assert_eq!(joined(&[], &[B_A], &two), Ok(rows(&[two[0], two[1], (R, "v2 v1"), (R, "v0 v3")])));
    // After each row from the first join dependency on.
    let four = [(S, "v4 v5 v6"), (S, "v4 v7 v8"), two[0], two[1]];
    let (of_r, of_s) = ([(R, "v0 v3"), (R, "v2 v1")], [(S, "v4 v5 v8"), (S, "v4 v7 v6")]);
    assert_eq!(joined(&[], &[A_B, AB_AC], &four), Ok(rows(&[&four[..], &of_r, &of_s].concat())));
    assert_eq!(joined(&[], &[AB_AC, A_B], &four), Ok(rows(&[&four[..], &of_s, &of_r].concat())));
    // Functional steps come first: a row added before them would be a third.
    assert_eq!(joined(&[A_TO_B], &[AB_AC], &[(S, "v0 v1 v2"), (S, "v0 v3 v4")]), Ok(rows(&[(S, "v0 v1 v2"), (S, "v0 v1 v4")])));
}

#[test]
fn chosen_rows_agree_where_sets_overlap() {
    let apart = [(S, "v0 v1 v2"), (S, "v5 v3 v4")];
    assert_eq!(joined(&[], &[AB_AC], &apart), Ok(rows(&apart)));
    let three = [(S, "1 2 6"), (S, "5 2 3"), (S, "1 4 3")];
    assert_eq!(joined(&[], &[AB_BC_CA], &three), Ok(rows(&[&three[..], &[(S, "1 2 3")]].concat())));
    // One row of R, whatever the other relation has.
    let other = [(R, "v0 v1"), (S, "v2 v3 v4"), (S, "v2 v5 v6")];
    assert_eq!(joined(&[], &[A_B], &other), Ok(rows(&other)));
}

#[test]
fn the_limit_of_rows() {
    let six = [(R, "v0 v10"), (R, "v1 v11"), (R, "v2 v12"), (R, "v3 v13"), (R, "v3 v14"), (R, "v3 v15")];
    assert_eq!(joined(&[], &[A_B], &six).unwrap().len(), 24);
    let five = [(R, "v0 v10"), (R, "v1 v11"), (R, "v2 v12"), (R, "v3 v13"), (R, "v4 v14")];
    assert_eq!(joined(&[], &[A_B], &five), Err(17));
    // All rows count, but a repeated one has gone before.
    let with = |row| [&six[..], &[row]].concat();
    assert_eq!(joined(&[], &[A_B], &with((S, "v0 v0 v0"))), Err(17));
    assert_eq!(joined(&[], &[A_B], &with((R, "v3 v15"))).unwrap().len(), 24);
    // A clash that comes after the 25th row comes too late.
    let clash = [(S, "v0 v1 3"), (S, "v0 v2 4")];
    let both = [&five[..], &clash].concat();
    assert_eq!(joined(&[AB_TO_C], &[A_B, AB_AC], &both), Err(17));
    assert_eq!(joined(&[AB_TO_C], &[AB_AC, A_B], &both), Ok(vec![]));
    // The second query is asked about before the chase; then what it is makes no difference.
    let all = with_joins(&[], &[A_B], &[q("v0", &five), Query::never(1), Query::never(2)]);
    assert_eq!(compare(&all, 0, 1).err(), Some(17));
    assert_eq!(compare(&all, 0, 2).err(), Some(8));
    assert_eq!(compare(&all, 0, 3).err(), Some(11));
    assert_eq!(compare(&all, 0, 8).err(), Some(7));
    assert!(matches!(compare(&all, 1, 0), Ok(Verdict::ContainedAsNever)));
}

#[test]
fn both_kinds_together() {
    // The join of a, b with a, c, and a, b determining c, give that a determines c: two rows with one a have one c.
    let two = q("v2 v4", &[(S, "v0 v1 v2"), (S, "v0 v3 v4")]);
    let one = q("v0 v0", &[(S, "v1 v2 v0")]);
    let contained = |deps: &[_], joins: &[_]| compare(&with_joins(deps, joins, &[two.clone(), one.clone()]), 0, 1);
    assert!(matches!(contained(&[AB_TO_C], &[AB_AC]), Ok(Verdict::Contained(_))));
    assert!(matches!(contained(&[AB_TO_C], &[]), Ok(Verdict::NotContained(_))));
    assert!(matches!(contained(&[], &[AB_AC]), Ok(Verdict::NotContained(_))));
    // The added row became the first one.
    let after = rows(&[(S, "v0 v1 v2"), (S, "v0 v3 v2")]);
    assert_eq!(joined(&[AB_TO_C], &[AB_AC], &[(S, "v0 v1 v2"), (S, "v0 v3 v4")]), Ok(after));
    // A clash that only an added row brings.
    assert_eq!(joined(&[AB_TO_C], &[AB_AC], &[(S, "v0 v1 3"), (S, "v0 v2 4")]), Ok(vec![]));
}

#[test]
fn comparison_by_a_join_dependency() {
    let crossed = q("v0 v1 v4", &[(S, "v0 v1 v2"), (S, "v0 v3 v4")]);
    let straight = q("v0 v1 v2", &[(S, "v0 v1 v2")]);
    let all = with_joins(&[], &[AB_AC], &[crossed.clone(), straight.clone()]);
    assert!(matches!(compare(&all, 0, 1), Ok(Verdict::Contained(_))));
    assert!(matches!(compare(&all, 1, 0), Ok(Verdict::Contained(_))));
    assert!(matches!(compare(&record(&[], &[crossed, straight]), 0, 1), Ok(Verdict::NotContained(_))));
    // Reduction and determined columns read functional dependencies only.
    let (_, reduced) = reduce(&all, 0, 2).unwrap();
    assert_eq!((reduced.result, reduced.count), (all.places[0].clone().unwrap(), 0));
    assert_eq!(determined(&with_joins(&[AB_TO_C], &[AB_AC], &[]), S, 1), Ok((1, 1)));
}

#[test]
fn join_dependencies_of_a_record() {
    let join = |relation, sets: &[u8]| JoinDependency { relation, sets: sets.to_vec() };
    let mut held = record(&[], &[]);
    assert_eq!(Record::default().add_join(&join(9, &[])), Err(14));
    for bad in [join(2, &[1, 2]), join(S, &[7]), join(S, &[]), join(S, &[7; 5]), join(S, &[3, 2]), join(S, &[7, 0]), join(R, &[3, 4]), join(R, &[3, 7])] {
        assert_eq!(held.add_join(&bad), Err(15));
    }
    for good in [join(S, &[1, 2, 4, 7]), join(S, &[7, 7]), join(S, &[7, 7]), join(R, &[1, 2])] {
        held = held.add_join(&good).unwrap();
        assert_eq!(held.joins.last(), Some(&good));
    }
    assert_eq!(held.add_join(&join(R, &[1, 1])), Err(15));
    assert_eq!(held.add_join(&join(R, &[1, 2])), Err(16));
    assert_eq!(read(&bytes(&held)), Ok(held.clone()));
    held.joins.push(join(R, &[1, 2]));
    assert_eq!(held.put(0, &Query::never(0)), Err(14));
}

#[test]
fn join_dependencies_in_a_file() {
    // Columns of the relation: 2.
    let file = |part: &[u8], query: &[u8]| crate::file::join(&[vec![1, 2], part.to_vec(), query.to_vec()]);
    let fault = |part: &[u8]| read(&file(part, &[0, 0])).err();
    assert_eq!(fault(&[0]), None);
    assert_eq!(fault(&[0, 1, 0, 2, 1, 2]), None);
    assert_eq!(fault(&[1, 0, 1, 1, 2, 0, 2, 3, 1, 0, 4, 1, 2, 1, 2]), None);
    // Bytes past the functional ones that are no join dependencies: count, length, relation, sets.
    let tails: [&[u8]; 12] = [
        &[0], &[1], &[5, 0, 2, 1, 2, 0, 2, 1, 2, 0, 2, 1, 2, 0, 2, 1, 2, 0, 2, 1, 2], &[1, 0, 2, 1], &[1, 0, 2, 1, 2, 0], &[2, 0, 2, 1, 2], &[1, 1, 2, 1, 2],
        &[1, 0, 1, 3], &[1, 0, 5, 3, 3, 3, 3, 3], &[1, 0, 2, 1, 1], &[1, 0, 2, 3, 0], &[1, 0, 2, 3, 4],
    ];
    for tail in tails {
        assert_eq!(fault(&[&[0], tail].concat()), Some(15));
        assert_eq!(fault(&[&[1, 0, 1, 1], tail].concat()), Some(15));
        assert_eq!(fault(&[&[1, 0, 0, 0], tail].concat()), Some(15));
        // A functional one that is wrong decides first; a query later.
        assert_eq!(fault(&[&[1, 1, 0, 0], tail].concat()), Some(4));
        assert_eq!(fault(&[&[1, 0, 1, 2], tail].concat()), Some(4));
        assert_eq!(fault(&[&[33], tail].concat()), Some(4));
        assert_eq!(read(&file(&[&[0], tail].concat(), &[9])).err(), Some(15));
    }
    assert_eq!(fault(&[]), Some(4));
    assert_eq!(fault(&[1, 0, 1]), Some(4));
    assert_eq!(list(&file(&[0, 0], &[0, 0])), "refused 15\n");
    assert_eq!(list(&file(&[0, 1, 0, 2, 1, 2], &[3, 0])), "place 0 rows 0 never replaced 0\n");
}

#[test]
fn testing_join_dependencies() {
    let none = with_joins(&[AB_TO_C], &[A_B, AB_AC], &[]);
    assert_eq!(test(&none, &[]), Ok(Tested::Obeys));
    assert_eq!(test(&none, &[0, 1, 2, 0, 3, 2, 1, 1, 2, 3]), Ok(Tested::Obeys));
    // Positions count all rows; the first row is one of S.
    assert_eq!(test(&none, &[1, 7, 7, 7, 0, 1, 2, 0, 1, 2, 0, 3, 4]), Ok(Tested::BreaksJoin(0, vec![1, 3])));
    assert_eq!(test(&none, &[0, 1, 2, 0, 3, 4, 0, 1, 4]), Ok(Tested::BreaksJoin(0, vec![1, 0])));
    assert_eq!(test(&none, &[0, 1, 2, 0, 3, 4, 0, 1, 4, 0, 3, 2]), Ok(Tested::Obeys));
    assert_eq!(test(&none, &[1, 1, 2, 3, 0, 1, 1, 1, 1, 4, 5]), Ok(Tested::BreaksJoin(1, vec![0, 2])));
    // A functional one that is broken comes first.
    assert_eq!(test(&none, &[0, 1, 2, 0, 3, 4, 1, 1, 1, 1, 1, 1, 1, 2]), Ok(Tested::Breaks(0, 2, 3)));
    let three = with_joins(&[], &[AB_BC_CA], &[]);
    assert_eq!(test(&three, &[1, 1, 2, 6, 1, 5, 2, 3, 1, 1, 4, 3]), Ok(Tested::BreaksJoin(0, vec![0, 1, 2])));
    let four = with_joins(&[], &[(S, &[1, 2, 4, 4])], &[]);
    assert_eq!(test(&four, &[1, 1, 1, 1, 1, 1, 1, 2, 1, 1, 2, 1]), Ok(Tested::BreaksJoin(0, vec![0, 2, 1, 1])));
    assert_eq!(test(&four, &[1, 1, 1]), Err(9));
}

// Dependencies with an empty left set: a or b never varies in R, a in S. Of the first all numbers are 0.
const R_A: (u8, u8, u8) = (R, 0, 0);
const R_B: (u8, u8, u8) = (R, 0, 1);
const S_A: (u8, u8, u8) = (S, 0, 0);
const B_TO_C: (u8, u8, u8) = (S, 2, 2);

#[test]
fn rows_that_an_empty_left_set_makes_one() {
    let apart = q("v0 v1 v2", &[(R, "v0 v1"), (R, "v0 v2")]);
    let one = reduced(&[R_B], apart.clone());
    assert_eq!((one.result, one.count), (q("v0 v1 v1", &[(R, "v0 v1")]), 1));
    for other in [R_A, S_A] {
        assert_eq!(reduced(&[other], apart.clone()).result, apart);
    }
    // Nothing has to be equal before.
    let apart = q("v0 v1 v2 v3", &[(R, "v0 v1"), (R, "v2 v3")]);
    let one = reduced(&[R_B, R_A], apart.clone());
    assert_eq!((one.result, one.count), (q("v0 v1 v0 v1", &[(R, "v0 v1")]), 2));
    let two = reduced(&[R_B], apart);
    assert_eq!((two.result, two.count), (q("v0 v1 v2 v1", &[(R, "v0 v1"), (R, "v2 v1")]), 1));
    // A constant, and then what it determines: the later dependency comes first.
    let all = reduced(&[A_TO_B, B_TO_C, S_A], q("v1 v2 v4 v5", &[(S, "v0 v1 v2"), (S, "7 v4 v5"), (S, "v6 v4 v8")]));
    assert_eq!((all.result, all.count), (q("v1 v2 v1 v2", &[(S, "7 v1 v2")]), 5));
}

#[test]
fn two_constants_in_a_column_that_never_varies_clash() {
    let query = q("v0", &[(R, "v0 3"), (R, "v1 4"), (R, "v0 3")]);
    let never = reduced(&[R_B], query.clone());
    assert_eq!((never.result, never.count), (Query::never(1), 0));
    assert_eq!(reduced(&[R_A], query.clone()).count, 1);
    assert!(matches!(compare(&record(&[R_B], &[query, Query::never(1)]), 0, 1), Ok(Verdict::ContainedAsNever)));
    // In another relation, or once alone, they stay.
    let query = q("v0", &[(S, "v0 3 3"), (S, "v0 4 4"), (R, "v1 4")]);
    assert_eq!(reduced(&[R_B], query.clone()).count, 0);
    assert_eq!(reduced(&[(S, 0, 1)], query).result, Query::never(1));
}

#[test]
fn comparison_by_an_empty_left_set() {
    let two = q("v0 v1", &[(R, "v2 v0"), (R, "v3 v1")]);
    let one = q("v0 v0", &[(R, "v1 v0")]);
    let contained = |deps: &[_]| compare(&record(deps, &[two.clone(), one.clone()]), 0, 1);
    assert!(matches!(contained(&[R_B]), Ok(Verdict::Contained(_))));
    for deps in [&[][..], &[R_A], &[(R, 1, 1)], &[S_A, (S, 0, 1)]] {
        assert!(matches!(contained(deps), Ok(Verdict::NotContained(_))));
    }
    // What is shown obeys the dependency that takes part.
    match compare(&record(&[R_A], &[two.clone(), one.clone()]), 0, 1) {
        Ok(Verdict::NotContained(shown)) => assert_eq!(shown, q("v0 v1", &[(R, "v2 v0"), (R, "v2 v1")])),
        _ => panic!(),
    }
    // Fewer rows are added where a column never varies.
    assert_eq!(joined(&[R_B], &[A_B], &[(R, "v0 v1"), (R, "v2 v3")]), Ok(rows(&[(R, "v0 v1"), (R, "v2 v1")])));
}

#[test]
fn determined_columns_of_the_empty_set() {
    assert_eq!(determined(&record(&[A_TO_B, B_TO_C], &[]), S, 0), Ok((0, 0)));
    let chain = record(&[A_TO_B, S_A], &[]);
    assert_eq!(determined(&chain, S, 0), Ok((3, 2)));
    assert_eq!(determined(&chain, S, 4), Ok((7, 3)));
    assert_eq!(determined(&chain, R, 0), Ok((0, 0)));
    assert_eq!(determined(&record(&[R_A], &[]), R, 0), Ok((1, 1)));
    assert_eq!(determined(&record(&[R_A], &[]), R, 2), Ok((3, 2)));
    assert_eq!(determined(&record(&[], &[]), 8, 0), Err(4));
    // Join dependencies are not read.
    assert_eq!(determined(&with_joins(&[AB_TO_C, S_A], &[AB_AC], &[]), S, 0), Ok((1, 1)));
    assert_eq!(determined(&Record::default(), 0, 0), Err(14));
}

#[test]
fn testing_an_empty_left_set() {
    let one = record(&[R_B], &[]);
    for obeys in [&[][..], &[0, 1, 2], &[0, 1, 2, 0, 3, 2, 1, 1, 4, 5, 0, 1, 2], &[1, 1, 2, 3, 1, 1, 4, 5]] {
        assert_eq!(test(&one, obeys), Ok(Tested::Obeys));
    }
    // The first row of the relation, and the first after it with another value; all rows count.
    assert_eq!(test(&one, &[1, 7, 7, 7, 0, 1, 2, 0, 3, 2, 0, 4, 5, 0, 4, 2, 0, 4, 6]), Ok(Tested::Breaks(0, 1, 3)));
    assert_eq!(test(&one, &[0, 1, 2, 0, 1, 2, 0, 1, 0]), Ok(Tested::Breaks(0, 0, 2)));
    // By the dependencies before the rows, and before the join dependencies.
    let three = with_joins(&[S_A, (R, 1, 1), R_B], &[A_B], &[]);
    assert_eq!(test(&three, &[0, 1, 2, 0, 3, 4, 0, 3, 5]), Ok(Tested::Breaks(1, 1, 2)));
    assert_eq!(test(&three, &[0, 1, 2, 0, 3, 4]), Ok(Tested::Breaks(2, 0, 1)));
    assert_eq!(test(&three, &[0, 1, 2, 0, 3, 4, 1, 1, 1, 1, 1, 2, 1, 1]), Ok(Tested::Breaks(0, 2, 3)));
    assert_eq!(test(&one, &[0, 1, 2, 0, 3]), Err(9));
}

#[test]
fn a_dependency_of_zeros_is_in_use() {
    let held = |deps: &[_]| record(deps, &[q("v0 v1", &[(R, "v0 2"), (R, "v1 2")])]);
    for deps in [&[R_A][..], &[R_A, R_A], &[R_A, R_B], &[R_B, R_A], &[A_TO_B, R_A, AB_TO_C], &[R_A; 32]] {
        let record = held(deps);
        let file = bytes(&record);
        let part = [&[deps.len() as u8][..], &deps.iter().flat_map(|d| [d.0, d.1, d.2]).collect::<Vec<u8>>()].concat();
        assert_eq!(crate::file::parts(&file).unwrap()[1], part);
        assert_eq!(read(&file), Ok(record.clone()));
        assert_eq!(list(&file), "place 0 rows 2 kept 1 replaced 1\nhead v0 v0\nrow 0 v0 2\nmap v0=v0 v1=v0\n");
        let due = if deps.len() == 32 { Some(13) } else { None };
        assert_eq!(record.add(Dependency { relation: R, left: 0, right: 0 }).err(), due);
        assert_eq!(record.add(Dependency { relation: R, left: 0, right: 2 }), Err(4));
        assert_eq!(record.add(Dependency { relation: 2, left: 0, right: 0 }), Err(4));
    }
    assert_eq!(Record::default().add(Dependency { relation: 0, left: 0, right: 0 }), Err(14));
    // Only the count says how many there are.
    let fault = |part: &[u8]| read(&crate::file::join(&[vec![1, 2], part.to_vec()])).err();
    assert_eq!(fault(&[1, 0, 0, 0]), None);
    assert_eq!(fault(&[2, 0, 0, 0, 0, 0, 0]), None);
    assert_eq!(fault(&[&[32][..], &[0; 96]].concat()), None);
    assert_eq!(fault(&[1, 0, 0, 0, 1, 0, 2, 1, 2]), None);
    for part in [&[1, 0, 0][..], &[2, 0, 0, 0], &[1, 1, 0, 0], &[1, 0, 0, 2], &[1, 8, 0, 0], &[2, 0, 0, 0, 0, 4, 0], &[&[33][..], &[0; 99]].concat()] {
        assert_eq!(fault(part), Some(4));
    }
    assert_eq!(fault(&[0, 0, 0, 0]), Some(15));
    assert_eq!(fault(&[1, 0, 0, 0, 0, 0, 0]), Some(15));
}

#[test]
fn sets_of_join_dependencies_are_not_empty() {
    let held = record(&[R_A, S_A], &[]);
    for (relation, sets) in [(R, vec![3, 0]), (R, vec![0, 3]), (S, vec![3, 5, 0]), (S, vec![0, 0]), (S, vec![0, 7, 7, 7])] {
        assert_eq!(held.add_join(&JoinDependency { relation, sets: sets.clone() }), Err(15));
        let mut broken = held.clone();
        broken.joins.push(JoinDependency { relation, sets });
        assert_eq!(read(&bytes(&broken)), Err(15));
        assert_eq!(determined(&broken, R, 0), Err(14));
    }
}

const fn pair(old: u32, current: u32) -> CodePair {
    CodePair { old, current }
}

/// The record with these pairs of codes more.
fn coded(pairs: &[(u32, u32)], record: Record) -> Record {
    pairs.iter().fold(record, |record, &(old, current)| record.add_code(pair(old, current)).unwrap())
}

const MOST: u32 = 2_147_483_647;

#[test]
fn pairs_of_codes_of_a_record() {
    // The same current code twice is fine, and so are 0 and the largest code.
    let held = coded(&[(0, 5), (7, 5), (9, MOST)], record(&[A_TO_B], &[q("v0", &[(R, "v0 0")])]));
    assert_eq!(held.codes, [pair(0, 5), pair(7, 5), pair(9, MOST)]);
    // Equal codes; codes that are too large; an old code that is old or current already; a current code that is old.
    let equal_or_large = [pair(3, 3), pair(5, 5), pair(MOST + 1, 1), pair(1, MOST + 1), pair(u32::MAX, 1), pair(1, u32::MAX), pair(MOST + 1, MOST + 2)];
    let held_already = [pair(0, 6), pair(0, 5), pair(7, 5), pair(5, 6), pair(MOST, 6), pair(5, MOST), pair(6, 0), pair(6, 7), pair(5, 0), pair(7, 0)];
    for bad in equal_or_large.into_iter().chain(held_already) {
        assert_eq!(held.add_code(bad), Err(18), "{bad:?}");
        // The same for 14, wherever the pair stands.
        for at in 0..=held.codes.len() {
            let mut broken = held.clone();
            broken.codes.insert(at, bad);
            assert_eq!(broken.add_code(pair(20, 21)), Err(14));
            assert_eq!(broken.add_code(bad), Err(14));
            assert_eq!(determined(&broken, R, 1), Err(14));
            assert_eq!(read(&bytes(&broken)), Err(18));
        }
    }
    for good in [pair(6, 5), pair(1, 2), pair(8, MOST), pair(MOST - 1, 1)] {
        let after = held.add_code(good).unwrap();
        assert_eq!(after, Record { codes: [&held.codes[..], &[good]].concat(), ..held.clone() });
        assert_eq!(read(&bytes(&after)), Ok(after));
    }
    assert_eq!(Record::default().add_code(pair(1, 1)), Err(14));
    // 16 are held.
    let sixteen: Vec<(u32, u32)> = (0..16).map(|k| (k, 100)).collect();
    let mut full = coded(&sixteen, Record { codes: vec![], ..held.clone() });
    assert_eq!(full.add_code(pair(16, 100)), Err(19));
    for bad in [pair(16, 16), pair(3, 100), pair(100, 16), pair(16, 3), pair(16, MOST + 1)] {
        assert_eq!(full.add_code(bad), Err(18));
    }
    full.codes.push(pair(16, 100));
    assert_eq!(full.add_code(pair(17, 17)), Err(14));
    assert_eq!(full.put(8, &Query::never(9)), Err(14));
    assert_eq!(read(&bytes(&full)), Err(18));
}

#[test]
fn pairs_of_codes_in_a_file() {
    let held = coded(&[(0x01020304, 0), (7, 0x7FFFFFFF)], Record::open(&[2, 3]).unwrap());
    let part = [2, 2, 3, 2, 4, 3, 2, 1, 0, 0, 0, 0, 7, 0, 0, 0, 255, 255, 255, 127];
    assert_eq!(crate::file::parts(&bytes(&held)).unwrap()[0], part);
    assert_eq!(read(&bytes(&held)), Ok(held.clone()));
    assert_eq!(bytes(&Record::open(&[2, 3]).unwrap())[10..13], [2, 2, 3]);

    let tail = |count: u8, pairs: &[(u32, u32)]| {
        let words = pairs.iter().flat_map(|p| [p.0, p.1]);
        [&[count][..], &words.flat_map(|x| x.to_le_bytes()).collect::<Vec<u8>>()].concat()
    };
    let fault = |widths: &[u8], tail: &[u8], part_1: &[u8], query: &[u8]| {
        read(&crate::file::join(&[[widths, tail].concat(), part_1.to_vec(), query.to_vec()])).err()
    };
    let many: Vec<(u32, u32)> = (0..17).map(|k| (k, 20)).collect();
    for good in [vec![], tail(1, &[(0, 1)]), tail(1, &[(MOST, 0)]), tail(2, &[(0, 1), (2, 1)]), tail(16, &many[..16])] {
        assert_eq!(fault(&[1, 2], &good, &[0], &[0, 0]), None);
        // Relations decide before, dependencies after what is good.
        assert_eq!(fault(&[1, 9], &good, &[33], &[9]), Some(3));
        assert_eq!(fault(&[1, 2], &good, &[33], &[9]), Some(4));
    }
    let bad = [
        // A count outside 1 to 16, or another length.
        tail(0, &[]), tail(0, &[(1, 2)]), tail(17, &many), tail(255, &many), tail(1, &[]), tail(1, &[(1, 2), (3, 4)]), tail(2, &[(1, 2)]),
        tail(17, &many[..16]), tail(15, &many[..16]), vec![1, 1, 0, 0, 0, 2, 0, 0], vec![1, 1, 0, 0, 0, 2, 0, 0, 0, 0],
        // Pairs.
        tail(1, &[(0, 0)]), tail(1, &[(5, 5)]), tail(1, &[(MOST + 1, 0)]), tail(1, &[(0, MOST + 1)]), tail(2, &[(1, 2), (1, 3)]), tail(2, &[(1, 2), (1, 2)]),
        tail(2, &[(1, 2), (2, 3)]), tail(2, &[(2, 3), (1, 2)]), tail(2, &[(1, 2), (2, 1)]), tail(3, &[(1, 2), (3, 4), (4, 5)]),
        tail(16, &[&many[..15], &[(20, 21)]].concat()),
    ];
    for tail in bad {
        assert_eq!(fault(&[1, 2], &tail, &[0], &[0, 0]), Some(18), "{tail:?}");
        assert_eq!(fault(&[1, 2], &tail, &[33], &[0, 0]), Some(18));
        assert_eq!(fault(&[1, 2], &tail, &[], &[0, 0]), Some(18));
        assert_eq!(fault(&[1, 2], &tail, &[0, 0], &[9]), Some(18));
        assert_eq!(fault(&[1, 0], &tail, &[0], &[0, 0]), Some(3));
        assert_eq!(fault(&[1, 9], &tail, &[33], &[9]), Some(3));
        assert_eq!(fault(&[0], &tail, &[0], &[0, 0]), Some(3));
    }
    // A part that is too short for the widths.
    for part in [&[][..], &[1], &[2, 2], &[8, 1, 1, 1], &[255]] {
        assert_eq!(fault(part, &[], &[0], &[0, 0]), Some(3));
    }
    assert_eq!(list(&crate::file::join(&[vec![1, 2, 0], vec![33]])), "refused 18\n");
}

#[test]
fn stored_queries_keep_their_codes() {
    let query = q("4 v0", &[(R, "v0 4"), (R, "v0 3")]);
    let held = coded(&[(4, 3), (0, 7)], record(&[], &[]));
    let after = held.put(2, &query).unwrap();
    assert_eq!(after.places[2].as_ref(), Some(&query));
    assert_eq!(coded(&[(9, 3)], after.clone()).places, after.places);
    assert_eq!(read(&bytes(&after)).unwrap().places[2].as_ref(), Some(&query));
    // A result of reduction has current codes; its source stays.
    let (after, of) = reduce(&after, 2, 0).unwrap();
    assert_eq!(after.places[2].as_ref(), Some(&query));
    assert_eq!(after.places[0].as_ref(), Some(&of.result));
    assert_eq!((of.result, of.count), (q("3 v0", &[(R, "v0 3")]), 0));
    assert_eq!(list(&bytes(&after.drop_place(0).unwrap())), "place 2 rows 2 kept 1 replaced 0\nhead 3 v0\nrow 0 v0 3\nmap v0=v0\n");
}

#[test]
fn reduction_reads_codes_first() {
    let with = |pairs: &[_], deps: &[_], query: &Query| {
        let before = coded(pairs, record(deps, &[query.clone()]));
        let (after, of) = reduce(&before, 0, 1).unwrap();
        assert_eq!(after.drop_place(1).unwrap(), before);
        (of.result, of.count)
    };
    // What clashes may not when it is read, also through a common current code; what is different after it still does.
    let clash = q("v0", &[(R, "v0 3"), (R, "v0 4")]);
    for (pairs, stays) in [(&[(4, 3)][..], "v0 3"), (&[(3, 4)], "v0 4"), (&[(4, 0), (3, 0)], "v0 0")] {
        assert_eq!(with(pairs, &[(R, 1, 1)], &clash), (q("v0", &[(R, stays)]), 0));
    }
    for pairs in [&[][..], &[(4, 5)], &[(3, 5), (4, 6)], &[(0, 3)]] {
        assert_eq!(with(pairs, &[(R, 1, 1)], &clash), (Query::never(1), 0));
    }
    // The count is that of what is read.
    let apart = q("v0 v1", &[(R, "3 v0"), (R, "4 v1")]);
    assert_eq!(with(&[(4, 3)], &[(R, 1, 1)], &apart), (q("v0 v0", &[(R, "3 v0")]), 1));
    assert_eq!(with(&[], &[(R, 1, 1)], &apart), (apart.clone(), 0));
    // So is the order; a row goes to one that is equal as it is read.
    assert_eq!(with(&[(5, 9)], &[], &q("v0", &[(R, "5 v0"), (R, "6 v0")])), (q("v0", &[(R, "6 v0"), (R, "9 v0")]), 0));
    assert_eq!(with(&[(5, 9)], &[], &q("v0", &[(R, "v0 9"), (R, "v0 5"), (R, "v0 v1")])), (q("v0", &[(R, "v0 9")]), 0));
    // Variables are no codes, and relations are none.
    assert_eq!(with(&[(0, 1)], &[], &q("v0", &[(R, "v0 0")])), (q("v0", &[(R, "v0 1")]), 0));
    // Never has nothing to read.
    assert_eq!(with(&[(0, 1), (3, 2)], &[], &Query::never(3)), (Query::never(3), 0));
}

#[test]
fn comparison_reads_both_queries() {
    let (three, four) = (q("", &[(R, "3 v0")]), q("", &[(R, "4 v0")]));
    let contained = |pairs: &[_], p: &Query, q: &Query| match compare(&coded(pairs, record(&[], &[p.clone(), q.clone()])), 0, 1) {
        Ok(Verdict::Contained(mapping)) => Ok(mapping),
        Ok(Verdict::NotContained(shown)) => Err(shown),
        _ => panic!(),
    };
    for (p, q) in [(&three, &four), (&four, &three), (&four, &four)] {
        for pairs in [&[(4, 3)][..], &[(3, 4)], &[(4, 0), (3, 0)]] {
            assert!(contained(pairs, p, q).is_ok());
        }
    }
    assert_eq!(contained(&[(4, 5)], &three, &four), Err(three.clone()));
    assert_eq!(contained(&[(4, 5)], &four, &three), Err(q("", &[(R, "5 v0")])));
    // The head counts.
    let head = |text| q(text, &[(R, "v0 v0")]);
    assert!(contained(&[(4, 3)], &head("3"), &head("4")).is_ok());
    assert_eq!(contained(&[(4, 3)], &head("4"), &head("5")), Err(head("3")));
    // Mappings have current codes, and 0 for a variable that is not there.
    let mapping = contained(&[(4, 3), (0, 9)], &q("", &[(R, "4 0")]), &q("", &[(R, "v0 v1")])).unwrap();
    assert_eq!(mapping[..3], [Constant(3), Constant(9), Constant(0)]);
    // The first query is read before the chase; the second is read and not chased.
    let clash = q("", &[(R, "v0 3"), (R, "v0 4")]);
    let all = |pairs: &[_]| coded(pairs, record(&[(R, 1, 1)], &[clash.clone(), Query::never(0)]));
    assert!(matches!(compare(&all(&[]), 0, 1), Ok(Verdict::ContainedAsNever)));
    assert!(matches!(compare(&all(&[(4, 3)]), 0, 1), Ok(Verdict::NotContained(shown)) if shown == q("", &[(R, "v0 3"), (R, "v0 3")])));
    // With a join dependency repeated rows go, as they are read.
    let all = coded(&[(4, 3), (0, 2)], with_joins(&[], &[A_B], &[q("", &[(R, "v0 4"), (R, "v0 3"), (R, "0 4"), (R, "2 5")]), Query::never(0)]));
    let due = q("", &[(R, "v0 3"), (R, "2 3"), (R, "2 5"), (R, "v0 5")]);
    assert!(matches!(compare(&all, 0, 1), Ok(Verdict::NotContained(shown)) if shown == due));
}

#[test]
fn checking_reads_images() {
    let all = |pairs: &[_]| coded(pairs, record(&[], &[q("4", &[(R, "4 5"), (R, "v1 v1")]), q("3", &[(R, "v0 v1")])]));
    let mapping = |images: &[Entry]| std::array::from_fn(|v| images.get(v).copied().unwrap_or(Constant(0)));
    let yes = |pairs: &[_], images: &str| check(&all(pairs), 0, 1, &mapping(&es(images))).unwrap();
    for images in ["4 5", "3 5", "v1 v1", "3 5 0"] {
        assert!(yes(&[(4, 3), (0, 9)], images));
        assert!(!yes(&[(4, 6)], images));
    }
    // An image of another variable is not read: 0 is due.
    for images in ["3 5 9", "3 5 4", "9 5", "v4 v4", "5 3"] {
        assert!(!yes(&[(4, 3), (0, 9)], images));
    }
    assert!(yes(&[(4, 3), (8, 0)], "4 5 0") && !yes(&[(4, 3), (8, 0)], "4 5 8"));
    // Constants of both queries are read, and an image that is no entry of theirs.
    assert!(yes(&[(4, 0), (3, 0), (6, 5)], "0 6") && yes(&[(4, 0), (3, 0), (6, 5)], "3 5"));
    let large = mapping(&[Constant(u32::MAX), Variable(255)]);
    assert_eq!(check(&all(&[(4, 3)]), 0, 1, &large), Ok(false));
}

#[test]
fn testing_reads_the_database() {
    let all = |pairs: &[_]| coded(pairs, with_joins(&[(R, 1, 1)], &[AB_AC], &[]));
    let words = [0, 1, 3, 0, 1, 4];
    assert_eq!(test(&all(&[]), &words), Ok(Tested::Breaks(0, 0, 1)));
    assert_eq!(test(&all(&[(4, 3)]), &words), Ok(Tested::Obeys));
    // Rows agree as they are read; positions are those of the rows as they arrive.
    assert_eq!(test(&all(&[]), &[0, 3, 1, 0, 4, 1, 0, 4, 2]), Ok(Tested::Breaks(0, 1, 2)));
    assert_eq!(test(&all(&[(4, 3)]), &[0, 3, 1, 0, 4, 1, 0, 4, 2]), Ok(Tested::Breaks(0, 0, 2)));
    // A row that a join dependency asks for may be there with an old code.
    let words = [1, 1, 2, 3, 1, 5, 4, 6, 1, 1, 2, 6, 1, 5, 4, 3];
    assert_eq!(test(&all(&[]), &words), Ok(Tested::Obeys));
    assert_eq!(test(&all(&[(5, 1)]), &words), Ok(Tested::Obeys));
    assert_eq!(test(&all(&[(5, 1)]), &words[..12]), Ok(Tested::BreaksJoin(0, vec![1, 0])));
    // The number of a relation is no code.
    assert_eq!(test(&all(&[(0, 1), (2, 1)]), &[0, 0, 0, 1, 2, 2, 2]), Ok(Tested::Obeys));
    assert_eq!(test(&all(&[(2, 0)]), &[2, 1, 1]), Err(9));
    // Values beyond the constants are read as themselves.
    assert_eq!(test(&all(&[(0, 1)]), &[0, MOST + 1, 0, 0, MOST + 1, 1]), Ok(Tested::Obeys));
}

#[test]
fn evaluation_reads_query_and_database() {
    let all = coded(&[(4, 3), (1, 9), (2, 0)], record(&[], &[q("v0", &[(R, "v0 4")]), q("1 v0 5", &[(R, "v0 v1"), (R, "2 v1")]), Query::never(1)]));
    // As they are read: (9, 3), (0, 3), (5, 3), (0, 3), (9, 3).
    let words = [0, 1, 3, 0, 2, 4, 0, 5, 3, 0, 0, 3, 0, 9, 3];
    let mut buffer = [8; 4];
    assert_eq!(evaluate(&all, 0, &words, &mut buffer), Ok(3));
    assert_eq!(buffer, [0, 5, 9, 8]);
    assert_eq!(evaluate(&all, 0, &words, &mut buffer[..2]), Err(10));
    let mut buffer = [8; 10];
    assert_eq!(evaluate(&all, 1, &words, &mut buffer), Ok(3));
    assert_eq!(buffer, [9, 0, 5, 9, 5, 5, 9, 9, 5, 8]);
    assert_eq!(evaluate(&all, 2, &words, &mut buffer), Ok(0));
    // Relations are none: 2 is not read as 0.
    assert_eq!(evaluate(&all, 0, &[2, 1, 1], &mut buffer), Err(9));
}
