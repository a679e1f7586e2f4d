//! Mappings between queries: checking a given one, and finding one.
//!
//! The search sees each row of S as a choice among rows of T. Two choices are consistent when
//! they give every shared variable the same image. Choices are made for the row with the fewest
//! candidates, and candidates without a consistent partner in some other row are struck out
//! after each choice, until nothing more can be struck out.

use crate::record::*;
use crate::record::Entry::{Constant, Variable};

/// The image of each variable; constant 0 for variables that don't occur.
pub type Mapping = [Entry; VARIABLES];

pub fn identity() -> Mapping {
    std::array::from_fn(|v| Variable(v as u8))
}

pub fn image(mapping: &Mapping, entry: Entry) -> Entry {
    match entry {
        Constant(_) => entry,
        Variable(v) => mapping[v as usize],
    }
}

/// Whether it is a mapping from S to T.
pub fn is_mapping(s: &Query, t: &Query, mapping: &Mapping) -> bool {
    if s.is_never() || t.is_never() || s.head.len() != t.head.len() {
        return false;
    }
    let carry = |entries: &[Entry]| -> Vec<Entry> { entries.iter().map(|&e| image(mapping, e)).collect() };
    let occurring = s.variables();
    carry(&s.head) == t.head
        && s.rows.iter().all(|r| t.rows.contains(&Row { relation: r.relation, entries: carry(&r.entries) }))
        && (0..VARIABLES).all(|v| occurring.contains(&(v as u8)) || mapping[v] == Constant(0))
}

type Images = [Option<Entry>; VARIABLES];

/// Extends images so that entry x goes to y; false when it can't.
fn bind(images: &mut Images, x: Entry, y: Entry) -> bool {
    match x {
        Constant(_) => x == y,
        Variable(v) => match images[v as usize] {
            Some(z) => z == y,
            None => {
                images[v as usize] = Some(y);
                true
            }
        },
    }
}

fn bind_row(images: &mut Images, s: &Row, t: &Row) -> bool {
    s.relation == t.relation && s.entries.iter().zip(&t.entries).all(|(&x, &y)| bind(images, x, y))
}

struct Search {
    /// consistent[i][a][j]: the candidates of row j that are consistent with row i going to a.
    consistent: Vec<Vec<Vec<u64>>>,
}

impl Search {
    /// Strikes out candidates without support; false when a row has none left.
    fn narrow(&self, candidates: &mut [u64]) -> bool {
        loop {
            let mut changed = false;
            for i in 0..candidates.len() {
                for a in bits(candidates[i]) {
                    let supported = (0..candidates.len()).all(|j| self.consistent[i][a][j] & candidates[j] != 0);
                    if !supported {
                        candidates[i] &= !(1 << a);
                        changed = true;
                    }
                }
                if candidates[i] == 0 {
                    return false;
                }
            }
            if !changed {
                return true;
            }
        }
    }

    /// One candidate for each row, all consistent.
    fn solve(&self, mut candidates: Vec<u64>) -> Option<Vec<u64>> {
        if !self.narrow(&mut candidates) {
            return None;
        }
        let open = (0..candidates.len()).filter(|&i| candidates[i].count_ones() > 1);
        let Some(i) = open.min_by_key(|&i| candidates[i].count_ones()) else { return Some(candidates) };
        bits(candidates[i]).find_map(|a| {
            let mut chosen = candidates.clone();
            chosen[i] = 1 << a;
            self.solve(chosen)
        })
    }
}

fn bits(set: u64) -> impl Iterator<Item = usize> {
    (0..64 - set.leading_zeros() as usize).filter(move |b| set >> b & 1 == 1)
}

/// A mapping from S to T if there is one.
pub fn find(s: &Query, t: &Query) -> Option<Mapping> {
    if s.is_never() || t.is_never() || s.head.len() != t.head.len() {
        return None;
    }
    assert!(t.rows.len() <= 64);
    let mut fixed: Images = [None; VARIABLES];
    if !s.head.iter().zip(&t.head).all(|(&x, &y)| bind(&mut fixed, x, y)) {
        return None;
    }
    let n = s.rows.len();
    let mut candidates = vec![0u64; n];
    // ways[i][a]: the images when row i goes to a, if it can.
    let mut ways: Vec<Vec<Option<Images>>> = vec![];
    for (i, row) in s.rows.iter().enumerate() {
        let way = |to: &Row| {
            let mut images = fixed;
            bind_row(&mut images, row, to).then_some(images)
        };
        ways.push(t.rows.iter().map(way).collect());
        candidates[i] = (0..t.rows.len()).filter(|&a| ways[i][a].is_some()).map(|a| 1 << a).sum();
    }
    let mut consistent = vec![vec![vec![0u64; n]; t.rows.len()]; n];
    for i in 0..n {
        for a in bits(candidates[i]) {
            let images = ways[i][a].as_ref().expect("a candidate");
            let fits = |x: Entry, y: Entry| match x {
                Constant(_) => true,
                Variable(v) => images[v as usize].map_or(true, |z| z == y),
            };
            for j in 0..n {
                for b in bits(candidates[j]) {
                    if s.rows[j].entries.iter().zip(&t.rows[b].entries).all(|(&x, &y)| fits(x, y)) {
                        consistent[i][a][j] |= 1 << b;
                    }
                }
            }
        }
    }
    let chosen = Search { consistent }.solve(candidates)?;
    let mut images = fixed;
    for i in 0..n {
        let a = chosen[i].trailing_zeros() as usize;
        assert!(bind_row(&mut images, &s.rows[i], &t.rows[a]));
    }
    let mapping = images.map(|e| e.unwrap_or(Constant(0)));
    assert!(is_mapping(s, t, &mapping));
    Some(mapping)
}
