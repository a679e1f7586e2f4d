//! The search for a row that a join dependency asks for, among rows of entries or of values.

use crate::record::{columns, JoinDependency};
use std::collections::HashSet;
use std::hash::Hash;

/// A choice of rows, one for each set, and the row that it yields.
pub struct Choice<T> {
    /// Positions among all rows.
    pub rows: Vec<usize>,
    pub yielded: Vec<T>,
}

struct Search<'a, T> {
    sets: &'a [u8],
    rows: &'a [(u8, &'a [T])],
    /// For each set the positions of rows that may be chosen, ascending.
    candidates: Vec<Vec<usize>>,
    present: HashSet<&'a [T]>,
}

impl<T: Copy + Eq + Hash> Search<'_, T> {
    /// The first way to go on from rows for the first sets, of which `partial` has the columns so far.
    fn go_on(&self, chosen: &[usize], partial: &[Option<T>]) -> Option<Choice<T>> {
        let k = chosen.len();
        if k == self.sets.len() {
            let yielded: Vec<T> = partial.iter().map(|x| x.expect("the sets are all columns")).collect();
            let missing = !self.present.contains(&yielded[..]);
            return missing.then(|| Choice { rows: chosen.to_vec(), yielded });
        }
        self.candidates[k].iter().find_map(|&i| {
            let mut next = partial.to_vec();
            let agrees = columns(self.sets[k]).all(|c| *next[c].get_or_insert(self.rows[i].1[c]) == self.rows[i].1[c]);
            if agrees { self.go_on(&[chosen, &[i]].concat(), &next) } else { None }
        })
    }
}

/// The first choice of rows of the relation, ordered by the first set's row and then the next's, that agree where sets overlap
/// and yield a row that is not present. Rows are a relation and what stands in its columns.
pub fn first_choice<T: Copy + Eq + Hash>(join: &JoinDependency, rows: &[(u8, &[T])]) -> Option<Choice<T>> {
    let positions: Vec<usize> = (0..rows.len()).filter(|&i| rows[i].0 == join.relation).collect();
    let width = rows[*positions.first()?].1.len();
    // A row that is like an earlier one in the columns of a set stands in no first choice there: the earlier one does as well.
    let first_alike = |&set: &u8| -> Vec<usize> {
        let mut seen: HashSet<Vec<T>> = HashSet::new();
        positions.iter().copied().filter(|&i| seen.insert(columns(set).map(|c| rows[i].1[c]).collect())).collect()
    };
    let search = Search {
        sets: &join.sets,
        rows,
        candidates: join.sets.iter().map(first_alike).collect(),
        present: positions.iter().map(|&i| rows[i].1).collect(),
    };
    search.go_on(&[], &vec![None; width])
}
