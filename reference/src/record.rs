//! The record of tables, pairs of codes, dependencies and saved queries, its rule, and the calls that change it.

pub const MAX_RELATIONS: usize = 8;
pub const MAX_COLUMNS: usize = 8;
pub const MAX_DEPENDENCIES: usize = 32;
pub const MAX_JOINS: usize = 4;
pub const MAX_CODES: usize = 16;
pub const PLACES: usize = 8;
pub const MAX_HEAD: usize = 8;
pub const MAX_ROWS: usize = 12;
/// Rows of a query in the chase with join dependencies.
pub const MAX_CHASED_ROWS: usize = 24;
pub const VARIABLES: usize = 96;
pub const MAX_CONSTANT: u32 = 2_147_483_647;

/// The refusals, by the numbers of SPECIFICATION, Refusals.
pub type Refusal = u8;
pub const DIRECTORY: Refusal = 1;
pub const OFFSETS: Refusal = 2;
pub const RELATIONS: Refusal = 3;
pub const DEPENDENCIES: Refusal = 4;
pub const QUERY: Refusal = 5;
pub const LOOSE_HEAD: Refusal = 6;
pub const PLACE: Refusal = 7;
pub const HEAD_LENGTHS: Refusal = 8;
pub const DATABASE: Refusal = 9;
pub const BUFFER: Refusal = 10;
pub const VACANT: Refusal = 11;
pub const FILLED: Refusal = 12;
pub const FULL: Refusal = 13;
pub const BROKEN: Refusal = 14;
pub const JOIN: Refusal = 15;
pub const FULL_OF_JOINS: Refusal = 16;
pub const OVERFLOW: Refusal = 17;
pub const CODE: Refusal = 18;
pub const FULL_OF_CODES: Refusal = 19;

/// Constants come before variables, each by number.
#[derive(Clone, Copy, PartialEq, Eq, PartialOrd, Ord, Hash, Debug)]
pub enum Entry {
    Constant(u32),
    Variable(u8),
}
use Entry::{Constant, Variable};

impl Entry {
    pub fn is_sound(self) -> bool {
        match self {
            Constant(c) => c <= MAX_CONSTANT,
            Variable(v) => (v as usize) < VARIABLES,
        }
    }
}

/// In the order of a result of reduction: by relation, then by entries from the left.
#[derive(Clone, PartialEq, Eq, PartialOrd, Ord, Hash, Debug)]
pub struct Row {
    pub relation: u8,
    pub entries: Vec<Entry>,
}

/// A query. With no rows it is the never query, which has a head length and no head entries.
#[derive(Clone, PartialEq, Eq, Debug)]
pub struct Query {
    pub head_length: u8,
    pub head: Vec<Entry>,
    pub rows: Vec<Row>,
}

impl Query {
    pub fn new(head: Vec<Entry>, rows: Vec<Row>) -> Query {
        Query { head_length: head.len() as u8, head, rows }
    }

    pub fn never(head_length: u8) -> Query {
        Query { head_length, head: vec![], rows: vec![] }
    }

    pub fn is_never(&self) -> bool {
        self.rows.is_empty()
    }

    /// The variables that occur, ascending. Of a sound query these are the variables of its rows.
    pub fn variables(&self) -> Vec<u8> {
        let mut all: Vec<u8> = self
            .head
            .iter()
            .chain(self.rows.iter().flat_map(|r| &r.entries))
            .filter_map(|e| if let Variable(v) = e { Some(*v) } else { None })
            .collect();
        all.sort();
        all.dedup();
        all
    }

    /// The refusal this query earns over these relations: 5, then 6.
    pub fn fault(&self, widths: &[u8]) -> Option<Refusal> {
        let head_due = if self.rows.is_empty() { 0 } else { self.head_length as usize };
        let row_is_sound = |row: &Row| match widths.get(row.relation as usize) {
            None => false,
            Some(&w) => row.entries.len() == w as usize && row.entries.iter().all(|e| e.is_sound()),
        };
        if self.head_length as usize > MAX_HEAD
            || self.rows.len() > MAX_ROWS
            || self.head.len() != head_due
            || !self.head.iter().all(|e| e.is_sound())
            || !self.rows.iter().all(row_is_sound)
        {
            return Some(QUERY);
        }
        let loose = |e: &Entry| match e {
            Constant(_) => false,
            Variable(_) => !self.rows.iter().any(|r| r.entries.contains(e)),
        };
        if self.head.iter().any(loose) {
            return Some(LOOSE_HEAD);
        }
        None
    }
}

/// A functional dependency. The left set may be empty: then all rows of the relation agree on the right column.
#[derive(Clone, Copy, PartialEq, Eq, Debug)]
pub struct Dependency {
    pub relation: u8,
    pub left: u8,
    pub right: u8,
}

impl Dependency {
    pub fn is_sound(&self, widths: &[u8]) -> bool {
        set_is_sound(widths, self.relation, self.left) && self.right < widths[self.relation as usize]
    }

    pub fn left_columns(&self) -> impl Iterator<Item = usize> {
        columns(self.left)
    }
}

/// A join dependency: the relation is the join of its projections to the sets, none of them empty.
#[derive(Clone, PartialEq, Eq, Debug)]
pub struct JoinDependency {
    pub relation: u8,
    pub sets: Vec<u8>,
}

impl JoinDependency {
    pub fn is_sound(&self, widths: &[u8]) -> bool {
        (2..=4).contains(&self.sets.len())
            && self.sets.iter().all(|&set| set != 0 && set_is_sound(widths, self.relation, set))
            && self.sets.iter().fold(0, |all, set| all | set).count_ones() == widths[self.relation as usize] as u32
    }
}

/// The columns of a set, ascending: bit c is column c.
pub fn columns(set: u8) -> impl Iterator<Item = usize> {
    (0..8).filter(move |c| set >> c & 1 == 1)
}

/// A held relation and a set of its columns, which may be empty.
pub fn set_is_sound(widths: &[u8], relation: u8, set: u8) -> bool {
    match widths.get(relation as usize) {
        None => false,
        Some(&w) => (set as u32) >> w == 0,
    }
}

/// A constant that was given another number: the old code is read as the current one.
#[derive(Clone, Copy, PartialEq, Eq, Debug)]
pub struct CodePair {
    pub old: u32,
    pub current: u32,
}

impl CodePair {
    /// Whether it may be held beside others: two different codes, of which the old one stands in no other pair, and the current one is old in none.
    pub fn is_sound(self, others: &[CodePair]) -> bool {
        self.old != self.current
            && self.old <= MAX_CONSTANT
            && self.current <= MAX_CONSTANT
            && others.iter().all(|p| self.old != p.old && self.old != p.current && self.current != p.old)
    }
}

/// At most 16 pairs, each of which may be held beside those before it.
pub fn codes_are_sound(codes: &[CodePair]) -> bool {
    codes.len() <= MAX_CODES && (0..codes.len()).all(|k| codes[k].is_sound(&codes[..k]))
}

pub fn widths_are_sound(widths: &[u8]) -> bool {
    (1..=MAX_RELATIONS).contains(&widths.len())
        && widths.iter().all(|&w| (1..=MAX_COLUMNS).contains(&(w as usize)))
}

#[derive(Clone, PartialEq, Eq, Debug, Default)]
pub struct Record {
    pub widths: Vec<u8>,
    pub codes: Vec<CodePair>,
    pub dependencies: Vec<Dependency>,
    pub joins: Vec<JoinDependency>,
    pub places: [Option<Query>; PLACES],
}

impl Record {
    /// The rule of "The record"; what breaks it is refused with 14.
    pub fn is_sound(&self) -> bool {
        widths_are_sound(&self.widths)
            && codes_are_sound(&self.codes)
            && self.dependencies.len() <= MAX_DEPENDENCIES
            && self.dependencies.iter().all(|d| d.is_sound(&self.widths))
            && self.joins.len() <= MAX_JOINS
            && self.joins.iter().all(|j| j.is_sound(&self.widths))
            && self.places.iter().flatten().all(|q| q.fault(&self.widths).is_none())
    }

    pub fn sound(&self) -> Result<(), Refusal> {
        if self.is_sound() { Ok(()) } else { Err(BROKEN) }
    }

    /// The queries of places to be read, with the codes that they were put in with: 14, then 7 for any of them, then 11 for any of them.
    pub fn filled<const N: usize>(&self, places: [u8; N]) -> Result<[&Query; N], Refusal> {
        self.sound()?;
        if places.iter().any(|&p| p as usize >= PLACES) {
            return Err(PLACE);
        }
        if places.iter().any(|&p| self.places[p as usize].is_none()) {
            return Err(VACANT);
        }
        Ok(places.map(|p| self.places[p as usize].as_ref().unwrap()))
    }

    pub fn open(widths: &[u8]) -> Result<Record, Refusal> {
        if !widths_are_sound(widths) {
            return Err(RELATIONS);
        }
        Ok(Record { widths: widths.to_vec(), ..Record::default() })
    }

    pub fn add_code(&self, pair: CodePair) -> Result<Record, Refusal> {
        self.sound()?;
        if !pair.is_sound(&self.codes) {
            return Err(CODE);
        }
        if self.codes.len() == MAX_CODES {
            return Err(FULL_OF_CODES);
        }
        let mut after = self.clone();
        after.codes.push(pair);
        Ok(after)
    }

    pub fn add(&self, dependency: Dependency) -> Result<Record, Refusal> {
        self.sound()?;
        if !dependency.is_sound(&self.widths) {
            return Err(DEPENDENCIES);
        }
        if self.dependencies.len() == MAX_DEPENDENCIES {
            return Err(FULL);
        }
        let mut after = self.clone();
        after.dependencies.push(dependency);
        Ok(after)
    }

    pub fn add_join(&self, join: &JoinDependency) -> Result<Record, Refusal> {
        self.sound()?;
        if !join.is_sound(&self.widths) {
            return Err(JOIN);
        }
        if self.joins.len() == MAX_JOINS {
            return Err(FULL_OF_JOINS);
        }
        let mut after = self.clone();
        after.joins.push(join.clone());
        Ok(after)
    }

    pub fn put(&self, place: u8, query: &Query) -> Result<Record, Refusal> {
        self.sound()?;
        if place as usize >= PLACES {
            return Err(PLACE);
        }
        if let Some(n) = query.fault(&self.widths) {
            return Err(n);
        }
        if self.places[place as usize].is_some() {
            return Err(FILLED);
        }
        let mut after = self.clone();
        after.places[place as usize] = Some(query.clone());
        Ok(after)
    }

    pub fn drop_place(&self, place: u8) -> Result<Record, Refusal> {
        self.filled([place])?;
        let mut after = self.clone();
        after.places[place as usize] = None;
        Ok(after)
    }
}
