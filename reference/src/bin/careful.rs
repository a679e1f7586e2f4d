//! `careful list < FILE`: the listing of FILE, written for speed, to count the engine's instructions beside. Entries are numbers, sets of rows are bits, and
//! the search asks for no memory. Reading and the chase are the library's; reducing and printing are its own, and so are the mappings that it prints.

use spernevan_reference::chase::chase;
use spernevan_reference::codes::read_query;
use spernevan_reference::file::read;
use spernevan_reference::listing::INPUT_LIMIT;
use spernevan_reference::record::Entry::{self, Constant, Variable};
use spernevan_reference::record::{Query, MAX_COLUMNS, MAX_RELATIONS, MAX_ROWS, VARIABLES};
use std::io::{Read, Write};

/// A variable is its number; constants are numbered from VARIABLES on, as they are met.
const ENTRIES: usize = VARIABLES + MAX_ROWS * MAX_COLUMNS;
/// For each row the rows that it may go to.
type Choices = [u16; MAX_ROWS];

struct Rows {
    count: usize,
    entries: [[u8; MAX_COLUMNS]; MAX_ROWS],
    width: [usize; MAX_ROWS],
    /// The rows that have an entry in a column.
    at: [[u16; ENTRIES]; MAX_COLUMNS],
    /// The columns in which a row has a variable that is in another row too and not in the head.
    shared: [u8; MAX_ROWS],
    /// The rows that each row alone could go to.
    alone: Choices,
    /// The rows that have not gone.
    left: u16,
}

/// The rows of a set, ascending.
struct Bits(u16);

impl Iterator for Bits {
    type Item = usize;

    fn next(&mut self) -> Option<usize> {
        if self.0 == 0 {
            return None;
        }
        let lowest = self.0.trailing_zeros() as usize;
        self.0 &= self.0 - 1;
        Some(lowest)
    }
}

impl Rows {
    fn new(query: &Query, constants: &mut Vec<u32>) -> Rows {
        let count = query.rows.len();
        let mut rows = Rows {
            count,
            entries: [[0; MAX_COLUMNS]; MAX_ROWS],
            width: [0; MAX_ROWS],
            at: [[0; ENTRIES]; MAX_COLUMNS],
            shared: [0; MAX_ROWS],
            alone: [0; MAX_ROWS],
            left: ((1u32 << count) - 1) as u16,
        };
        let (mut of_relation, mut of_entry, mut fixed) = ([0; MAX_RELATIONS], [0u16; ENTRIES], [false; ENTRIES]);
        for (i, row) in query.rows.iter().enumerate() {
            rows.width[i] = row.entries.len();
            of_relation[row.relation as usize] |= 1 << i;
            for (c, &entry) in row.entries.iter().enumerate() {
                let e = number(entry, constants);
                rows.entries[i][c] = e;
                rows.at[c][e as usize] |= 1 << i;
                of_entry[e as usize] |= 1 << i;
            }
        }
        // Constants and variables of the head go to themselves.
        fixed[VARIABLES..].fill(true);
        for &entry in &query.head {
            if let Variable(v) = entry {
                fixed[v as usize] = true;
            }
        }
        for (i, row) in query.rows.iter().enumerate() {
            let mut alone = of_relation[row.relation as usize];
            for c in 0..row.entries.len() {
                let e = rows.entries[i][c] as usize;
                if fixed[e] {
                    alone &= rows.at[c][e];
                    continue;
                }
                rows.shared[i] |= ((of_entry[e] != 1 << i) as u8) << c;
                for d in c + 1..row.entries.len() {
                    if rows.entries[i][d] as usize == e {
                        alone = Bits(alone).filter(|&a| rows.entries[a][c] == rows.entries[a][d]).map(|a| 1 << a).sum();
                    }
                }
            }
            rows.alone[i] = alone;
        }
        rows
    }

    /// Strikes out choices that agree with none of a changed row, until nothing changes; false when a row has none left.
    fn narrow(&self, choices: &mut Choices, mut changed: u16) -> bool {
        while changed != 0 {
            let i = changed.trailing_zeros() as usize;
            changed &= changed - 1;
            for c in Bits(self.shared[i] as u16) {
                let x = self.entries[i][c] as usize;
                for at in &self.at {
                    let others = at[x] & self.left & !(1 << i);
                    if others == 0 {
                        continue;
                    }
                    let support = Bits(choices[i]).fold(0, |all, a| all | at[self.entries[a][c] as usize]);
                    for j in Bits(others) {
                        let fewer = choices[j] & support;
                        if fewer == 0 {
                            return false;
                        }
                        if fewer != choices[j] {
                            choices[j] = fewer;
                            changed |= 1 << j;
                        }
                    }
                }
            }
        }
        true
    }

    /// Sends row i to one of its choices, and then each row that can't stay where it is. Of the choices returned a row has one, or itself among them.
    fn search(&self, choices: &Choices, i: usize) -> Option<Choices> {
        Bits(choices[i]).find_map(|a| {
            let mut next = *choices;
            next[i] = 1 << a;
            if !self.narrow(&mut next, 1 << i) {
                return None;
            }
            let open = Bits(self.left).filter(|&j| next[j] & (1 << j) == 0 && next[j].count_ones() > 1);
            match open.min_by_key(|&j| next[j].count_ones()) {
                Some(j) => self.search(&next, j),
                None => Some(next),
            }
        })
    }

    /// Tries each row once, the last first. Images go on to where each mapping found takes them.
    fn reduce(&mut self, images: &mut [u8]) {
        for k in (0..self.count).rev() {
            let targets = self.left & !(1 << k);
            let choices = self.alone.map(|all| all & targets);
            if Bits(choices[k]).any(|a| self.entries[a] == self.entries[k]) {
                self.left = targets;
                continue;
            }
            let Some(found) = self.search(&choices, k) else { continue };
            let mut to: [u8; ENTRIES] = std::array::from_fn(|e| e as u8);
            for i in Bits(self.left).filter(|&i| found[i] & (1 << i) == 0) {
                let a = found[i].trailing_zeros() as usize;
                for c in 0..self.width[i] {
                    to[self.entries[i][c] as usize] = self.entries[a][c];
                }
            }
            images.iter_mut().for_each(|image| *image = to[*image as usize]);
            self.left = targets;
        }
    }
}

fn number(entry: Entry, constants: &mut Vec<u32>) -> u8 {
    let n = match entry {
        Variable(v) => v as usize,
        Constant(c) => match constants.iter().position(|&x| x == c) {
            Some(k) => VARIABLES + k,
            None => {
                constants.push(c);
                VARIABLES + constants.len() - 1
            }
        },
    };
    n as u8
}

fn put_number(out: &mut Vec<u8>, mut n: usize) {
    let (mut digits, mut at) = ([0; 20], 20);
    loop {
        at -= 1;
        digits[at] = b'0' + (n % 10) as u8;
        n /= 10;
        if n == 0 {
            return out.extend_from_slice(&digits[at..]);
        }
    }
}

fn put(out: &mut Vec<u8>, text: &str, n: usize) {
    out.extend_from_slice(text.as_bytes());
    put_number(out, n);
}

fn put_entry(out: &mut Vec<u8>, entry: Entry) {
    match entry {
        Constant(c) => put_number(out, c as usize),
        Variable(v) => put(out, "v", v as usize),
    }
}

fn put_entries(out: &mut Vec<u8>, entries: &[Entry]) {
    for &entry in entries {
        out.push(b' ');
        put_entry(out, entry);
    }
    out.push(b'\n');
}

fn list(file: &[u8]) -> Vec<u8> {
    let mut out = Vec::with_capacity(4096);
    let record = match read(file) {
        Ok(record) => record,
        Err(n) => {
            put(&mut out, "refused ", n as usize);
            out.push(b'\n');
            return out;
        }
    };
    for (p, source) in record.places.iter().enumerate() {
        let Some(source) = source.as_ref().map(|q| read_query(&record.codes, q)) else { continue };
        put(&mut out, "place ", p);
        put(&mut out, " rows ", source.rows.len());
        let chased = chase(&record.dependencies, &source);
        if chased.query.is_never() {
            put(&mut out, " never replaced ", chased.count);
            out.push(b'\n');
            continue;
        }
        let mut constants = Vec::with_capacity(ENTRIES - VARIABLES);
        let mut rows = Rows::new(&chased.query, &mut constants);
        // The variables of the source, ascending, and what became of them.
        let mut occurs = [false; VARIABLES];
        for entry in source.rows.iter().flat_map(|row| &row.entries) {
            if let Variable(v) = entry {
                occurs[*v as usize] = true;
            }
        }
        let (mut variables, mut images, mut count) = ([0; VARIABLES], [0; VARIABLES], 0);
        for v in (0..VARIABLES).filter(|&v| occurs[v]) {
            variables[count] = v;
            images[count] = number(chased.became[v], &mut constants);
            count += 1;
        }
        rows.reduce(&mut images[..count]);
        let kept = &mut [0; MAX_ROWS][..rows.left.count_ones() as usize];
        kept.iter_mut().zip(Bits(rows.left)).for_each(|(row, k)| *row = k);
        kept.sort_unstable_by(|&a, &b| chased.query.rows[a].cmp(&chased.query.rows[b]));
        put(&mut out, " kept ", kept.len());
        put(&mut out, " replaced ", chased.count);
        out.extend_from_slice(b"\nhead");
        put_entries(&mut out, &chased.query.head);
        for &mut k in kept {
            put(&mut out, "row ", chased.query.rows[k].relation as usize);
            put_entries(&mut out, &chased.query.rows[k].entries);
        }
        out.extend_from_slice(b"map");
        for k in 0..count {
            put(&mut out, " v", variables[k]);
            out.push(b'=');
            let image = images[k] as usize;
            put_entry(&mut out, if image < VARIABLES { Variable(image as u8) } else { Constant(constants[image - VARIABLES]) });
        }
        out.push(b'\n');
    }
    out
}

fn main() -> std::io::Result<()> {
    if std::env::args().skip(1).ne(["list".to_string()]) {
        eprintln!("usage: careful list < FILE");
        std::process::exit(2);
    }
    let mut file = Vec::with_capacity(8192);
    std::io::stdin().take(INPUT_LIMIT as u64).read_to_end(&mut file)?;
    std::io::stdout().write_all(&list(&file))
}

#[cfg(test)]
mod tests {
    use super::*;
    use spernevan_reference::generate::file;
    use spernevan_reference::judge::judge;
    use spernevan_reference::listing::cut;

    #[test]
    fn its_listings_are_right() {
        for k in 0..5000 {
            let file = file(10, k);
            assert_eq!(judge(&file, &list(cut(&file))), Ok(()));
        }
    }
}
