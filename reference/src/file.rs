//! The file of a record: any bytes to a record or a refusal, and back.

use crate::record::*;
use crate::record::Entry::{Constant, Variable};

/// The parts that the directory names, each a stretch of the file.
pub fn parts(file: &[u8]) -> Result<Vec<&[u8]>, Refusal> {
    if file.len() < 2 {
        return Err(DIRECTORY);
    }
    let word = |at: usize| u16::from_le_bytes([file[at], file[at + 1]]) as usize;
    let count = word(0);
    if !(2..=10).contains(&count) || file.len() < 2 + 4 * count {
        return Err(DIRECTORY);
    }
    let mut parts = vec![];
    let mut end = 2 + 4 * count;
    for k in 0..count {
        let (offset, length) = (word(2 + 4 * k), word(4 + 4 * k));
        if offset != end || offset + length > file.len() {
            return Err(OFFSETS);
        }
        end = offset + length;
        parts.push(&file[offset..end]);
    }
    if end != file.len() {
        return Err(OFFSETS);
    }
    Ok(parts)
}

/// The widths and the bytes past them.
fn read_widths(part: &[u8]) -> Result<(Vec<u8>, &[u8]), Refusal> {
    let Some((&n, rest)) = part.split_first() else { return Err(RELATIONS) };
    if rest.len() < n as usize {
        return Err(RELATIONS);
    }
    let (widths, past) = rest.split_at(n as usize);
    if widths_are_sound(widths) { Ok((widths.to_vec(), past)) } else { Err(RELATIONS) }
}

/// The pairs of codes: the bytes past the widths. Without bytes there are none.
fn read_codes(past: &[u8]) -> Result<Vec<CodePair>, Refusal> {
    let Some((&n, pairs)) = past.split_first() else { return Ok(vec![]) };
    if n == 0 || pairs.len() != 8 * n as usize {
        return Err(CODE);
    }
    let word = |bytes: &[u8]| u32::from_le_bytes(bytes.try_into().expect("four bytes"));
    let all: Vec<CodePair> = pairs.chunks(8).map(|p| CodePair { old: word(&p[..4]), current: word(&p[4..]) }).collect();
    if codes_are_sound(&all) { Ok(all) } else { Err(CODE) }
}

/// The functional dependencies and the bytes past them.
fn read_dependencies<'a>(widths: &[u8], part: &'a [u8]) -> Result<(Vec<Dependency>, &'a [u8]), Refusal> {
    let Some((&n, rest)) = part.split_first() else { return Err(DEPENDENCIES) };
    let length = 3 * n as usize;
    if n as usize > MAX_DEPENDENCIES || rest.len() < length {
        return Err(DEPENDENCIES);
    }
    let (these, past) = rest.split_at(length);
    let all: Vec<Dependency> =
        these.chunks(3).map(|d| Dependency { relation: d[0], left: d[1], right: d[2] }).collect();
    if all.iter().all(|d| d.is_sound(widths)) { Ok((all, past)) } else { Err(DEPENDENCIES) }
}

/// The join dependencies: the bytes past the functional ones. Without bytes there are none.
fn read_joins(widths: &[u8], past: &[u8]) -> Result<Vec<JoinDependency>, Refusal> {
    if past.is_empty() {
        return Ok(vec![]);
    }
    let mut cursor = Cursor(past);
    let Some(all) = cursor.joins() else { return Err(JOIN) };
    let sound = cursor.0.is_empty() && (1..=MAX_JOINS).contains(&all.len()) && all.iter().all(|j| j.is_sound(widths));
    if sound { Ok(all) } else { Err(JOIN) }
}

/// Takes bytes from the front of a part.
struct Cursor<'a>(&'a [u8]);

impl<'a> Cursor<'a> {
    fn byte(&mut self) -> Option<u8> {
        let (&b, rest) = self.0.split_first()?;
        self.0 = rest;
        Some(b)
    }

    /// A count, then as many join dependencies.
    fn joins(&mut self) -> Option<Vec<JoinDependency>> {
        (0..self.byte()?).map(|_| self.join()).collect()
    }

    fn join(&mut self) -> Option<JoinDependency> {
        let relation = self.byte()?;
        let sets = (0..self.byte()?).map(|_| self.byte()).collect::<Option<Vec<u8>>>()?;
        Some(JoinDependency { relation, sets })
    }

    fn entry(&mut self) -> Option<Entry> {
        let tag = self.byte()?;
        let mut number = 0u32;
        for k in 0..4 {
            number |= (self.byte()? as u32) << (8 * k);
        }
        match tag {
            0 if number <= MAX_CONSTANT => Some(Constant(number)),
            1 if (number as usize) < VARIABLES => Some(Variable(number as u8)),
            _ => None,
        }
    }

    fn entries(&mut self, n: usize) -> Option<Vec<Entry>> {
        (0..n).map(|_| self.entry()).collect()
    }

    fn query(&mut self, widths: &[u8]) -> Option<Query> {
        let head_length = self.byte()?;
        let row_count = self.byte()? as usize;
        if head_length as usize > MAX_HEAD || row_count > MAX_ROWS {
            return None;
        }
        let head = self.entries(if row_count == 0 { 0 } else { head_length as usize })?;
        let mut rows = vec![];
        for _ in 0..row_count {
            let relation = self.byte()?;
            let width = *widths.get(relation as usize)? as usize;
            rows.push(Row { relation, entries: self.entries(width)? });
        }
        Some(Query { head_length, head, rows })
    }
}

/// A query part that isn't the single byte 255.
pub fn read_query(widths: &[u8], part: &[u8]) -> Result<Query, Refusal> {
    let mut cursor = Cursor(part);
    let Some(query) = cursor.query(widths) else { return Err(QUERY) };
    if !cursor.0.is_empty() {
        return Err(QUERY);
    }
    match query.fault(widths) {
        Some(n) => Err(n),
        None => Ok(query),
    }
}

pub fn read(file: &[u8]) -> Result<Record, Refusal> {
    let parts = parts(file)?;
    let mut record = Record::default();
    let (widths, past) = read_widths(parts[0])?;
    record.widths = widths;
    record.codes = read_codes(past)?;
    let (dependencies, past) = read_dependencies(&record.widths, parts[1])?;
    record.dependencies = dependencies;
    record.joins = read_joins(&record.widths, past)?;
    for (k, part) in parts.iter().enumerate().skip(2) {
        if **part == [255] {
            if k == parts.len() - 1 {
                return Err(QUERY);
            }
        } else {
            record.places[k - 2] = Some(read_query(&record.widths, part)?);
        }
    }
    Ok(record)
}

pub fn entry_bytes(out: &mut Vec<u8>, entry: Entry) {
    let (tag, number) = match entry {
        Constant(c) => (0, c),
        Variable(v) => (1, v as u32),
    };
    out.push(tag);
    out.extend(number.to_le_bytes());
}

/// A query as a part holds it.
pub fn query_bytes(query: &Query) -> Vec<u8> {
    let mut out = vec![query.head_length, query.rows.len() as u8];
    for &e in &query.head {
        entry_bytes(&mut out, e);
    }
    for row in &query.rows {
        out.push(row.relation);
        for &e in &row.entries {
            entry_bytes(&mut out, e);
        }
    }
    out
}

/// Pairs of codes as they follow the widths: none are no bytes.
pub fn codes_bytes(codes: &[CodePair]) -> Vec<u8> {
    if codes.is_empty() {
        return vec![];
    }
    let mut out = vec![codes.len() as u8];
    for p in codes {
        out.extend(p.old.to_le_bytes());
        out.extend(p.current.to_le_bytes());
    }
    out
}

/// Join dependencies as they follow the functional ones: none are no bytes.
pub fn joins_bytes(joins: &[JoinDependency]) -> Vec<u8> {
    if joins.is_empty() {
        return vec![];
    }
    let mut out = vec![joins.len() as u8];
    for j in joins {
        out.extend([j.relation, j.sets.len() as u8]);
        out.extend(&j.sets);
    }
    out
}

/// The parts of a record's file, in order.
pub fn record_parts(record: &Record) -> Vec<Vec<u8>> {
    let mut widths = vec![record.widths.len() as u8];
    widths.extend(&record.widths);
    widths.extend(codes_bytes(&record.codes));
    let mut dependencies = vec![record.dependencies.len() as u8];
    for d in &record.dependencies {
        dependencies.extend([d.relation, d.left, d.right]);
    }
    dependencies.extend(joins_bytes(&record.joins));
    let mut parts = vec![widths, dependencies];
    let used = record.places.iter().rposition(|p| p.is_some()).map_or(0, |k| k + 1);
    for place in &record.places[..used] {
        parts.push(place.as_ref().map_or(vec![255], query_bytes));
    }
    parts
}

/// Puts a directory before parts. Lengths beyond 16 bits are cut.
pub fn join(parts: &[Vec<u8>]) -> Vec<u8> {
    let mut out = (parts.len() as u16).to_le_bytes().to_vec();
    let mut at = 2 + 4 * parts.len();
    for part in parts {
        out.extend((at as u16).to_le_bytes());
        out.extend((part.len() as u16).to_le_bytes());
        at += part.len();
    }
    parts.iter().for_each(|p| out.extend(p));
    out
}

pub fn bytes(record: &Record) -> Vec<u8> {
    join(&record_parts(record))
}

pub fn write(record: &Record, buffer: &mut [u8]) -> Result<usize, Refusal> {
    record.sound()?;
    let file = bytes(record);
    if file.len() > buffer.len() {
        return Err(BUFFER);
    }
    buffer[..file.len()].copy_from_slice(&file);
    Ok(file.len())
}
