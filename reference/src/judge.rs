//! Decides whether another engine's listing of a file is right. Nothing in it is free but the images of the map lines.

use crate::codes::read_query;
use crate::file::read;
use crate::listing::{cut, list, place_text};
use crate::mapping::{is_mapping, Mapping};
use crate::record::*;
use crate::record::Entry::{Constant, Variable};
use crate::reduction::reduce_query;

/// A number as the listing prints it: no sign, no leading zero.
fn number(text: &str) -> Option<u32> {
    let n: u32 = text.parse().ok()?;
    (n.to_string() == text).then_some(n)
}

fn entry(text: &str) -> Option<Entry> {
    let e = match text.strip_prefix('v') {
        Some(v) => Variable(number(v)?.try_into().ok()?),
        None => Constant(number(text)?),
    };
    e.is_sound().then_some(e)
}

/// The mapping that a map line says: an image for each of these variables, in their order.
fn map_line(line: &str, variables: &[u8]) -> Option<Mapping> {
    let mut words = line.split(' ');
    if words.next() != Some("map") {
        return None;
    }
    let mut mapping: Mapping = [Constant(0); VARIABLES];
    for &v in variables {
        let (of, image) = words.next()?.split_once('=')?;
        if entry(of)? != Variable(v) {
            return None;
        }
        mapping[v as usize] = entry(image)?;
    }
    words.next().is_none().then_some(mapping)
}

/// Takes the lines of a place from the listing.
fn judge_place<'a>(place: usize, record: &Record, source: &Query, lines: &mut impl Iterator<Item = &'a str>) -> Result<(), String> {
    let source = &read_query(&record.codes, source);
    let reduced = reduce_query(&record.dependencies, source);
    let due = place_text(place, source, &reduced.result, reduced.count, reduced.mapping.as_ref());
    for due in due.lines() {
        let line = lines.next().ok_or(format!("place {place}: {due:?} is missing"))?;
        if !due.starts_with("map") {
            if line != due {
                return Err(format!("place {place}: {line:?} instead of {due:?}"));
            }
            continue;
        }
        let Some(mapping) = map_line(line, &source.variables()) else {
            return Err(format!("place {place}: {line:?} isn't a map line with the variables of the saved query, ascending"));
        };
        if !is_mapping(source, &reduced.result, &mapping) {
            return Err(format!("place {place}: {line:?} isn't a mapping from the saved query to the result"));
        }
    }
    Ok(())
}

/// Ok when the listing is right, else the first reason why not.
pub fn judge(input: &[u8], listing: &[u8]) -> Result<(), String> {
    let Ok(text) = std::str::from_utf8(listing) else { return Err("not text".into()) };
    let Ok(record) = read(cut(input)) else {
        let due = list(input);
        return if text == due { Ok(()) } else { Err(format!("{due:?} is due")) };
    };
    if !text.is_empty() && !text.ends_with('\n') {
        return Err("the last line has no newline".into());
    }
    let mut lines = text.split_terminator('\n');
    for (p, place) in record.places.iter().enumerate() {
        if let Some(source) = place {
            judge_place(p, &record, source, &mut lines)?;
        }
    }
    match lines.next() {
        Some(line) => Err(format!("a line too many: {line:?}")),
        None => Ok(()),
    }
}

#[cfg(test)]
mod tests {
    use super::*;
    use crate::examples::{unhex, EXAMPLE_FILE, EXAMPLE_LISTING};

    #[test]
    fn right_and_wrong_listings() {
        let file = unhex(EXAMPLE_FILE);
        let right = EXAMPLE_LISTING;
        assert_eq!(judge(&file, right.as_bytes()), Ok(()));
        let edits = [
            ("place 0", "place 1"),
            ("rows 2", "rows 3"),
            ("kept 1", "kept 2"),
            ("kept 1", "kept 01"),
            ("replaced 1", "replaced 2"),
            ("replaced 1", "replaced +1"),
            ("place 0 ", "place 0  "),
            ("head v0 7 v2", "head v0 v1 v2"),
            ("head v0 7 v2", "head v0 7"),
            ("row 0 v0 7 v2\n", ""),
            ("row 0 v0 7 v2\n", "row 0 v0 7 v2\nrow 0 v0 7 v2\n"),
            ("row 0 v0 7 v2", "row 0 v0 7 v3"),
            ("row 0 v0 7 v2", "row 1 v0 7 v2"),
            ("row 0 v0", "row 0  v0"),
            (" v3=v2", ""),
            ("v3=v2", "v3=v3"),
            ("v2=v2 v3=v2", "v3=v2 v2=v2"),
            ("v3=v2", "v3=v2 v4=0"),
            ("v1=7", "v1=8"),
            ("v3=v2\n", "v3=v2"),
            ("v3=v2\n", "v3=v2\n\n"),
            ("v3=v2\n", "v3=v2\r\n"),
            ("v3=v2\n", "v3=v2 \n"),
            ("place 0 rows 2 kept 1 replaced 1\n", "place 0 rows 2 never replaced 1\n"),
        ];
        for (from, to) in edits {
            let other = right.replacen(from, to, 1);
            assert_ne!(other, right);
            assert!(judge(&file, other.as_bytes()).is_err(), "{other}");
        }
        for other in ["", "\n", "refused 5\n", "place 0 rows 2 never replaced 1\n", "place 0 rows 2 never replaced 0\n"] {
            assert!(judge(&file, other.as_bytes()).is_err());
        }
        assert_eq!(judge(&file[1..], b"refused 1\n"), Ok(()));
        assert!(judge(&file[1..], b"refused 1").is_err());
        assert!(judge(&file[1..], b"refused 2\n").is_err());
        assert!(judge(&file[1..], b"").is_err());
        // A file without queries has an empty listing.
        let bare = crate::file::bytes(&Record::open(&[2]).unwrap());
        assert_eq!(judge(&bare, b""), Ok(()));
        assert!(judge(&bare, b"\n").is_err());
    }

    #[test]
    fn the_mapping_alone_is_free() {
        // R(v0,v1), R(2,v3), R(v4,v5): the last row goes, then the first.
        let row = |a, b| Row { relation: 0, entries: vec![a, Variable(b)] };
        let query = Query::new(vec![], vec![row(Variable(0), 1), row(Constant(2), 3), row(Variable(4), 5)]);
        let file = crate::file::bytes(&Record::open(&[2]).unwrap().put(0, &query).unwrap());
        let one = "place 0 rows 3 kept 1 replaced 0\nhead\nrow 0 2 v3\nmap v0=2 v1=v3 v3=v3 v4=2 v5=v3\n";
        assert_eq!(judge(&file, one.as_bytes()), Ok(()));
        assert!(judge(&file, one.replace("v5=v3", "v5=v1").as_bytes()).is_err());
        // R(v0,v1), R(v1,v0): both rows stay, as they are or exchanged.
        let query = Query::new(vec![], vec![row(Variable(0), 1), row(Variable(1), 0)]);
        let file = crate::file::bytes(&Record::open(&[2]).unwrap().put(0, &query).unwrap());
        let listing = |rows: &str, map: &str| format!("place 0 rows 2 kept 2 replaced 0\nhead\n{rows}map {map}\n");
        let (first, second) = ("row 0 v0 v1\n", "row 0 v1 v0\n");
        let sorted = [first, second].concat();
        for map in ["v0=v0 v1=v1", "v0=v1 v1=v0"] {
            assert_eq!(judge(&file, listing(&sorted, map).as_bytes()), Ok(()));
            assert!(judge(&file, listing(&[second, first].concat(), map).as_bytes()).is_err());
        }
        assert!(judge(&file, listing(&sorted, "v0=v0 v1=v0").as_bytes()).is_err());
    }

    #[test]
    fn another_row_of_two_is_wrong() {
        // R(v0,v1), R(v0,v2), head v0: the last goes.
        let row = |a, b| Row { relation: 0, entries: vec![Variable(a), Variable(b)] };
        let query = Query::new(vec![Variable(0)], vec![row(0, 1), row(0, 2)]);
        let file = crate::file::bytes(&Record::open(&[2]).unwrap().put(0, &query).unwrap());
        let with = |stays: &str| format!("place 0 rows 2 kept 1 replaced 0\nhead v0\nrow 0 v0 {stays}\nmap v0=v0 v1={stays} v2={stays}\n");
        assert_eq!(judge(&file, with("v1").as_bytes()), Ok(()));
        assert!(judge(&file, with("v2").as_bytes()).is_err());
    }
}
