//! The columns that a set of columns determines.

use crate::record::*;

/// The determined set and its size. Of the empty set these are the columns that never vary.
pub fn determined(record: &Record, relation: u8, left: u8) -> Result<(u8, u32), Refusal> {
    record.sound()?;
    if !set_is_sound(&record.widths, relation, left) {
        return Err(DEPENDENCIES);
    }
    let mut set = left;
    loop {
        let before = set;
        for d in &record.dependencies {
            if d.relation == relation && d.left & !set == 0 {
                set |= 1 << d.right;
            }
        }
        if set == before {
            return Ok((set, set.count_ones()));
        }
    }
}
