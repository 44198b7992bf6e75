//! Entries in the order of their numbers.

use std::collections::BTreeMap;

use super::{Entry, Mistake, Position, Row};

/// The entries in the order of their numbers, each number once and none missing.
pub(super) fn numbered(rows: &[Row]) -> Result<(Vec<Entry>, Vec<Position>), Mistake> {
    let mut by_number = BTreeMap::new();
    for row in rows {
        if let Some(earlier) = by_number.insert(row.number, row) {
            let expected = format!(
                "a number that is free: entry {} is that of line {}",
                row.number, earlier.at.line
            );
            return Err(Mistake::new(
                row.at,
                expected,
                format!("entry {} again", row.number),
            ));
        }
    }
    let gap = (1..)
        .zip(by_number.values())
        .find(|(due, row)| *due != row.number);
    if let Some((due, row)) = gap {
        let expected = format!("an entry {due} somewhere in the text");
        return Err(Mistake::new(
            row.at,
            expected,
            format!("entry {} as the next", row.number),
        ));
    }
    let entry = |row: &&Row| Entry {
        owner: (row.owner & 0xffff) as u16,
        ..row.entry
    };
    let entries = by_number.values().map(entry).collect();
    Ok((entries, by_number.values().map(|row| row.at).collect()))
}
