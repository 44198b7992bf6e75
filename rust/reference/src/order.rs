//! The order in which entries are written.

use std::collections::VecDeque;

use crate::blocks::Entry;

/// An entry to be written, with the entries it will own.
#[derive(Clone, Debug, PartialEq, Eq)]
pub(crate) struct Row {
    pub(crate) kind: u8,
    pub(crate) name: u16,
    pub(crate) number: u16,
    pub(crate) owned: Vec<Row>,
}

/// Written in blocks, ascending (N15) (E11).
///
/// The rows of the top come first; then, owner by owner in the order of the
/// numbers just given, the rows each of them owns.
pub(crate) fn in_order(top: Vec<Row>) -> Vec<Entry> {
    let mut entries = Vec::new();
    let mut waiting = VecDeque::from([(0, top)]);
    while let Some((owner, mut rows)) = waiting.pop_front() {
        rows.sort_by_key(|row| (row.kind, row.name, row.number));
        for row in rows {
            entries.push(Entry {
                kind: row.kind,
                zero: 0,
                owner,
                name: row.name,
                number: row.number,
            });
            let number = u16::try_from(entries.len()).unwrap_or(u16::MAX);
            if !row.owned.is_empty() {
                waiting.push_back((number, row.owned));
            }
        }
    }
    entries
}
