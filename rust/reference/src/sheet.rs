//! Field sheets: the plain descriptions that small farms send.

use crate::blocks::Entry;
use crate::reading::{read, Sort};
use crate::refusal::Refusal;

/// The largest number of an entry in a sheet.
const MOST_NUMBER: u16 = 99;
/// The largest depth of an entry in a sheet.
const MOST_SHEET_DEPTH: usize = 3;

/// Reads a field sheet and answers its number of entries. It is input 1.
///
/// All that a description is refused for comes first, entry by entry; then an
/// entry that no sheet has is refused (19). There is no dictionary.
pub fn read_sheet(description: &[u8]) -> Result<usize, Refusal> {
    Ok(read(description, Sort::Sheet, 1)?.len())
}

/// Whether an entry of a description, at this depth, may be one of a sheet: no
/// lacks, no 'nothing fits', small numbers, few links deep.
pub(crate) fn within_profile(entry: &Entry, depth: usize) -> bool {
    matches!(entry.kind, 1 | 3 | 4 | 5) && entry.number <= MOST_NUMBER && depth <= MOST_SHEET_DEPTH
}
