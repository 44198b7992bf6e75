//! Field sheets, against the reference, and beside the reading of any description by what the words of the profile mean.

use goltximen::{Reason, Under};
use reference::{decode, Entry};

use super::{in_form, refused, Answer, Case, Difference};

/// Reads a field sheet. It has to be accepted exactly where the library accepts it as a description and each of its entries is in the
/// profile; 19 has to stand at the lowest entry outside; any other refusal has to be the one of reading a description.
///
/// # Errors
///
/// The difference.
pub fn read_sheet(bytes: &[u8]) -> Result<Answer, Difference> {
    let case = Case {
        call: "read sheet",
        under: Under::default(),
        inputs: &[bytes],
    };
    let proved = goltximen::read_sheet(bytes);
    let plain = reference::read_sheet(bytes);
    let answer = case.same(proved.map(usize::from).map_err(in_form), plain)?;
    let full = goltximen::read_description(bytes);
    let so = match (proved, full) {
        (Ok(_), _) => proved == full && lowest_outside(bytes).is_none(),
        (Err(refusal), full) if refusal.reason == Reason::Sheet => {
            let place = usize::from(refusal.place);
            // What refuses the description stands at a later entry, if anything does.
            let later = full.map_or_else(|full| full.place > refusal.place, |_| true);
            later && refusal.input == 1 && lowest_outside(bytes) == Some(place)
        }
        (Err(_), _) => proved == full,
    };
    case.ensure(
        so,
        "the answer is not what the profile says of a description",
    )?;
    Ok(answer.map_or_else(refused, Answer::Count))
}

/// The number of the lowest entry outside the profile, of blocks whose entries have earlier entries as owners up to it.
fn lowest_outside(bytes: &[u8]) -> Option<usize> {
    let entries = decode(bytes);
    let mut depths: Vec<usize> = vec![0];
    for (number, entry) in (1..).zip(&entries) {
        let depth = depths.get(usize::from(entry.owner)).copied().unwrap_or(0);
        if !is_inside(entry, depth) {
            return Some(number);
        }
        depths.push(depth + 1);
    }
    None
}

/// Whether an entry at this depth is in the profile.
fn is_inside(entry: &Entry, depth: usize) -> bool {
    [1, 3, 4, 5].contains(&entry.kind) && entry.number < 100 && depth < 4
}
