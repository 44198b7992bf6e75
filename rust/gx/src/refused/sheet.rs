//! Why a description is no field sheet, in words: the entry that the library names, and the later ones that are outside the profile
//! too.

use goltximen::{Reason, Refusal};

use crate::blocks::encode;
use crate::entry::Entry;
use crate::library;
use crate::tree::{alone, owners};
use crate::words;

/// The largest number in a field sheet.
const MOST_NUMBER: u16 = 99;

/// What is wrong with this entry, and which others are outside.
pub(super) fn fault(entries: &[Entry], place: usize) -> String {
    let e = entries
        .get(place.wrapping_sub(1))
        .copied()
        .unwrap_or_default();
    let fault = match e.kind {
        2 => "it is of kind 2, lacks, and a field sheet has kinds 1, 3, 4 and 5".into(),
        6 => "it is of kind 6, nothing fits, and a field sheet has kinds 1, 3, 4 and 5".into(),
        _ if e.number > MOST_NUMBER => {
            let number = words::grouped(e.number.into());
            format!("its number is {number}, and the most in a field sheet is {MOST_NUMBER}")
        }
        _ => {
            let depth = owners(entries, place).len();
            format!("it stands {depth} deep, and the most in a field sheet is 3")
        }
    };
    let others = match all(entries, place).as_slice() {
        [] | [_] => String::new(),
        [_, one] => format!("; outside too is entry {one}"),
        [_, others @ ..] => {
            let others = words::listed(&runs(others));
            format!("; outside too are entries {others}")
        }
    };
    format!("entry {place}: {fault}{others}")
}

/// All entries that no field sheet has, where the one at this place is refused for that; else none.
pub fn outside(refusal: Refusal, entries: &[Entry]) -> Vec<usize> {
    match refusal.reason {
        Reason::Sheet => all(entries, refusal.place.into()),
        _ => Vec::new(),
    }
}

/// The entries from this one on that are outside: the first, and each later one that with its owners alone is no field sheet, which the
/// library is asked.
fn all(entries: &[Entry], place: usize) -> Vec<usize> {
    let outside = |&entry: &usize| {
        let alone = encode(&alone(entries, entry));
        matches!(library::read_sheet(&alone), Err(refusal) if refusal.reason == Reason::Sheet)
    };
    let later = (place + 1..=entries.len()).filter(outside);
    std::iter::once(place).chain(later).collect()
}

/// Numbers that rise, those that follow each other as one run: 7, 9 to 12.
fn runs(numbers: &[usize]) -> Vec<String> {
    let runs = numbers.chunk_by(|one, next| one + 1 == *next);
    runs.flat_map(|run| match run {
        [first, _, .., last] => vec![format!("{first} to {last}")],
        few => few.iter().map(usize::to_string).collect(),
    })
    .collect()
}
