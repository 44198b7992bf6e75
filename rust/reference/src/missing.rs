//! What is missing from a supplier's description for a yes.

use crate::blocks::Entry;
use crate::earning::is_contained;
use crate::marks::{fewest, write_marks};
use crate::narrowest::length_together;
use crate::pairs::Pairs;
use crate::reading::{read, Sort};
use crate::refusal::Refusal;
use crate::rules::normal_place;
use crate::tree::{top_place, Fact};

/// What C lacks to be contained in D.
#[derive(Clone, Copy, Debug, PartialEq, Eq)]
pub enum Missing {
    /// C is contained in D.
    NothingToAdd,
    /// C with the marked entries is contained in D, and some item of some
    /// record fits both.
    ToBeAdded,
    /// No item fits both; the marked entries are enough for that.
    NothingFitsBoth,
}

/// Marks entries of D with which C is contained in D, each of them needed, and
/// answers what that means.
///
/// One byte for each entry of D: 1 for a set of entries of kinds other than 5,
/// found by leaving out from the last to the first, and for their owners; 0 for
/// the others, and for all exactly where C is contained in D. Later bytes stay.
/// Refused are, in this order, the pairs (11), input 1, input 2, more than 16
/// blocks together (1, at input 2), and fewer bytes than entries of D (7).
/// There is no dictionary.
pub fn missing(pairs: &[u8], c: &[u8], d: &[u8], out: &mut [u8]) -> Result<Missing, Refusal> {
    let pairs = Pairs::read(pairs)?;
    let c = read(c, Sort::Description, 1)?;
    let d = read(d, Sort::Description, 2)?;
    length_together(&c, &d)?;
    let Some(answers) = out.get_mut(..d.len()) else {
        return Err(Refusal::output_too_short());
    };
    let mends = |added: &[Entry]| is_contained(&both(&c, added), &d, &pairs);
    // All of D mends; where none of it is needed, none is marked.
    write_marks(&fewest(&d, mends), answers);
    Ok(what_is_missing(&c, &d, &pairs))
}

/// C in D is asked first: where nothing fits C, nothing is to be added either.
fn what_is_missing(c: &[Entry], d: &[Entry], pairs: &Pairs) -> Missing {
    if is_contained(c, d, pairs) {
        Missing::NothingToAdd
    } else if is_impossible(&both(c, d), pairs) {
        Missing::NothingFitsBoth
    } else {
        Missing::ToBeAdded
    }
}

/// The description that asks for what either asks for: the entries of the
/// second after those of the first.
fn both(first: &[Entry], second: &[Entry]) -> Vec<Entry> {
    let before = u16::try_from(first.len()).unwrap_or(u16::MAX);
    let counted_on = second.iter().map(|entry| match entry.owner {
        0 => *entry,
        owner => Entry {
            owner: owner.saturating_add(before),
            ..*entry
        },
    });
    first.iter().copied().chain(counted_on).collect()
}

/// Whether no item of any record fits.
fn is_impossible(entries: &[Entry], pairs: &Pairs) -> bool {
    let normal = normal_place(top_place(entries), pairs);
    normal.facts.contains(&Fact::Nothing)
}
