//! The dictionary: the descriptions that an entry of kind 9 may name.

use crate::blocks::Entry;
use crate::list::cut;
use crate::reading::{read, Sort, MOST_DEPTH, MOST_ENTRIES};
use crate::refusal::{Refusal, UNFOLDED};
use crate::unfolding::{deepest, unfolded, unfolded_size};

/// Input 100, and 100 + n for the n-th description, before the inputs (D2)
/// (R25).
const DICTIONARY: u16 = 100;

/// The descriptions of an accepted dictionary, each unfolded.
#[derive(Clone, Debug, Default, PartialEq, Eq)]
pub(crate) struct Dictionary(Vec<Vec<Entry>>);

impl Dictionary {
    /// A list of descriptions, or of length 0 (D1).
    ///
    /// Each description is read in full, 14 included, before the next is looked
    /// at. It is read with the dictionary made so far, that is with the ones
    /// before it: names go to earlier descriptions only (D4).
    pub(crate) fn read(bytes: &[u8]) -> Result<Dictionary, Refusal> {
        let mut earlier = Dictionary::default();
        for (input, description) in (DICTIONARY.saturating_add(1)..).zip(cut(bytes, DICTIONARY)?) {
            let plain = earlier.read_description(description, input)?;
            earlier.0.push(plain);
        }
        Ok(earlier)
    }

    /// The entries of an accepted description that may name the descriptions of
    /// this dictionary, unfolded; or its refusal.
    ///
    /// 14, too large once unfolded, after the input's other checks (R14) (R24).
    pub(crate) fn read_description(&self, bytes: &[u8], input: u16) -> Result<Vec<Entry>, Refusal> {
        let Dictionary(named) = self;
        let entries = read(bytes, Sort::Naming(named.len()), input)?;
        if unfolded_size(&entries, named) > MOST_ENTRIES {
            return Err(Refusal::at(UNFOLDED, input, 0));
        }
        let plain = unfolded(&entries, named);
        if deepest(&plain) > MOST_DEPTH {
            return Err(Refusal::at(UNFOLDED, input, 0));
        }
        Ok(plain)
    }
}
