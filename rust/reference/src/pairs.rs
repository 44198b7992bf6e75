//! Properties that exclude each other: refusals 11 and 12.

use std::collections::BTreeSet;

use crate::blocks::{word, Entry};
use crate::refusal::{Refusal, BOTH_OF_A_PAIR, PAIRS};
use crate::tree::Property;

/// Up to 64 pairs of four bytes (S6).
const MOST_PAIRS: usize = 64;
const PAIR_BYTES: usize = 4;

/// The pairs of a list that 11 doesn't refuse.
///
/// Which of the two comes first makes no odds, and a pair may come again or
/// share a property with others.
#[derive(Clone, Debug, Default, PartialEq, Eq)]
pub(crate) struct Pairs(Vec<(Property, Property)>);

impl Pairs {
    /// The pairs in these bytes, or 11: the length, at place 0, else the lowest
    /// wrong pair, at its place (R11).
    pub(crate) fn read(bytes: &[u8]) -> Result<Pairs, Refusal> {
        let stored = bytes.chunks_exact(PAIR_BYTES);
        if !stored.remainder().is_empty() || stored.len() > MOST_PAIRS {
            return Err(Refusal::at(PAIRS, 0, 0));
        }
        let pairs: Vec<_> = stored
            .map(|pair| (Property(word(pair, 0)), Property(word(pair, 2))))
            .collect();
        match pairs.iter().position(|pair| !names_two(pair)) {
            Some(index) => Err(Refusal::at(PAIRS, 0, index.saturating_add(1))),
            None => Ok(Pairs(pairs)),
        }
    }

    /// The properties that no item has together with this one.
    pub(crate) fn partners(&self, property: Property) -> impl Iterator<Item = Property> + '_ {
        self.0.iter().filter_map(move |&(one, other)| {
            if one == property {
                Some(other)
            } else if other == property {
                Some(one)
            } else {
                None
            }
        })
    }

    /// Refusal 12 of an input that is right otherwise: an item has both
    /// properties of a pair; the place is the lowest entry that completes one
    /// (R12).
    ///
    /// All items of one owner have the same properties, and each owner has an
    /// item. So an entry completes a pair if an earlier one of its owner gives
    /// a partner of its property.
    pub(crate) fn check_items(&self, entries: &[Entry], input: u16) -> Result<(), Refusal> {
        let mut given = BTreeSet::new();
        for (place, entry) in (1..).zip(entries) {
            if entry.kind != 1 {
                continue;
            }
            let property = Property(entry.name);
            if self
                .partners(property)
                .any(|partner| given.contains(&(entry.owner, partner)))
            {
                return Err(Refusal::at(BOTH_OF_A_PAIR, input, place));
            }
            given.insert((entry.owner, property));
        }
        Ok(())
    }
}

/// Whether the pair is not one with a 0, or one property twice (R11).
fn names_two(&(one, other): &(Property, Property)) -> bool {
    one != Property(0) && other != Property(0) && one != other
}
