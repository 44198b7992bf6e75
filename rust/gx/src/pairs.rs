//! Properties that exclude each other: the pairs of a list, and their bytes.
//!
//! Nothing here judges: whether a list is accepted is the library's answer.

use goltximen::Under;

use crate::entry::Property;
use crate::names::Names;
use crate::text::Position;

/// The bytes of a pair.
pub const PAIR: usize = 4;
/// The most pairs that the library takes.
pub const MOST_PAIRS: usize = 64;

/// Two properties that exclude each other. Which of the two stands first says nothing.
#[derive(Clone, Copy, Debug, PartialEq, Eq)]
pub struct Pair(pub Property, pub Property);

impl Pair {
    /// The property that the pair excludes with this one.
    fn beside(self, property: Property) -> Option<Property> {
        match self {
            Pair(one, other) if one == property => Some(other),
            Pair(other, one) if one == property => Some(other),
            _ => None,
        }
    }
}

/// A list that the library accepts; the default has no pairs.
#[derive(Clone, Debug, Default)]
pub struct List {
    /// The file's name without its folder, or "standard input".
    pub title: String,
    /// The pairs.
    pub pairs: Vec<Pair>,
    /// Their bytes.
    pub bytes: Vec<u8>,
    /// The words: those given, and then those of the text itself.
    pub names: Names,
    /// Where each pair stands in the text, if the list is one.
    pub positions: Vec<Position>,
}

impl List {
    /// The list as a call of the library takes it that has no dictionary.
    pub fn under(&self) -> Under<'_> {
        Under {
            pairs: &self.bytes,
            ..Under::default()
        }
    }

    /// The properties that exclude this one, each once.
    pub fn excluding(&self, property: Property) -> Vec<Property> {
        let mut all: Vec<Property> = self
            .pairs
            .iter()
            .filter_map(|pair| pair.beside(property))
            .collect();
        all.sort_unstable();
        all.dedup();
        all
    }

    /// The number of the first pair of these two.
    pub fn number_of(&self, one: Property, other: Property) -> Option<usize> {
        let mut pairs = (1..).zip(&self.pairs);
        let found = pairs.find(|(_, pair)| pair.beside(one) == Some(other));
        found.map(|(number, _)| number)
    }
}

/// The pairs as bytes.
pub fn encode(pairs: &[Pair]) -> Vec<u8> {
    let words = pairs.iter().flat_map(|pair| [pair.0 .0, pair.1 .0]);
    words.flat_map(u16::to_le_bytes).collect()
}

/// The whole pairs of these bytes.
pub fn decode(bytes: &[u8]) -> Vec<Pair> {
    let word = |pair: &[u8], at: usize| Property(u16::from_le_bytes([pair[at], pair[at + 1]]));
    let pairs = bytes.chunks_exact(PAIR);
    pairs
        .map(|pair| Pair(word(pair, 0), word(pair, 2)))
        .collect()
}
