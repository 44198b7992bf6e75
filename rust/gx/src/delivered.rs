//! Delivered records: items with their properties and links, as blocks, as text and as a table with commas.
//!
//! Nothing here judges: whether a record is accepted, and which items fit, is the library's answer.

use crate::entry::{Entry, Link, Property};
use crate::names::Names;
use crate::text::Position;

/// The kind of an entry that links its owner to the item in its number field.
pub const LINKED: u8 = 8;

/// A record that the library accepts.
#[derive(Clone, Debug, Default)]
pub struct Delivered {
    /// The file's name without its folder, or "standard input".
    pub title: String,
    /// How many items it has.
    pub items: usize,
    /// What is said of them.
    pub entries: Vec<Entry>,
    /// The blocks.
    pub bytes: Vec<u8>,
    /// The words: those given, and then those of the text itself.
    pub names: Names,
    /// Where each entry stands in the text.
    pub positions: Vec<Position>,
}

impl Delivered {
    /// The different items that this one is linked to by a link, in their order.
    pub fn linked(&self, item: usize, link: Link) -> Vec<usize> {
        let to = self
            .entries
            .iter()
            .filter(|e| e.kind == LINKED && usize::from(e.owner) == item && e.name == link.0);
        let mut to: Vec<usize> = to.map(|e| e.number.into()).collect();
        to.sort_unstable();
        to.dedup();
        to
    }

    /// Whether an item has a property.
    pub fn has(&self, item: usize, property: Property) -> bool {
        self.entries
            .iter()
            .any(|e| e.kind == 1 && usize::from(e.owner) == item && e.name == property.0)
    }
}
