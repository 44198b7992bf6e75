//! Lists of services: descriptions that are laid end to end, of which a catalogue asks one by one.

use crate::blocks;
use crate::dictionary::{split, Part};
use crate::entry::Sort;
use crate::input::Input;
use crate::names::Names;

/// A list of services that the library does not refuse as a whole.
#[derive(Clone, Debug, Default)]
pub struct Services {
    /// The file's name without its folder, or "standard input".
    pub title: String,
    /// The services.
    pub parts: Vec<Part>,
    /// Their bytes, one after the other.
    pub bytes: Vec<u8>,
    /// The words: those given, and then those of the text itself.
    pub names: Names,
}

impl Services {
    /// The service of this number as an input, which the library has not seen yet; without bytes where there is none.
    pub fn draft(&self, number: usize) -> Input {
        let index = number.wrapping_sub(1);
        let bytes = split(&self.bytes).get(index).map(|bytes| bytes.to_vec());
        let bytes = bytes.unwrap_or_default();
        let entries = blocks::decode(&bytes);
        let part = self.parts.get(index);
        Input {
            title: self.title.clone(),
            sort: Sort::Description,
            sent: entries.len(),
            stored: None,
            entries,
            bytes,
            names: self.names.clone(),
            positions: part.map_or(Vec::new(), |part| part.positions.clone()),
            origins: Vec::new(),
        }
    }
}
