//! An input: a file or standard input, blocks or text, read by the library.

mod accepted;
mod files;
mod form;
mod reading;

use std::path::Path;

use crate::dictionary::{Dictionary, Origin};
use crate::entry::{Entry, Sort};
use crate::library;
use crate::names::Names;
use crate::text::Position;
use crate::trouble::{Refused, Trouble};

pub use accepted::{
    accepted, accepted_dictionary, accepted_list, accepted_record, accepted_services, keeping,
    unstored,
};
pub use files::{
    all_mistaken, bytes_of, files_of, mistaken, named, names_of, text_of, title, unreadable, why,
    Listed,
};
pub use form::Form;
pub use reading::Reading;

/// An input that the library accepts.
#[derive(Clone, Debug)]
pub struct Input {
    /// The file's name without its folder, or "standard input".
    pub title: String,
    /// The sort it was read as.
    pub sort: Sort,
    /// The entries; of a description that is asked about, those that it has once unfolded.
    pub entries: Vec<Entry>,
    /// The blocks, as they were sent.
    pub bytes: Vec<u8>,
    /// The words: those given, and then those of the text itself.
    pub names: Names,
    /// Where each entry stands in the text, if the input is one. What was put in for a named entry stands where that does.
    pub positions: Vec<Position>,
    /// Where each entry comes from, if named ones were unfolded.
    pub origins: Vec<Origin>,
    /// The number of entries as they were sent.
    pub sent: usize,
    /// How many blocks of the stored form they were sent in, where they were.
    pub stored: Option<usize>,
}

impl Input {
    /// The description once unfolded, with the words of the dictionary. Its bytes stay as they were sent.
    ///
    /// # Errors
    ///
    /// The library's refusal, which an accepted description does not meet.
    pub fn unfolded(mut self, dictionary: &Dictionary) -> Result<Input, library::Refusal> {
        if self.entries.iter().all(|e| e.says().named().is_none()) {
            return Ok(self);
        }
        let plain = library::unfold(&dictionary.bytes, &self.bytes)?;
        let plain = library::entries(&plain);
        self.origins = dictionary.origins(&self.entries, &plain);
        let place = |origin: &Origin| self.positions.get(origin.sent.wrapping_sub(1));
        self.positions = self.origins.iter().filter_map(place).copied().collect();
        self.entries = plain;
        Ok(self)
    }

    /// Whether these are not the entries as they were sent, since named ones were unfolded.
    pub fn is_unfolded(&self) -> bool {
        !self.origins.is_empty() || self.sent != self.entries.len()
    }

    /// Where an entry comes from, if it was put in for a named one.
    pub fn origin(&self, entry: usize) -> Option<&Origin> {
        let origin = self.origins.get(entry.checked_sub(1)?)?;
        Some(origin).filter(|origin| !origin.within.is_empty())
    }

    /// The line of the text on which an entry stands, if the input is a text.
    pub fn line_of(&self, entry: usize) -> Option<usize> {
        let at = self.positions.get(entry.checked_sub(1)?)?;
        Some(at.line)
    }
}

/// The trouble that a refusal of accepted inputs would be; the library is proved to have none.
pub fn not_refused(path: &Path, refusal: library::Refusal) -> Trouble {
    Refused::new(named(path), refusal, refusal.to_string()).into()
}
