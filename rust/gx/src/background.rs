//! What all answers of a run are about: the properties that exclude each other, and the descriptions that have names.

use goltximen::Under;

use crate::dictionary::Dictionary;
use crate::names::Names;
use crate::pairs::List;

/// A list and a dictionary; the default has no pairs and no descriptions.
#[derive(Clone, Debug, Default)]
pub struct Background {
    /// The properties that exclude each other.
    pub list: List,
    /// The named descriptions.
    pub dictionary: Dictionary,
    /// The words of both.
    pub names: Names,
}

impl Background {
    /// Both as a call of the library takes them.
    pub fn under(&self) -> Under<'_> {
        Under {
            pairs: &self.list.bytes,
            dictionary: &self.dictionary.bytes,
        }
    }
}
