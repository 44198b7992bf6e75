//! The words of properties and links, and of the descriptions of a dictionary.
//!
//! A names file has a line for each: `property 7 "sealed"`, `link 1 "sample"`, `description 3 "sealed core"`. A second word after a
//! link's is its plural: `link 1 "sample" "samples"`. Words without quotes go on to the end of the line.
//!
//! Texts give words too. Two words of one number, or one word of two, never go together, wherever they stand; but of a number that
//! the names file has its word is shown, and the answer tells which other one was sent.

mod book;
mod read;
mod told;

use std::rc::Rc;

use crate::entry::{Link, Named, Property};
use crate::text::Position;
use book::Book;

pub use book::{Clash, Conflict, Place, Said};
pub use told::{clashing, settled_json};

/// The words of properties, links and descriptions. The three are kept apart.
#[derive(Clone, Debug, Default, PartialEq, Eq)]
pub struct Names {
    properties: Book,
    links: Book,
    descriptions: Book,
    settled: Vec<Conflict>,
}

impl Names {
    /// The word of a property.
    pub fn property(&self, property: Property) -> Option<&str> {
        self.properties.word(property.0, 1)
    }

    /// The word for one item by a link.
    pub fn link(&self, link: Link) -> Option<&str> {
        self.links.word(link.0, 1)
    }

    /// The word for so many items by a link.
    pub fn links(&self, link: Link, count: u32) -> Option<&str> {
        self.links.word(link.0, count)
    }

    /// The word of a description.
    pub fn description(&self, named: Named) -> Option<&str> {
        self.descriptions.word(named.0, 1)
    }

    /// The description that a word stands for.
    pub fn description_called(&self, word: &str) -> Option<Named> {
        self.descriptions.number(word).map(Named)
    }

    /// The property that a word stands for.
    pub fn property_called(&self, word: &str) -> Option<Property> {
        self.properties.number(word).map(Property)
    }

    /// The link that a word stands for.
    pub fn link_called(&self, word: &str) -> Option<Link> {
        self.links.number(word).map(Link)
    }

    /// Whether there is no word.
    pub fn is_empty(&self) -> bool {
        [&self.properties, &self.links, &self.descriptions]
            .iter()
            .all(|book| book.all().next().is_none())
    }

    /// All words of properties, links or descriptions.
    pub fn all(&self, of: &str) -> Vec<&str> {
        let book = match of {
            "property" => &self.properties,
            "link" => &self.links,
            _ => &self.descriptions,
        };
        book.all().collect()
    }

    /// The words of inputs in place of which those of the names file are shown.
    pub fn settled(&self) -> &[Conflict] {
        &self.settled
    }

    /// Gives a property its word at a place of a text, if these names and the others allow it.
    ///
    /// # Errors
    ///
    /// Where one of the two is taken.
    pub fn name_property(
        &mut self,
        of: Property,
        word: &str,
        at: Position,
        others: &Names,
    ) -> Result<(), Clash> {
        others.properties.allow(of.0, word)?;
        self.properties
            .add(of.0, word, None, Place::here(at, false))
    }

    /// Gives a link its word at a place of a text, if these names and the others allow it. A plural that the others know is one.
    ///
    /// # Errors
    ///
    /// Where one of the two is taken.
    pub fn name_link(
        &mut self,
        of: Link,
        word: &str,
        at: Position,
        others: &Names,
    ) -> Result<(), Clash> {
        others.links.allow(of.0, word)?;
        match others.link_called(word) == Some(of) {
            true => Ok(()),
            false => self.links.add(of.0, word, None, Place::here(at, false)),
        }
    }

    /// Gives a description its word at a place of a text, if these names and the others allow it.
    ///
    /// # Errors
    ///
    /// Where one of the two is taken.
    pub fn name_description(
        &mut self,
        of: Named,
        word: &str,
        at: Position,
        others: &Names,
    ) -> Result<(), Clash> {
        others.descriptions.allow(of.0, word)?;
        self.descriptions
            .add(of.0, word, None, Place::here(at, false))
    }

    /// The same words, of a file with this text.
    pub fn placed(mut self, file: &str, text: &str) -> Names {
        let (file, text): (Rc<str>, Rc<str>) = (file.into(), text.into());
        for book in [
            &mut self.properties,
            &mut self.links,
            &mut self.descriptions,
        ] {
            book.placed(&file, &text);
        }
        self
    }

    /// Takes over the words of others.
    ///
    /// # Errors
    ///
    /// Two words of one number, or one of two.
    pub fn join(&mut self, other: &Names) -> Result<(), Box<Conflict>> {
        let settled = &mut self.settled;
        self.properties
            .join("property", &other.properties, settled)?;
        self.links.join("link", &other.links, settled)?;
        self.descriptions
            .join("description", &other.descriptions, settled)?;
        for told in &other.settled {
            if !settled.contains(told) {
                settled.push(told.clone());
            }
        }
        Ok(())
    }

    /// Takes over the words of descriptions alone.
    ///
    /// # Errors
    ///
    /// As for all words.
    pub fn join_descriptions(&mut self, other: &Names) -> Result<(), Box<Conflict>> {
        let settled = &mut self.settled;
        self.descriptions
            .join("description", &other.descriptions, settled)
    }
}
