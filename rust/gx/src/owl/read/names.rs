//! Properties and links by their IRIs, by their labels, and by the words of the names file.

use super::{Mistake, Reader};
use crate::entry::{Link, Property};
use crate::names::Names;
use crate::owl::SPACE;
use crate::shown::turns;
use crate::text::Position;

impl Reader<'_> {
    pub(super) fn link(&mut self) -> Result<Link, Mistake> {
        let Some(iri) = self.iri(&self.next().sign) else {
            return self.fault("an object property by its name");
        };
        let Some(link) = self.link_of(&iri) else {
            return self.fault(format!(
                "link_1 to link_65535 of <{SPACE}>, or a link's word in the names file"
            ));
        };
        self.take();
        Ok(link)
    }

    /// The link of an IRI, by its number or by its word.
    pub(super) fn link_of(&self, iri: &str) -> Option<Link> {
        let number = numbered(iri, "link_").map(Link);
        number.or_else(|| self.called(iri, |names, word| names.link_called(word)))
    }

    /// The property of an IRI, by its number or by its word.
    pub(super) fn property_of(&self, iri: &str) -> Option<Property> {
        let number = numbered(iri, "property_").map(Property);
        number.or_else(|| self.called(iri, |names, word| names.property_called(word)))
    }

    pub(super) fn property(&self, iri: &str) -> Result<Property, Mistake> {
        self.property_of(iri).map_or_else(
            || self.fault(format!("property_1 to property_65535 of <{SPACE}>, or a property's word in the names file")),
            Ok,
        )
    }

    /// What the names file calls by the label or the local name of an IRI.
    pub(super) fn called<T>(
        &self,
        iri: &str,
        find: impl Fn(&Names, &str) -> Option<T>,
    ) -> Option<T> {
        let label = self
            .labels
            .get(iri)
            .and_then(|label| find(self.names, label));
        let local = local(iri);
        label
            .or_else(|| find(self.names, local))
            .or_else(|| find(self.names, &local.replace('_', " ")))
    }

    /// The words that labels give to properties and links by number.
    pub(super) fn words(&self) -> Names {
        let mut words = Names::default();
        for (iri, label) in &self.labels {
            if label.trim() != label
                || label.is_empty()
                || label.contains(|sign: char| sign.is_control() || turns(sign))
            {
                continue;
            }
            let link = numbered(iri, "link_").map(Link);
            let property = numbered(iri, "property_").map(Property);
            // A label that stands for two things is no word for either; the numbers are shown then.
            let _ = link.map(|link| words.name_link(link, label, Position::default(), self.names));
            let _ = property.map(|property| {
                words.name_property(property, label, Position::default(), self.names)
            });
        }
        words
    }
}

/// The last part of an IRI.
pub(super) fn local(iri: &str) -> &str {
    iri.rsplit(['#', '/']).next().unwrap_or(iri)
}

/// The number at the end of one of our own names.
pub(super) fn numbered(iri: &str, begin: &str) -> Option<u16> {
    let digits = iri.strip_prefix(SPACE)?.strip_prefix(begin)?;
    digits.parse().ok().filter(|&number: &u16| number > 0)
}
