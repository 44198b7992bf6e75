//! A description as a tree of places.

use crate::blocks::Entry;

/// A property. Properties and links are numbered apart (E6).
#[derive(Clone, Copy, Debug, PartialEq, Eq, PartialOrd, Ord)]
pub struct Property(pub u16);

/// A link.
#[derive(Clone, Copy, Debug, PartialEq, Eq, PartialOrd, Ord)]
pub struct Link(pub u16);

/// Links from 32,768 up are single (S1).
const FIRST_SINGLE: u16 = 32_768;

impl Link {
    /// Whether the link is one of those that lead to one item at most (S1).
    pub fn is_single(self) -> bool {
        self.0 >= FIRST_SINGLE
    }

    /// The most items that this link leads to in a record that keeps the
    /// rule, or nothing if there is no such bound.
    pub(crate) fn cap(self) -> Option<u16> {
        self.is_single().then_some(1)
    }

    /// Whether at most n of this link is always met (S3).
    pub(crate) fn always_has_at_most(self, n: u16) -> bool {
        self.cap().is_some_and(|cap| cap <= n)
    }
}

/// An entry of kind 1, 2, 3, 4 or 6.
#[derive(Clone, Copy, Debug, PartialEq, Eq)]
pub(crate) enum Fact {
    /// Kind 1: has (E3).
    Has(Property),
    /// Kind 2: lacks (E3).
    Lacks(Property),
    /// Kind 3: at least n (E3).
    AtLeast(Link, u16),
    /// Kind 4: at most n (E3).
    AtMost(Link, u16),
    /// Kind 6: nothing fits (E3).
    Nothing,
}

/// An entry of kind 5: every item by the link fits what the entry owns (E3).
#[derive(Clone, Debug, PartialEq, Eq)]
pub(crate) struct Every {
    pub(crate) link: Link,
    pub(crate) place: Place,
}

/// The entries of one owner are a place (E8).
#[derive(Clone, Debug, Default, PartialEq, Eq)]
pub(crate) struct Place {
    pub(crate) facts: Vec<Fact>,
    pub(crate) every: Vec<Every>,
}

impl Place {
    /// Whether the place has no entry.
    pub(crate) fn is_empty(&self) -> bool {
        self.facts.is_empty() && self.every.is_empty()
    }

    /// The place owned by the first 'every' of this link, if there is one.
    pub(crate) fn below(&self, link: Link) -> Option<&Place> {
        let every = self.every.iter().find(|every| every.link == link)?;
        Some(&every.place)
    }
}

/// The top place of an accepted description.
pub(crate) fn top_place(entries: &[Entry]) -> Place {
    place_of(entries, 0)
}

/// The place of one owner. In an accepted description each owner is earlier
/// than what it owns, so this ends.
fn place_of(entries: &[Entry], owner: usize) -> Place {
    let mut place = Place::default();
    for (number, entry) in (1..).zip(entries) {
        if usize::from(entry.owner) != owner {
            continue;
        }
        match fact_of(entry) {
            Some(fact) => place.facts.push(fact),
            None => place.every.push(Every {
                link: Link(entry.name),
                place: place_of(entries, number),
            }),
        }
    }
    place
}

/// The fact of an accepted entry, or nothing if it is of kind 5.
fn fact_of(entry: &Entry) -> Option<Fact> {
    match entry.kind {
        1 => Some(Fact::Has(Property(entry.name))),
        2 => Some(Fact::Lacks(Property(entry.name))),
        3 => Some(Fact::AtLeast(Link(entry.name), entry.number)),
        4 => Some(Fact::AtMost(Link(entry.name), entry.number)),
        6 => Some(Fact::Nothing),
        _ => None,
    }
}
