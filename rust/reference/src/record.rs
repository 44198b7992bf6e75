//! Finite records and fitting (F1 to F5). Records here may be of any size and
//! shape.

use std::collections::{BTreeMap, BTreeSet};

use crate::blocks::{word, Entry};
use crate::reading::MOST_DEPTH;
use crate::tree::{Link, Property};

/// Finitely many items, and which have which properties and links (F1).
///
/// Any such sets can be put in here, also those that break the rule on single
/// links or a list of excluding pairs; `keeps_the_rule` and `keeps_the_list`
/// tell.
///
/// The items are the numbers from 0 up to but not including `items`.
#[derive(Clone, Debug, Default, PartialEq, Eq)]
pub struct Record {
    /// The number of items.
    pub items: usize,
    /// For each property the set of items that have it.
    pub properties: BTreeMap<Property, BTreeSet<usize>>,
    /// For each link a set of ordered pairs.
    pub links: BTreeMap<Link, BTreeSet<(usize, usize)>>,
}

impl Record {
    /// A record of this many items without properties and links.
    pub fn of_items(items: usize) -> Record {
        Record {
            items,
            ..Record::default()
        }
    }

    /// Gives an item a property; an item that is not in the record is passed
    /// over.
    pub fn add_property(&mut self, property: Property, item: usize) {
        if item < self.items {
            self.properties.entry(property).or_default().insert(item);
        }
    }

    /// Links an item to an item; items that are not in the record are passed
    /// over.
    pub fn add_link(&mut self, link: Link, from: usize, to: usize) {
        if from < self.items && to < self.items {
            self.links.entry(link).or_default().insert((from, to));
        }
    }

    /// Whether the item has the property.
    pub fn has(&self, item: usize, property: Property) -> bool {
        self.properties
            .get(&property)
            .is_some_and(|items| items.contains(&item))
    }

    /// The rule on single links (S1): no item is linked to two items by a link
    /// that never leads to two.
    pub fn keeps_the_rule(&self) -> bool {
        self.links
            .keys()
            .filter(|link| link.is_single())
            .all(|&link| (0..self.items).all(|item| self.linked(item, link).count() <= 1))
    }

    /// Records keep the list (S8): no item has both properties of a pair in this
    /// list, four bytes a pair (S6).
    pub fn keeps_the_list(&self, pairs: &[u8]) -> bool {
        pairs.chunks_exact(4).all(|pair| {
            let (one, other) = (Property(word(pair, 0)), Property(word(pair, 2)));
            !(0..self.items).any(|item| self.has(item, one) && self.has(item, other))
        })
    }

    /// The different items that the item is linked to by the link.
    pub fn linked(&self, item: usize, link: Link) -> impl Iterator<Item = usize> + '_ {
        self.links
            .get(&link)
            .into_iter()
            .flat_map(move |pairs| pairs.range((item, 0)..=(item, usize::MAX)))
            .map(|&(_, to)| to)
    }
}

/// Whether the item fits the place of this owner in the description that has
/// these entries.
///
/// An item fits a place where it meets each entry of it (F5).
///
/// The entries are those of an accepted description. Entries whose owner is
/// not earlier, and entries deeper than 32 below the given owner, are not
/// looked at; an accepted description has none. No item meets an entry of kind
/// 9, for there is no dictionary.
pub fn fits(record: &Record, item: usize, entries: &[Entry], owner: u16) -> bool {
    fits_named(record, item, &[], entries, owner)
}

/// As `fits`, where the description may name those of this dictionary. Nothing
/// is unfolded here.
///
/// A named entry stands for the description of its name (D3): an item meets it
/// exactly if it fits the n-th description. No item meets an entry with a name
/// that the dictionary doesn't have, or that stands in the dictionary and is
/// not earlier (R13).
pub fn fits_named(
    record: &Record,
    item: usize,
    dictionary: &[Vec<Entry>],
    entries: &[Entry],
    owner: u16,
) -> bool {
    let named = fitting_items(record, dictionary);
    let question = Question {
        record,
        entries,
        named: &named,
    };
    question.fits_top_down(item, owner)
}

/// For each description of the dictionary the set of items that fit it.
///
/// Names go to earlier descriptions only (D4), so the sets of those before it
/// are all that is needed.
fn fitting_items(record: &Record, dictionary: &[Vec<Entry>]) -> Vec<BTreeSet<usize>> {
    let mut named: Vec<BTreeSet<usize>> = Vec::new();
    for entries in dictionary {
        let question = Question {
            record,
            entries,
            named: &named,
        };
        let items = (0..record.items).filter(|&item| question.fits_top_down(item, 0));
        let items = items.collect();
        named.push(items);
    }
    named
}

/// What items are asked to fit.
struct Question<'a> {
    /// The record that the items are in.
    record: &'a Record,
    /// The entries of the description.
    entries: &'a [Entry],
    /// For each description that may be named the set of items that fit it.
    named: &'a [BTreeSet<usize>],
}

impl Question<'_> {
    /// Whether the item fits the place of this owner, with all depths below it.
    fn fits_top_down(&self, item: usize, owner: u16) -> bool {
        self.fits_within(item, owner, MOST_DEPTH.saturating_add(1))
    }

    /// As `fits_top_down`, for this many further depths.
    fn fits_within(&self, item: usize, owner: u16, depths: usize) -> bool {
        let Some(depths) = depths.checked_sub(1) else {
            return true;
        };
        (1..=u16::MAX)
            .zip(self.entries)
            .filter(|&(number, entry)| entry.owner == owner && number > owner)
            .all(|(number, entry)| self.meets(item, number, entry, depths))
    }

    /// Whether the item meets the entry with this number.
    fn meets(&self, item: usize, number: u16, entry: &Entry, depths: usize) -> bool {
        let property = Property(entry.name);
        let link = Link(entry.name);
        // Different items are counted (F3).
        let count = || self.record.linked(item, link).count();
        match entry.kind {
            1 => self.record.has(item, property),
            2 => !self.record.has(item, property),
            3 => count() >= usize::from(entry.number),
            4 => count() <= usize::from(entry.number),
            // An 'every' is met where each linked item fits the place below (F4).
            5 => self
                .record
                .linked(item, link)
                .all(|to| self.fits_within(to, number, depths)),
            // It fits the description that is named.
            9 => self
                .items_named(entry.name)
                .is_some_and(|items| items.contains(&item)),
            _ => false,
        }
    }

    /// The items that fit the description of this name, if there is one.
    fn items_named(&self, name: u16) -> Option<&BTreeSet<usize>> {
        self.named.get(usize::from(name).checked_sub(1)?)
    }
}

/// The record of an accepted specimen, item by item; the top item is item 0.
///
/// The items of a specimen, their links and properties (F6) (F7) (F8).
///
/// The record has one pair for each two linked items, so this is for
/// specimens with small counts. Entries whose owner is not earlier or not a
/// group add nothing.
pub fn specimen_record(entries: &[Entry]) -> Record {
    let groups = items_of_groups(entries);
    let total = groups.iter().map(Vec::len).fold(0, usize::saturating_add);
    let mut record = Record::of_items(total);
    for (number, entry) in (1..).zip(entries) {
        let none = Vec::new();
        let owner = usize::from(entry.owner);
        let owner_items = if owner < number {
            groups.get(owner)
        } else {
            None
        };
        for &item in owner_items.unwrap_or(&none) {
            if entry.kind == 1 {
                record.add_property(Property(entry.name), item);
            }
            for &to in groups.get(number).unwrap_or(&none) {
                record.add_link(Link(entry.name), item, to);
            }
        }
    }
    record
}

/// The items of the top, then of each entry; entries other than groups have
/// none.
fn items_of_groups(entries: &[Entry]) -> Vec<Vec<usize>> {
    let mut groups = vec![vec![0]];
    let mut next: usize = 1;
    for entry in entries {
        let count = if entry.kind == 7 {
            usize::from(entry.number).saturating_add(1)
        } else {
            0
        };
        let end = next.saturating_add(count);
        groups.push((next..end).collect());
        next = end;
    }
    groups
}
