//! Delivered records: which of their items fit a description.

use std::collections::BTreeSet;

use crate::background::Background;
use crate::blocks::{check_blocks, check_length, decode, Entry, OWNING};
use crate::reading::MOST_SPECIMEN_BLOCKS;
use crate::record::Record;
use crate::refusal::{Refusal, ENTRY, ITEM, SECOND_ITEM};
use crate::tree::{top_place, Fact, Link, Place, Property};

/// The most items of a delivered record.
const MOST_ITEMS: usize = 256;

/// The kind of an entry that gives its owner a property.
const HAS: u8 = 1;
/// The kind of an entry that links its owner to the item in its number field.
const LINKED: u8 = 8;

/// Fills one byte for each item of a delivered record, 1 exactly where the item
/// fits the description, and answers the number of bytes filled. Later bytes
/// stay.
///
/// The items are 1 to the total; the record is input 1 and the description
/// input 2. Refused are, in this order, the pairs (11), the dictionary, the
/// total (10), the rest of input 1, input 2, and fewer bytes than items (7).
pub fn fit_all(
    pairs: &[u8],
    dict: &[u8],
    total: usize,
    record: &[u8],
    description: &[u8],
    out: &mut [u8],
) -> Result<usize, Refusal> {
    let background = Background::read(pairs, dict)?;
    let delivered = read_delivered(total, record)?;
    background.pairs.check_items(&delivered, 1)?;
    let description = background.dictionary.read_description(description, 2)?;
    let Some(answers) = out.get_mut(..total) else {
        return Err(Refusal::output_too_short());
    };
    let fitting = fitting(&record_of(total, &delivered), &top_place(&description));
    for (item, answer) in answers.iter_mut().enumerate() {
        *answer = u8::from(fitting.contains(&item));
    }
    Ok(total)
}

/// The entries of an accepted delivered record, or its refusal.
///
/// An owner here is an item and not an entry, so what is checked of owners and
/// depths elsewhere has no meaning.
fn read_delivered(total: usize, bytes: &[u8]) -> Result<Vec<Entry>, Refusal> {
    if !(1..=MOST_ITEMS).contains(&total) {
        return Err(Refusal::at(ITEM, 1, 0));
    }
    check_length(bytes, MOST_SPECIMEN_BLOCKS, 1)?;
    check_blocks(bytes, OWNING, 1)?;
    let entries = decode(bytes);
    for (index, entry) in entries.iter().enumerate() {
        let earlier = entries.get(..index).unwrap_or(&[]);
        if let Some(number) = refused(entry, earlier, total) {
            return Err(Refusal::at(number, 1, index.saturating_add(1)));
        }
    }
    Ok(entries)
}

/// The number by which this entry is refused, if it is.
fn refused(entry: &Entry, earlier: &[Entry], total: usize) -> Option<u8> {
    if entry.zero != 0 || !within_table(entry) {
        Some(ENTRY)
    } else if !names_items(entry, total) {
        Some(ITEM)
    } else if earlier.iter().any(|other| leads_to_two(entry, other)) {
        Some(SECOND_ITEM)
    } else {
        None
    }
}

fn within_table(entry: &Entry) -> bool {
    match entry.kind {
        HAS => entry.name != 0 && entry.number == 0,
        LINKED => entry.name != 0,
        _ => false,
    }
}

/// Whether each item that the entry names is one of the record.
fn names_items(entry: &Entry, total: usize) -> bool {
    let is_item = |item: u16| (1..=total).contains(&usize::from(item));
    is_item(entry.owner) && (entry.kind != LINKED || is_item(entry.number))
}

/// Whether the two entries link one item to two by a link that never leads to
/// two. A pair given twice counts once.
fn leads_to_two(entry: &Entry, other: &Entry) -> bool {
    let of = |e: &Entry| (e.kind, e.owner, e.name);
    entry.kind == LINKED
        && Link(entry.name).is_single()
        && of(entry) == of(other)
        && entry.number != other.number
}

/// The record of these entries; item n is its item n - 1.
fn record_of(total: usize, entries: &[Entry]) -> Record {
    let mut record = Record::of_items(total);
    let index = |item: u16| usize::from(item.saturating_sub(1));
    for entry in entries {
        if entry.kind == HAS {
            record.add_property(Property(entry.name), index(entry.owner));
        } else {
            record.add_link(Link(entry.name), index(entry.owner), index(entry.number));
        }
    }
    record
}

/// The items that fit the place.
///
/// This goes down the places and not along the links: links can go round, and
/// the ways along them are far more than the places.
fn fitting(record: &Record, place: &Place) -> BTreeSet<usize> {
    let mut items: BTreeSet<usize> = (0..record.items).collect();
    for fact in &place.facts {
        items.retain(|&item| meets(record, item, fact));
    }
    for every in &place.every {
        let below = fitting(record, &every.place);
        items.retain(|&item| {
            let mut linked = record.linked(item, every.link);
            linked.all(|to| below.contains(&to))
        });
    }
    items
}

/// Whether the item meets a fact. Different items are counted, however often
/// each of them is given.
fn meets(record: &Record, item: usize, fact: &Fact) -> bool {
    let count = |link| record.linked(item, link).count();
    match *fact {
        Fact::Has(property) => record.has(item, property),
        Fact::Lacks(property) => !record.has(item, property),
        Fact::AtLeast(link, n) => count(link) >= usize::from(n),
        Fact::AtMost(link, n) => count(link) <= usize::from(n),
        Fact::Nothing => false,
    }
}
