//! The narrowest description for two suppliers.

use std::collections::BTreeSet;

use crate::background::Background;
use crate::blocks::{length_in_blocks, write, Entry, BLOCK_BYTES};
use crate::normal::entries_of;
use crate::pairs::Pairs;
use crate::reading::{MOST_DESCRIPTION_BLOCKS, MOST_ENTRIES};
use crate::refusal::{Refusal, LENGTH};
use crate::rules::{largest_at_least, normal_place, smallest_at_most};
use crate::tree::{top_place, Every, Fact, Link, Place, Property};

/// Writes the narrowest description that contains each of two, in normal form,
/// and answers its number of entries. Later bytes of the output stay.
///
/// Under a list of excluding pairs and with a dictionary for both. Refused are,
/// in this order, the pairs (11), the dictionary, input 1, input 2, more than
/// 16 blocks together (1, at input 2), and an output shorter than both or than
/// what is to be written, or a result of more than 1,008 entries (7). All
/// lengths are those of the unfolded descriptions.
pub fn narrowest(
    pairs: &[u8],
    dict: &[u8],
    a: &[u8],
    b: &[u8],
    out: &mut [u8],
) -> Result<usize, Refusal> {
    let Background { pairs, dictionary } = Background::read(pairs, dict)?;
    let a = dictionary.read_description(a, 1)?;
    let b = dictionary.read_description(b, 2)?;
    let length = length_together(&a, &b)?;
    let normal = |entries: &[Entry]| normal_place(top_place(entries), &pairs);
    let joined = joined_tops(normal(&a), normal(&b), &pairs);
    // What is implied after all, or empty, goes as in each normal form.
    let narrowest = entries_of(&normal_place(joined, &pairs));
    let needed = length.max(length_in_blocks(&narrowest));
    if narrowest.len() > MOST_ENTRIES || out.len() < needed {
        return Err(Refusal::output_too_short());
    }
    write(&narrowest, out);
    Ok(narrowest.len())
}

/// The number of bytes of two descriptions in blocks, or the refusal of the
/// second if they have more than 16 blocks together.
///
/// Two that are longer could have a result that no description can hold.
pub(crate) fn length_together(first: &[Entry], second: &[Entry]) -> Result<usize, Refusal> {
    let length = length_in_blocks(first).saturating_add(length_in_blocks(second));
    if length / BLOCK_BYTES > MOST_DESCRIPTION_BLOCKS {
        return Err(Refusal::at(LENGTH, 2, 0));
    }
    Ok(length)
}

/// The narrowest of two normal forms: where one is impossible, it is the other.
///
/// Only the top of a normal form can be impossible, so this is asked here and
/// not at the places below.
fn joined_tops(a: Place, b: Place, pairs: &Pairs) -> Place {
    if a.facts.contains(&Fact::Nothing) {
        b
    } else if b.facts.contains(&Fact::Nothing) {
        a
    } else {
        joined(&a, &b, pairs)
    }
}

/// What two places of normal forms, neither impossible, have in common.
fn joined(a: &Place, b: &Place, pairs: &Pairs) -> Place {
    let properties = common_properties(a, b).chain(common_lacks(a, b, pairs));
    let counts = smaller_at_least(a, b).chain(larger_at_most(a, b));
    Place {
        facts: properties.chain(counts).collect(),
        every: common_every(a, b, pairs),
    }
}

fn common_properties<'a>(a: &'a Place, b: &'a Place) -> impl Iterator<Item = Fact> + 'a {
    let had = |fact: &&Fact| matches!(fact, Fact::Has(_)) && b.facts.contains(fact);
    a.facts.iter().filter(had).copied()
}

/// The lacks that each side lists or implies.
fn common_lacks(a: &Place, b: &Place, pairs: &Pairs) -> impl Iterator<Item = Fact> {
    let (a, b) = (lacks_of(a, pairs), lacks_of(b, pairs));
    let common: Vec<Property> = a.intersection(&b).copied().collect();
    common.into_iter().map(Fact::Lacks)
}

/// The properties that each item of the place lacks: those listed, and those
/// that exclude one that it has.
fn lacks_of(place: &Place, pairs: &Pairs) -> BTreeSet<Property> {
    let mut lacks = BTreeSet::new();
    for fact in &place.facts {
        match *fact {
            Fact::Lacks(property) => lacks.extend([property]),
            Fact::Has(property) => lacks.extend(pairs.partners(property)),
            _ => (),
        }
    }
    lacks
}

/// For each link of which both have an at least, the smaller.
fn smaller_at_least(a: &Place, b: &Place) -> impl Iterator<Item = Fact> {
    let b = largest_at_least(b);
    largest_at_least(a)
        .into_iter()
        .filter_map(move |(link, n)| Some(Fact::AtLeast(link, n.min(*b.get(&link)?))))
}

/// For each link of which both have an at most, the larger.
fn larger_at_most(a: &Place, b: &Place) -> impl Iterator<Item = Fact> {
    let b = smallest_at_most(b);
    smallest_at_most(a)
        .into_iter()
        .filter_map(move |(link, n)| Some(Fact::AtMost(link, n.max(*b.get(&link)?))))
}

/// The places below, for each link that one side has one of.
fn common_every(a: &Place, b: &Place, pairs: &Pairs) -> Vec<Every> {
    let every = a.every.iter().chain(&b.every);
    let links: BTreeSet<Link> = every.map(|every| every.link).collect();
    links
        .into_iter()
        .filter_map(|link| {
            let place = place_below(a, b, link, pairs)?;
            Some(Every { link, place })
        })
        .collect()
}

/// What each item by this link fits on either side. A side with at most 0 of
/// the link has no such items, so the other's place is used whole.
fn place_below(a: &Place, b: &Place, link: Link, pairs: &Pairs) -> Option<Place> {
    let none = Fact::AtMost(link, 0);
    if a.facts.contains(&none) {
        b.below(link).cloned()
    } else if b.facts.contains(&none) {
        a.below(link).cloned()
    } else {
        Some(joined(a.below(link)?, b.below(link)?, pairs))
    }
}
