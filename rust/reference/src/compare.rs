//! The comparison and its specimen.

use std::collections::{BTreeMap, BTreeSet};

use crate::background::Background;
use crate::blocks::{length_in_blocks, write, Entry};
use crate::order::{in_order, Row};
use crate::pairs::Pairs;
use crate::refusal::Refusal;
use crate::rules::normal_place;
use crate::tree::{top_place, Fact, Link, Place, Property};

/// The answer of the comparison.
#[derive(Clone, Copy, Debug, PartialEq, Eq)]
pub enum Comparison {
    /// Every entry holds (C5).
    Contained,
    /// An entry fails: its number, and how many entries the specimen has (C6).
    NotContained {
        /// The number of the first entry of D that fails.
        entry: usize,
        /// The number of specimen entries.
        entries: usize,
    },
}

/// Compares C with D, with no excluding pairs and no named descriptions.
pub fn compare(c: &[u8], d: &[u8], out: &mut [u8]) -> Result<Comparison, Refusal> {
    compare_with(&[], &[], c, d, out)
}

/// Compares C with D, under a list of excluding pairs and with a dictionary
/// for both.
///
/// Input 1 is C, input 2 is D, the output is as long as both together (C1).
/// The output is as long as the two together: no more entries than C and D
/// together (C13).
///
/// Answers are about the records that keep the list, and the specimen keeps
/// it (S12) (S13). The specimen keeps it: no place of N has both of a pair,
/// and the property added for a failing lack has no partner there, or the
/// lack would be supported.
///
/// Answers and written bytes are those for the unfolded descriptions, by
/// which the output is measured (D8).
pub fn compare_with(
    pairs: &[u8],
    dict: &[u8],
    c: &[u8],
    d: &[u8],
    out: &mut [u8],
) -> Result<Comparison, Refusal> {
    let Background { pairs, dictionary } = Background::read(pairs, dict)?;
    let c_entries = dictionary.read_description(c, 1)?;
    let d_entries = dictionary.read_description(d, 2)?;
    if out.len() < length_in_blocks(&c_entries).saturating_add(length_in_blocks(&d_entries)) {
        return Err(Refusal::output_too_short());
    }
    // The normal form of C (C2).
    let n = normal_place(top_place(&c_entries), &pairs);
    let Some((number, e)) = first_that_fails(&n, &d_entries, &pairs) else {
        return Ok(Comparison::Contained);
    };
    let specimen = in_order(filled(Some(&n), Some(&way(&d_entries, &e)), &e));
    write(&specimen, out);
    Ok(Comparison::NotContained {
        entry: number,
        entries: specimen.len(),
    })
}

/// The first entry of D that fails, with its number.
pub(crate) fn first_that_fails(
    n: &Place,
    d_entries: &[Entry],
    pairs: &Pairs,
) -> Option<(usize, Entry)> {
    (1..)
        .zip(d_entries)
        .find(|(_, e)| !holds(n, &way(d_entries, e), e, pairs))
        .map(|(number, e)| (number, *e))
}

/// An entry stands at the links of its owners (C2).
fn way(entries: &[Entry], e: &Entry) -> Vec<Link> {
    let mut links = Vec::new();
    let mut owner = owner_of(entries, e);
    while let Some(entry) = owner {
        links.push(Link(entry.name));
        owner = owner_of(entries, entry);
    }
    links.reverse();
    links
}

/// The entry that owns e, or nothing at the top.
fn owner_of<'a>(entries: &'a [Entry], e: &Entry) -> Option<&'a Entry> {
    entries.get(usize::from(e.owner).checked_sub(1)?)
}

/// When an entry holds (C3).
fn holds(n: &Place, w: &[Link], e: &Entry, pairs: &Pairs) -> bool {
    n.facts.contains(&Fact::Nothing) || passes_at_most_0(n, w) || supports(place_at(n, w), e, pairs)
}

/// At most 0 of the next link on the way (C3).
fn passes_at_most_0(n: &Place, w: &[Link]) -> bool {
    let mut passed = Some(n);
    for &next in w {
        if passed.is_some_and(|place| place.facts.contains(&Fact::AtMost(next, 0))) {
            return true;
        }
        passed = passed.and_then(|place| place.below(next));
    }
    false
}

/// N's place W, or nothing if N has none.
fn place_at<'a>(n: &'a Place, w: &[Link]) -> Option<&'a Place> {
    w.iter().try_fold(n, |place, &link| place.below(link))
}

/// What supports an entry, kind by kind (C4). Of a link that never leads to
/// two items, at most 1 or more always holds (S3). A lack that a pair implies
/// is not listed in N, an implied lack is supported (S10).
fn supports(place: Option<&Place>, e: &Entry, pairs: &Pairs) -> bool {
    let facts = place.map_or(&[][..], |place| &place.facts);
    let link = Link(e.name);
    match e.kind {
        1 => facts.contains(&Fact::Has(Property(e.name))),
        2 => lacks(facts, Property(e.name), pairs),
        3 => {
            e.number == 0
                || facts
                    .iter()
                    .any(|fact| at_least(fact, link).is_some_and(|m| m >= e.number))
        }
        4 => {
            link.always_has_at_most(e.number)
                || facts
                    .iter()
                    .any(|fact| at_most(fact, link).is_some_and(|m| m <= e.number))
        }
        5 => true,
        _ => false,
    }
}

/// One property of a pair lacks the other (S10).
fn lacks(facts: &[Fact], property: Property, pairs: &Pairs) -> bool {
    let mut partners: Vec<Property> = pairs.partners(property).collect();
    partners.sort();
    facts.iter().any(|fact| match fact {
        Fact::Lacks(other) => *other == property,
        Fact::Has(other) => partners.binary_search(other).is_ok(),
        _ => false,
    })
}

/// The n of an at least of this link.
fn at_least(fact: &Fact, link: Link) -> Option<u16> {
    match *fact {
        Fact::AtLeast(of, n) if of == link => Some(n),
        _ => None,
    }
}

/// The n of an at most of this link.
fn at_most(fact: &Fact, link: Link) -> Option<u16> {
    match *fact {
        Fact::AtMost(of, n) if of == link => Some(n),
        _ => None,
    }
}

/// The rows of one place of the specimen.
///
/// `n` is N's place there, if N has one; `ahead` is what is still to go of W
/// if the place is passed on W or is W, and nothing if it is off W.
///
/// A count above 0 is a group, filled in the same way (C10).
fn filled(n: Option<&Place>, ahead: Option<&[Link]>, e: &Entry) -> Vec<Row> {
    let properties = properties_at(n, ahead, e).into_iter().map(has_row);
    let groups = counts_at(n, ahead, e)
        .into_iter()
        .filter(|&(_, count)| count > 0)
        .map(|(link, count)| {
            let below = n.and_then(|place| place.below(link));
            group_row(link, count, filled(below, ahead_by(ahead, link), e))
        });
    properties.chain(groups).collect()
}

fn has_row(property: Property) -> Row {
    Row {
        kind: 1,
        name: property.0,
        number: 0,
        owned: Vec::new(),
    }
}

/// The stored number is one less than its items (E3).
fn group_row(link: Link, count: u32, owned: Vec<Row>) -> Row {
    let number = u16::try_from(count.saturating_sub(1)).unwrap_or(u16::MAX);
    Row {
        kind: 7,
        name: link.0,
        number,
        owned,
    }
}

/// What is still to go of W after this link; nothing if the link leaves W.
fn ahead_by(ahead: Option<&[Link]>, link: Link) -> Option<&[Link]> {
    let (&next, rest) = ahead?.split_first()?;
    (next == link).then_some(rest)
}

/// The properties that N has there, and the one to be lacked (C11).
fn properties_at(n: Option<&Place>, ahead: Option<&[Link]>, e: &Entry) -> BTreeSet<Property> {
    let mut properties = BTreeSet::new();
    for fact in facts_of(n) {
        if let Fact::Has(property) = *fact {
            properties.insert(property);
        }
    }
    if is_w(ahead) && e.kind == 2 {
        properties.insert(Property(e.name));
    }
    properties
}

/// The largest of what N asks for, 1 on the way, and one more than the at
/// most that is to fail (C10).
///
/// By a link that never leads to two items the count is at most 1: N has no
/// at least 2 of it, and of its at most only at most 0 can fail.
fn counts_at(n: Option<&Place>, ahead: Option<&[Link]>, e: &Entry) -> BTreeMap<Link, u32> {
    let mut counts = BTreeMap::new();
    for fact in facts_of(n) {
        if let Fact::AtLeast(link, n) = *fact {
            raise(&mut counts, link, u32::from(n));
        }
    }
    if let Some(&next) = ahead.and_then(<[Link]>::first) {
        raise(&mut counts, next, 1);
    }
    if is_w(ahead) && e.kind == 4 {
        raise(
            &mut counts,
            Link(e.name),
            u32::from(e.number).saturating_add(1),
        );
    }
    counts
}

/// Makes the count for a link at least this much.
fn raise(counts: &mut BTreeMap<Link, u32>, link: Link, least: u32) {
    let count = counts.entry(link).or_insert(0);
    *count = least.max(*count);
}

fn facts_of(n: Option<&Place>) -> &[Fact] {
    n.map_or(&[], |place| &place.facts)
}

/// Whether a place is W: it is on W and nothing of W is still to go.
fn is_w(ahead: Option<&[Link]>) -> bool {
    ahead.is_some_and(<[Link]>::is_empty)
}
