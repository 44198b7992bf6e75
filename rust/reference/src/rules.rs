//! The rules of the normal form.

use std::collections::{BTreeMap, BTreeSet};

use crate::normal::row_of_fact;
use crate::pairs::Pairs;
use crate::tree::{Every, Fact, Link, Place, Property};

#[cfg(test)]
mod tests;

/// A rule at one place; it says whether it changed anything.
type Rule = fn(&mut Place, &Pairs) -> bool;

/// The rules that come with what records keep: N12 and N11.
const SINGLE_LINKS: u8 = 10;
const EXCLUDING_PAIRS: u8 = 11;

/// The rules that apply at any place, by their numbers; 0 for N10, equal
/// entries.
const RULES: [(u8, Rule); 11] = [
    (1, |place, _| merge_every(place)),
    (2, remove_contradictions),
    (3, |place, _| remove_overcounts(place)),
    (4, |place, _| drop_every_of_at_most_0(place)),
    (6, |place, _| keep_smallest_at_most(place)),
    (7, |place, _| keep_largest_at_least(place)),
    (8, |place, _| drop_at_least_0(place)),
    (9, |place, _| drop_empty_every(place)),
    (0, |place, _| join_equal(place)),
    (SINGLE_LINKS, |place, _| drop_at_most_always_met(place)),
    (EXCLUDING_PAIRS, drop_implied_lacks),
];

/// The normal form of a description given by its top place: the rules are
/// applied until none changes anything.
pub(crate) fn normal_place(mut top: Place, pairs: &Pairs) -> Place {
    while apply_all(&mut top, pairs) {}
    top
}

/// Applies each rule at each place, and rule 5 at the top.
fn apply_all(top: &mut Place, pairs: &Pairs) -> bool {
    let below = RULES.iter().fold(false, |changed, &(_, rule)| {
        apply_everywhere(top, rule, pairs) || changed
    });
    replace_impossible_top(top, pairs) || below
}

/// Applies one rule at this place and at all places below it.
fn apply_everywhere(place: &mut Place, rule: Rule, pairs: &Pairs) -> bool {
    let mut changed = rule(place, pairs);
    for every in &mut place.every {
        changed = apply_everywhere(&mut every.place, rule, pairs) || changed;
    }
    changed
}

/// 'every' entries of one owner and link merge (N1).
fn merge_every(place: &mut Place) -> bool {
    let before = place.every.len();
    let mut merged: BTreeMap<Link, Place> = BTreeMap::new();
    for every in std::mem::take(&mut place.every) {
        let joined = merged.entry(every.link).or_default();
        joined.facts.extend(every.place.facts);
        joined.every.extend(every.place.every);
    }
    place.every = merged
        .into_iter()
        .map(|(link, place)| Every { link, place })
        .collect();
    place.every.len() != before
}

/// An impossible place goes with all below, and its owner's place gains at
/// most 0 of the link (N2).
fn remove_contradictions(place: &mut Place, pairs: &Pairs) -> bool {
    remove_every_where(place, |below| contradicts(below, pairs))
}

/// A place that asks for more than it allows goes likewise (N3).
fn remove_overcounts(place: &mut Place) -> bool {
    remove_every_where(place, overcounts)
}

/// Removes each 'every' whose place is impossible; the place gains at most 0
/// of its link.
fn remove_every_where(place: &mut Place, impossible: impl Fn(&Place) -> bool) -> bool {
    let (gone, kept): (Vec<Every>, Vec<Every>) = std::mem::take(&mut place.every)
        .into_iter()
        .partition(|every| impossible(&every.place));
    place.every = kept;
    let gained = gone.iter().map(|every| Fact::AtMost(every.link, 0));
    place.facts.extend(gained);
    !gone.is_empty()
}

/// Has and lacks of one property, or nothing fits (N2); and of an excluding
/// pair both properties of a pair (S9)
fn contradicts(place: &Place, pairs: &Pairs) -> bool {
    let had = properties_had(place);
    place.facts.iter().any(|fact| match *fact {
        Fact::Has(property) => has_a_partner(&had, property, pairs),
        Fact::Lacks(property) => had.contains(&property),
        Fact::Nothing => true,
        _ => false,
    })
}

/// The properties that the place lists with has.
fn properties_had(place: &Place) -> BTreeSet<Property> {
    place
        .facts
        .iter()
        .filter_map(|fact| match *fact {
            Fact::Has(property) => Some(property),
            _ => None,
        })
        .collect()
}

/// Whether one of the properties had excludes this one: one property of a
/// pair lacks the other (S10).
fn has_a_partner(had: &BTreeSet<Property>, property: Property, pairs: &Pairs) -> bool {
    pairs.partners(property).any(|other| had.contains(&other))
}

/// More is asked than allowed (N3); and where at least n asks for more than
/// the link can lead to: at least 2 of a single link (S2)
fn overcounts(place: &Place) -> bool {
    let smallest = smallest_at_most(place);
    place.facts.iter().any(|fact| match fact {
        Fact::AtLeast(link, n) => {
            smallest.get(link).is_some_and(|m| m < n) || link.cap().is_some_and(|cap| cap < *n)
        }
        _ => false,
    })
}

/// For each link with an at most, the smallest.
pub(crate) fn smallest_at_most(place: &Place) -> BTreeMap<Link, u16> {
    let mut smallest: BTreeMap<Link, u16> = BTreeMap::new();
    for fact in &place.facts {
        if let Fact::AtMost(link, n) = *fact {
            let least = smallest.entry(link).or_insert(n);
            *least = n.min(*least);
        }
    }
    smallest
}

/// For each link with an at least, the largest.
pub(crate) fn largest_at_least(place: &Place) -> BTreeMap<Link, u16> {
    let mut largest: BTreeMap<Link, u16> = BTreeMap::new();
    for fact in &place.facts {
        if let Fact::AtLeast(link, n) = *fact {
            let most = largest.entry(link).or_insert(n);
            *most = n.max(*most);
        }
    }
    largest
}

/// At most 0 removes the 'every' of its link (N4).
fn drop_every_of_at_most_0(place: &mut Place) -> bool {
    let before = place.every.len();
    let smallest = smallest_at_most(place);
    place
        .every
        .retain(|every| smallest.get(&every.link) != Some(&0));
    place.every.len() != before
}

/// An impossible top becomes one entry of kind 6, which stays (N5).
fn replace_impossible_top(top: &mut Place, pairs: &Pairs) -> bool {
    let alone = top.every.is_empty() && top.facts == [Fact::Nothing];
    if alone || !(contradicts(top, pairs) || overcounts(top)) {
        return false;
    }
    *top = Place {
        facts: vec![Fact::Nothing],
        every: Vec::new(),
    };
    true
}

/// The smallest at most stays (N6).
fn keep_smallest_at_most(place: &mut Place) -> bool {
    let before = place.facts.len();
    let smallest = smallest_at_most(place);
    place.facts.retain(|fact| !matches!(fact, Fact::AtMost(..)));
    let kept = smallest.into_iter().map(|(link, n)| Fact::AtMost(link, n));
    place.facts.extend(kept);
    place.facts.len() != before
}

/// The largest at least stays (N7).
fn keep_largest_at_least(place: &mut Place) -> bool {
    let before = place.facts.len();
    let largest = largest_at_least(place);
    place
        .facts
        .retain(|fact| !matches!(fact, Fact::AtLeast(..)));
    let kept = largest.into_iter().map(|(link, n)| Fact::AtLeast(link, n));
    place.facts.extend(kept);
    place.facts.len() != before
}

/// At least 0 goes (N8).
fn drop_at_least_0(place: &mut Place) -> bool {
    let before = place.facts.len();
    place
        .facts
        .retain(|fact| !matches!(fact, Fact::AtLeast(_, 0)));
    place.facts.len() != before
}

/// At most 1 or more of a single link goes (S3) (N12).
fn drop_at_most_always_met(place: &mut Place) -> bool {
    let before = place.facts.len();
    place
        .facts
        .retain(|fact| !matches!(fact, Fact::AtMost(link, n) if link.always_has_at_most(*n)));
    place.facts.len() != before
}

/// An implied lack goes (N11).
fn drop_implied_lacks(place: &mut Place, pairs: &Pairs) -> bool {
    let before = place.facts.len();
    let had = properties_had(place);
    place.facts.retain(|fact| match *fact {
        Fact::Lacks(property) => !has_a_partner(&had, property, pairs),
        _ => true,
    });
    place.facts.len() != before
}

/// An 'every' that owns nothing goes (N9).
fn drop_empty_every(place: &mut Place) -> bool {
    let before = place.every.len();
    place.every.retain(|every| !every.place.is_empty());
    place.every.len() != before
}

/// Equal entries become one (N10).
fn join_equal(place: &mut Place) -> bool {
    let before = place.facts.len();
    let mut seen = BTreeSet::new();
    place.facts.retain(|fact| {
        let row = row_of_fact(fact);
        seen.insert((row.kind, row.name, row.number))
    });
    place.facts.len() != before
}
