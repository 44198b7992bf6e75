//! Specimens and the fit answer.

use crate::background::Background;
use crate::blocks::Entry;
use crate::reading::{read, Sort};
use crate::refusal::Refusal;
use crate::tree::{top_place, Every, Fact, Link, Place, Property};

/// What all items of one group, or the top item, have alike.
///
/// The properties that its group owns, and no others (F8).
struct Items {
    properties: Vec<Property>,
    groups: Vec<Group>,
}

/// A group (E3).
struct Group {
    link: Link,
    /// One more than the stored number.
    count: u64,
    items: Items,
}

impl Items {
    fn has(&self, property: Property) -> bool {
        self.properties.contains(&property)
    }

    /// Different items are counted (F3). groups of one owner and link add up
    /// (F9).
    fn linked(&self, link: Link) -> u64 {
        self.groups_by(link).map(|group| group.count).sum()
    }

    fn groups_by(&self, link: Link) -> impl Iterator<Item = &Group> {
        self.groups.iter().filter(move |group| group.link == link)
    }
}

/// The fit answer for the top item, with no excluding pairs and no named
/// descriptions.
pub fn fit(specimen: &[u8], description: &[u8]) -> Result<bool, Refusal> {
    fit_with(&[], &[], specimen, description)
}

/// The fit answer for the top item, under a list of excluding pairs and with a
/// dictionary for the description.
///
/// A specimen, then a description: yes or no for the top item, and no output
/// (F10).
///
/// Takes a list of pairs, which the specimen's record keeps (S14) (S8). What
/// fits is as it was; a specimen that doesn't keep the list is refused as 12,
/// after the specimen's other checks (S13).
///
/// All answers are those for the unfolded descriptions (D8). Kind 9 has no
/// meaning in a specimen.
pub fn fit_with(
    pairs: &[u8],
    dict: &[u8],
    specimen: &[u8],
    description: &[u8],
) -> Result<bool, Refusal> {
    let background = Background::read(pairs, dict)?;
    let specimen = read(specimen, Sort::Specimen, 1)?;
    background.pairs.check_items(&specimen, 1)?;
    let description = background.dictionary.read_description(description, 2)?;
    let top_item = items_of(&specimen, 0);
    Ok(fits_place(&top_item, &top_place(&description)))
}

/// The items of one owner in an accepted specimen.
fn items_of(entries: &[Entry], owner: usize) -> Items {
    let mut items = Items {
        properties: Vec::new(),
        groups: Vec::new(),
    };
    for (number, entry) in (1..).zip(entries) {
        if usize::from(entry.owner) != owner {
            continue;
        }
        if entry.kind == 1 {
            items.properties.push(Property(entry.name));
        } else {
            items.groups.push(Group {
                link: Link(entry.name),
                count: u64::from(entry.number).saturating_add(1),
                items: items_of(entries, number),
            });
        }
    }
    items
}

/// An item fits a place where it meets each entry of it (F5).
fn fits_place(items: &Items, place: &Place) -> bool {
    place.facts.iter().all(|fact| meets_fact(items, fact))
        && place.every.iter().all(|every| meets_every(items, every))
}

fn meets_fact(items: &Items, fact: &Fact) -> bool {
    match *fact {
        Fact::Has(property) => items.has(property),
        Fact::Lacks(property) => !items.has(property),
        Fact::AtLeast(link, n) => items.linked(link) >= u64::from(n),
        Fact::AtMost(link, n) => items.linked(link) <= u64::from(n),
        Fact::Nothing => false,
    }
}

/// An 'every' is met where each linked item fits the place below (F4).
///
/// All items of a group are alike, so one of them stands for all.
fn meets_every(items: &Items, every: &Every) -> bool {
    items
        .groups_by(every.link)
        .all(|group| fits_place(&group.items, &every.place))
}
