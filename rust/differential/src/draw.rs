//! Accepted descriptions and specimens of many shapes.

use std::collections::BTreeSet;

use reference::notation::entry;
use reference::{Entry, Link};

use crate::chance::Chance;
use crate::{word, MOST_DEPTH, MOST_DESCRIPTION, MOST_SPECIMEN};

/// Which names stand for the first, second, ... property or link.
#[derive(Clone, Copy, Debug)]
pub enum Names {
    /// 1, 2, 3, ...
    Low,
    /// 65,535, 65,534, ...: all links lead to one item only.
    High,
    /// 32,768, 32,767, 32,769, 32,766, ...: in turn a link that leads to one item only and one that may lead to several.
    Middle,
    /// All over the two bytes.
    Spread,
}

impl Names {
    /// Any of them, those with links that lead to one item only more often than not.
    pub fn any(chance: &mut Chance) -> Names {
        chance.one_of([
            Names::Low,
            Names::Low,
            Names::High,
            Names::Middle,
            Names::Middle,
            Names::Spread,
        ])
    }

    /// The name of the property or link with this number, from 1. No two have the same.
    pub fn name(self, number: u16) -> u16 {
        let half = number / 2;
        match self {
            Names::Low => number,
            Names::High => u16::MAX - (number - 1),
            Names::Middle if number % 2 == 1 => 32_768 + half,
            Names::Middle => 32_768 - half,
            Names::Spread => word(usize::from(number) * 40_507 % 65_535 + 1),
        }
    }
}

/// What a drawn description or specimen is like.
#[derive(Clone, Copy, Debug)]
pub struct Shape {
    /// The number of entries.
    pub entries: usize,
    /// How many properties there are.
    pub properties: u16,
    /// How many links there are.
    pub links: u16,
    /// The largest number of an at least, an at most or a group.
    pub numbers: u16,
    /// The most depth, at most 32.
    pub depth: usize,
    /// Of 16 entries so many own a place.
    pub owners: usize,
    /// Of 16 entries so many go to the newest place, the others to any.
    pub newest: usize,
    /// Of 16 entries so many repeat an earlier one.
    pub repeats: usize,
    /// Of 256 entries so many may contradict others.
    pub conflicts: usize,
    /// The names.
    pub names: Names,
}

/// A few entries over two properties and two links.
pub const SMALL: Shape = Shape {
    entries: 8,
    properties: 2,
    links: 2,
    numbers: 3,
    depth: 3,
    owners: 5,
    newest: 6,
    repeats: 1,
    conflicts: 40,
    names: Names::Low,
};

/// Many names, few places.
pub const WIDE: Shape = Shape {
    entries: 200,
    properties: 900,
    links: 300,
    numbers: u16::MAX,
    depth: 2,
    owners: 2,
    newest: 2,
    repeats: 0,
    conflicts: 0,
    names: Names::Spread,
};

/// Long chains of owners.
pub const DEEP: Shape = Shape {
    entries: 120,
    properties: 6,
    links: 3,
    numbers: 9,
    depth: MOST_DEPTH,
    owners: 9,
    newest: 15,
    repeats: 0,
    conflicts: 2,
    names: Names::High,
};

/// Many 'every', or groups, of one place and link.
pub const MERGING: Shape = Shape {
    entries: 120,
    properties: 12,
    links: 2,
    numbers: 40,
    depth: 5,
    owners: 8,
    newest: 4,
    repeats: 1,
    conflicts: 1,
    names: Names::Low,
};

/// Many entries that contradict others.
pub const CONFLICTING: Shape = Shape {
    entries: 60,
    properties: 20,
    links: 8,
    numbers: 6,
    depth: 8,
    owners: 7,
    newest: 10,
    repeats: 0,
    conflicts: 40,
    names: Names::Spread,
};

/// Entries repeated again and again.
pub const REPEATING: Shape = Shape {
    entries: 100,
    properties: 8,
    links: 4,
    numbers: 5,
    depth: 4,
    owners: 4,
    newest: 5,
    repeats: 9,
    conflicts: 1,
    names: Names::High,
};

/// One of the shapes, with any number of entries up to its own, and any names.
pub fn shape(chance: &mut Chance) -> Shape {
    let chosen = chance.one_of([SMALL, WIDE, DEEP, MERGING, CONFLICTING, REPEATING]);
    Shape {
        entries: chance.below(chosen.entries + 1),
        names: Names::any(chance),
        ..chosen
    }
}

/// One of the shapes, at the limit of a description.
pub fn full_shape(chance: &mut Chance) -> Shape {
    let chosen = chance.one_of([WIDE, DEEP, MERGING, CONFLICTING, REPEATING]);
    Shape {
        entries: MOST_DESCRIPTION,
        conflicts: chosen.conflicts.min(4),
        names: Names::any(chance),
        ..chosen
    }
}

/// A list of entries that grows and stays one that is accepted.
struct Growing {
    owner_kind: u8,
    depth: usize,
    entries: Vec<Entry>,
    depths: Vec<usize>,
    /// The owners of places, 0 for the top.
    owners: Vec<u16>,
    /// Owners and links of the groups by a link that leads to one item only.
    led: BTreeSet<(u16, Link)>,
}

impl Growing {
    fn new(owner_kind: u8, depth: usize) -> Growing {
        Growing {
            owner_kind,
            depth: depth.min(MOST_DEPTH),
            entries: Vec::new(),
            depths: Vec::new(),
            owners: vec![0],
            led: BTreeSet::new(),
        }
    }

    /// Whether the list stays one that is accepted with this entry: a group may bring its owner no second item by a link that
    /// leads to one item only.
    fn takes(&self, entry: &Entry) -> bool {
        let (owner, link) = (entry.owner, Link(entry.name));
        entry.kind != 7
            || !link.is_single()
            || entry.number == 0 && !self.led.contains(&(owner, link))
    }

    /// The owner of a drawn place.
    fn owner(&self, chance: &mut Chance, shape: &Shape) -> u16 {
        let newest = self.owners.last().copied();
        let chosen = if chance.of_16(shape.newest) {
            newest
        } else {
            chance.any(&self.owners)
        };
        chosen.unwrap_or(0)
    }

    fn push(&mut self, entry: Entry) {
        let above = usize::from(entry.owner).checked_sub(1);
        let depth = above
            .and_then(|owner| self.depths.get(owner))
            .map_or(0, |depth| depth + 1);
        self.entries.push(entry);
        self.depths.push(depth);
        if entry.kind == 7 && Link(entry.name).is_single() {
            self.led.insert((entry.owner, Link(entry.name)));
        }
        if entry.kind == self.owner_kind && depth < self.depth {
            self.owners.push(word(self.entries.len()));
        }
    }
}

/// Draws an accepted description.
pub fn description(chance: &mut Chance, shape: &Shape) -> Vec<Entry> {
    grown(chance, shape, 5, fact)
}

/// Draws an accepted specimen.
pub fn specimen(chance: &mut Chance, shape: &Shape) -> Vec<Entry> {
    grown(chance, shape, 7, property)
}

/// Draws an accepted specimen at the limit.
pub fn full_specimen(chance: &mut Chance) -> Vec<Entry> {
    let shape = full_shape(chance);
    let entries = MOST_SPECIMEN;
    specimen(chance, &Shape { entries, ..shape })
}

/// Draws entries: those that own a place have the owner's kind, the others are drawn by `leaf`, which also stands in for a group
/// that would be refused.
fn grown(
    chance: &mut Chance,
    shape: &Shape,
    owner_kind: u8,
    leaf: fn(&mut Chance, &Shape, u16) -> Entry,
) -> Vec<Entry> {
    let mut growing = Growing::new(owner_kind, shape.depth);
    while growing.entries.len() < shape.entries {
        if chance.of_16(shape.repeats) {
            let again = chance.any(&growing.entries);
            if let Some(entry) = again.filter(|entry| growing.takes(entry)) {
                growing.push(entry);
                continue;
            }
        }
        let owner = growing.owner(chance, shape);
        let owning = chance
            .of_16(shape.owners)
            .then(|| owning(chance, shape, owner_kind, owner));
        growing.push(match owning.filter(|entry| growing.takes(entry)) {
            Some(entry) => entry,
            None => leaf(chance, shape, owner),
        });
    }
    growing.entries
}

/// An 'every' or a group; a group by a link that leads to one item only has one.
fn owning(chance: &mut Chance, shape: &Shape, kind: u8, owner: u16) -> Entry {
    let link = link(chance, shape);
    let number = if kind == 7 && !Link(link).is_single() {
        chance.up_to(shape.numbers)
    } else {
        0
    };
    entry(kind, owner, link, number)
}

fn link(chance: &mut Chance, shape: &Shape) -> u16 {
    shape.names.name(chance.from_1_to(shape.links))
}

/// An entry of kind 1.
fn property(chance: &mut Chance, shape: &Shape, owner: u16) -> Entry {
    let number = chance.from_1_to(shape.properties);
    entry(1, owner, shape.names.name(number), 0)
}

/// An entry of kind 1, 2, 3, 4 or 6. Most are drawn so that they do not contradict each other: has for the odd properties and
/// lacks for the even ones, at least below the middle of the numbers and at most above it. Of links that lead to one item only
/// it is at least 1 for the odd ones and at most 0 for the even ones, besides those that say nothing.
fn fact(chance: &mut Chance, shape: &Shape, owner: u16) -> Entry {
    let free = chance.below(256) < shape.conflicts;
    if free && chance.once_in(4) {
        return entry(6, owner, 0, 0);
    }
    let kind = chance.one_of([1, 2, 3, 4]);
    if kind > 2 {
        let link = link(chance, shape);
        let number = if Link(link).is_single() && !free {
            single_count(chance, shape, kind, link)
        } else {
            count(chance, shape, kind, free)
        };
        return entry(kind, owner, link, number);
    }
    let drawn = chance.from_1_to(shape.properties);
    let number = match (free, kind) {
        (true, _) => drawn,
        (false, 1) => drawn | 1,
        (false, _) => (drawn + 1) & !1,
    };
    entry(kind, owner, shape.names.name(number), 0)
}

/// The number of an at least (kind 3) or an at most of a link that leads to one item only.
fn single_count(chance: &mut Chance, shape: &Shape, kind: u8, link: u16) -> u16 {
    let odd = link % 2 == 1;
    match (kind, odd) {
        (3, true) => chance.up_to(1),
        (3, false) => 0,
        (_, false) if chance.once_in(2) => 0,
        _ => chance.from_1_to(shape.numbers),
    }
}

/// The number of an at least (kind 3) or an at most.
fn count(chance: &mut Chance, shape: &Shape, kind: u8, free: bool) -> u16 {
    let middle = shape.numbers / 2;
    if free {
        return chance.up_to(shape.numbers);
    }
    if kind == 3 {
        return chance.up_to(middle);
    }
    if chance.once_in(8) {
        return shape.numbers;
    }
    middle + chance.up_to(shape.numbers - middle)
}
