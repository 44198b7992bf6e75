//! Dictionaries, and descriptions that name what is in them: right ones, wrong ones, and ones that are meant to take long.

use reference::notation::entry;
use reference::{encode, Entry};

use crate::chance::Chance;
use crate::damage::{damaged, seal, Sort};
use crate::draw::{self, Shape};
use crate::{word, BLOCK, MOST_DEPTH, MOST_DESCRIPTION};

/// The most descriptions of a dictionary.
pub const MOST_NAMES: usize = 64;

/// An entry that stands for the description with this name.
pub fn named(owner: u16, name: u16) -> Entry {
    entry(9, owner, name, 0)
}

/// The blocks of these descriptions, end to end.
pub fn laid(descriptions: &[Vec<Entry>]) -> Vec<u8> {
    descriptions.iter().flat_map(|d| encode(d)).collect()
}

/// A chain of so many 'every', each owned by the one before: the last is at a depth of one less than there are.
pub fn chain(length: usize) -> Vec<Entry> {
    (0..word(length))
        .map(|owner| entry(5, owner, 1, 0))
        .collect()
}

/// What a description comes to once it is unfolded.
#[derive(Clone, Copy, Debug, Default, PartialEq, Eq)]
pub struct Extent {
    /// Its entries.
    pub entries: usize,
    /// One more than the depth of its deepest entry, or 0 if it has none.
    pub levels: usize,
}

impl Extent {
    /// What these entries come to, whose names are those of the earlier ones.
    pub fn of(entries: &[Entry], earlier: &[Extent]) -> Extent {
        let mut extent = Extent::default();
        for (e, depth) in entries.iter().zip(depths(entries)) {
            let own = match e.kind {
                9 => extent_of(earlier, e.name),
                _ => ONE,
            };
            extent.entries += own.entries;
            if own.levels > 0 {
                extent.levels = extent.levels.max(depth + own.levels);
            }
        }
        extent
    }

    /// Whether the description is refused as 14.
    pub fn is_too_much(self) -> bool {
        self.entries > MOST_DESCRIPTION || self.levels > MOST_DEPTH + 1
    }
}

/// What an entry comes to that names nothing.
const ONE: Extent = Extent {
    entries: 1,
    levels: 1,
};

/// What a name comes to, nothing if there is none.
fn extent_of(earlier: &[Extent], name: u16) -> Extent {
    let at = usize::from(name).checked_sub(1);
    at.and_then(|at| earlier.get(at))
        .copied()
        .unwrap_or_default()
}

/// The depth of each entry.
fn depths(entries: &[Entry]) -> Vec<usize> {
    let mut depths: Vec<usize> = Vec::new();
    for e in entries {
        let above = usize::from(e.owner).checked_sub(1);
        let above = above.and_then(|at| depths.get(at));
        depths.push(above.map_or(0, |depth| depth + 1));
    }
    depths
}

/// A dictionary that is accepted, as its descriptions.
#[derive(Clone, Debug, Default)]
pub struct Dictionary {
    /// The descriptions.
    pub descriptions: Vec<Vec<Entry>>,
    extents: Vec<Extent>,
}

impl Dictionary {
    /// These descriptions.
    pub fn of(descriptions: &[Vec<Entry>]) -> Dictionary {
        let mut dictionary = Dictionary::default();
        for description in descriptions {
            dictionary.push(description.clone());
        }
        dictionary
    }

    /// Adds a description that names earlier ones.
    pub fn push(&mut self, description: Vec<Entry>) {
        self.extents.push(self.extent(&description));
        self.descriptions.push(description);
    }

    /// What a description comes to that names these.
    pub fn extent(&self, description: &[Entry]) -> Extent {
        Extent::of(description, &self.extents)
    }

    /// Its blocks.
    pub fn bytes(&self) -> Vec<u8> {
        laid(&self.descriptions)
    }

    /// A drawn one: with no description, a few or the most, of at most so many entries.
    pub fn drawn(chance: &mut Chance, shape: &Shape, most: usize) -> Dictionary {
        let count = chance.one_of([0, 1, 1, 2, 3, 5, 8, 20, 63, MOST_NAMES]);
        Dictionary::of_drawn(chance, shape, count, most)
    }

    /// So many drawn descriptions of at most so many entries, some of them empty, each of which may name earlier ones.
    pub fn of_drawn(chance: &mut Chance, shape: &Shape, count: usize, most: usize) -> Dictionary {
        let mut dictionary = Dictionary::default();
        for _ in 0..count {
            let entries = chance.one_of([1, 4, 4, most + 1]);
            let shape = Shape {
                entries: chance.below(entries.min(most + 1)),
                ..*shape
            };
            let plain = draw::description(chance, &shape);
            let description = dictionary.naming(chance, &plain);
            dictionary.push(description);
        }
        dictionary
    }

    /// The description with some of the entries that own nothing replaced by names, so that it stays one that is accepted.
    pub fn naming(&self, chance: &mut Chance, description: &[Entry]) -> Vec<Entry> {
        let mut entries = description.to_vec();
        let often = 1 + chance.below(5);
        let mut total = entries.len();
        for (e, depth) in entries.iter_mut().zip(depths(description)) {
            let name = word(1 + chance.below(self.extents.len()));
            let extent = extent_of(&self.extents, name);
            let more = total - 1 + extent.entries;
            let fits = more <= MOST_DESCRIPTION && depth + extent.levels <= MOST_DEPTH + 1;
            if !self.extents.is_empty() && e.kind != 5 && fits && chance.once_in(often) {
                *e = named(e.owner, name);
                total = more;
            }
        }
        entries
    }

    /// Whether a description that names these is accepted, where each of its entries is.
    pub fn accepts(&self, description: &[Entry]) -> bool {
        let long = description.len() > MOST_DESCRIPTION;
        // The name of a description without entries adds no depth once unfolded, and has its own all the same.
        let deep = depths(description).iter().any(|&depth| depth > MOST_DEPTH);
        !long && !deep && !self.extent(description).is_too_much()
    }

    /// The description without so many last entries that it comes to more than is allowed.
    pub fn within(&self, description: &[Entry]) -> Vec<Entry> {
        let mut entries = description.to_vec();
        while self.extent(&entries).is_too_much() {
            entries.pop();
        }
        entries
    }

    /// A dictionary that is meant to take long: chains of names of nothing, each named many times by the next; names of names
    /// that double; a chain of names each below an 'every'; one property behind many names of nothing.
    pub fn hostile(chance: &mut Chance) -> Dictionary {
        let mut dictionary = Dictionary::default();
        dictionary.push(Vec::new());
        let times = chance.one_of([1, 2, 62, 63, 64, MOST_DESCRIPTION]);
        let sort = chance.below(4);
        if sort > 0 {
            dictionary.push(vec![entry(1, 0, 7, 0)]);
        }
        while dictionary.descriptions.len() < MOST_NAMES {
            let last = word(dictionary.descriptions.len());
            let description = match sort {
                0 => vec![named(0, last); times],
                1 => vec![named(0, last); 2],
                2 => vec![entry(5, 0, last, 0), named(1, last)],
                _ => {
                    let mut entries = vec![named(0, 1); times];
                    entries[chance.below(times)] = named(0, last);
                    entries
                }
            };
            if dictionary.extent(&description).is_too_much() {
                dictionary.push(vec![named(0, 1); times]);
            } else {
                dictionary.push(description);
            }
        }
        dictionary
    }

    /// Any of its names, or 0 if it has none.
    pub fn any_name(&self, chance: &mut Chance) -> u16 {
        word(self.extents.len().min(1 + chance.below(self.extents.len())))
    }
}

/// The bytes of a dictionary with one slip, made from this one. Most are refused; the number says which slip it is, below
/// [`SLIPS`].
pub fn slipped(chance: &mut Chance, right: &Dictionary, slip: usize) -> Vec<u8> {
    let mut descriptions = right.descriptions.clone();
    if descriptions.is_empty() {
        descriptions.push(vec![entry(1, 0, 7, 0)]);
    }
    let at = chance.below(descriptions.len());
    let own = word(at + 1);
    let count = word(descriptions.len());
    match slip {
        0 => return renumbered(chance, laid(&descriptions)),
        1 => {
            // A name that is not earlier: its own, a later one, or one that is not there.
            let name = chance.one_of([own, own + 1, count, count + 1, 65_535]);
            put_in(chance, &mut descriptions[at], named(0, name.max(own)));
        }
        2 => {
            let more = chance.one_of([MOST_NAMES + 1, MOST_NAMES + 2, 2 * MOST_NAMES + 1]);
            descriptions.resize(more, vec![]);
        }
        3 => {
            let entries = chance.one_of([1009, 1071, 1072]);
            descriptions[at].resize(entries, entry(1, 0, 7, 0));
        }
        4 => {
            descriptions.truncate(MOST_NAMES - 2);
            let size = chance.one_of([1, 2, 16, 63, 1008]);
            descriptions.push(vec![entry(1, 0, 7, 0); size]);
            let name = word(descriptions.len());
            let mut names = vec![named(0, name); MOST_DESCRIPTION / size];
            // Just not too much, or by one, or by one name.
            match chance.below(4) {
                0 => (),
                1 if size > 1 => names.push(entry(1, 0, 7, 0)),
                2 if size > 1 => names.push(named(0, name)),
                _ => names.extend([named(0, name), entry(1, 0, 7, 0)]),
            }
            descriptions.push(names);
        }
        5 => {
            descriptions.truncate(MOST_NAMES - 2);
            let inner = 1 + chance.below(MOST_DEPTH + 1);
            let outer = MOST_DEPTH + 1 - inner + chance.below(2);
            descriptions.push(chain(inner));
            let mut around = chain(outer);
            around.push(named(word(outer), word(descriptions.len())));
            descriptions.push(around);
        }
        6 => put_in(chance, &mut descriptions[at], named(0, 0)),
        7 => {
            let name = right.any_name(chance);
            let number = chance.one_of([1, 256, 65_535]);
            let zero = chance.one_of([0, 0, 1, 255]);
            let wrong = Entry {
                zero,
                ..entry(9, 0, name, number)
            };
            put_in(chance, &mut descriptions[at], wrong);
        }
        8 => {
            // What is owned by a name of an earlier one, where there is one.
            let description = &mut descriptions[at];
            description.truncate(MOST_DESCRIPTION - 2);
            description.push(named(0, own - 1));
            let owner = word(description.len());
            description.push(entry(1, owner, 7, 0));
        }
        9 => {
            let bad = damaged(chance, Sort::Description, &descriptions[at]);
            return [laid(&descriptions), bad].concat();
        }
        10 => {
            let mut bytes = laid(&descriptions);
            let part = 1 + chance.below(BLOCK - 1);
            match chance.below(3) {
                0 => bytes.truncate(bytes.len() - part),
                1 => bytes.truncate(part),
                _ => bytes.extend(chance.noise(part)),
            }
            return bytes;
        }
        _ => {
            let blocks = chance.one_of([1, 2, 17, 65]);
            return chance.noise(BLOCK * blocks);
        }
    }
    laid(&descriptions)
}

/// How many slips there are.
pub const SLIPS: usize = 12;

/// Puts an entry into a description at the end or instead of one that owns nothing.
fn put_in(chance: &mut Chance, description: &mut Vec<Entry>, new: Entry) {
    let at = chance.below(description.len());
    match description.get_mut(at) {
        Some(e) if e.kind != 5 => {
            *e = Entry {
                owner: e.owner,
                ..new
            }
        }
        _ => description.push(new),
    }
}

/// The blocks with another number in one of them, and mostly with the checks that are right for it: 1 begins a description, and
/// any other belongs to the one before.
fn renumbered(chance: &mut Chance, mut bytes: Vec<u8>) -> Vec<u8> {
    let blocks = bytes.len() / BLOCK;
    let at = if chance.once_in(2) {
        0
    } else {
        chance.below(blocks)
    };
    let block = &mut bytes[BLOCK * at..][..BLOCK];
    let number: u16 = chance.one_of([0, 1, 2, 3, 256, 257, 65_535]);
    block[..2].copy_from_slice(&number.to_le_bytes());
    if !chance.once_in(4) {
        seal(block);
    }
    bytes
}
