//! Lists of properties that exclude each other: right ones, wrong ones, and descriptions and specimens made for them.

use goltximen::Under;
use reference::notation::entry;
use reference::Entry;

use crate::chance::Chance;
use crate::derived::insert;
use crate::{word, MOST_DESCRIPTION, MOST_SPECIMEN};

/// The most pairs of a list.
pub const MOST_PAIRS: usize = 64;
/// The bytes of a pair.
const PAIR: usize = 4;

/// What a call is given before its inputs: the bytes of a list and of a dictionary.
#[derive(Clone, Debug, Default, PartialEq, Eq)]
pub struct Given {
    /// The list of pairs.
    pub pairs: Vec<u8>,
    /// The dictionary.
    pub dictionary: Vec<u8>,
}

impl Given {
    /// These pairs, and no dictionary.
    pub fn pairs(pairs: &[(u16, u16)]) -> Given {
        Given::list(list(pairs))
    }

    /// This list, right or wrong, and no dictionary.
    pub fn list(pairs: Vec<u8>) -> Given {
        Given {
            pairs,
            dictionary: Vec::new(),
        }
    }

    /// The same, lent to a call of the library.
    pub fn under(&self) -> Under<'_> {
        Under {
            pairs: &self.pairs,
            dictionary: &self.dictionary,
        }
    }
}

/// The bytes of these pairs.
pub fn list(pairs: &[(u16, u16)]) -> Vec<u8> {
    let words = pairs.iter().flat_map(|&(one, other)| [one, other]);
    words.flat_map(u16::to_le_bytes).collect()
}

/// The pairs of these bytes.
pub fn pairs_of(list: &[u8]) -> Vec<(u16, u16)> {
    let pairs = list.chunks_exact(PAIR);
    pairs
        .map(|pair| {
            let one = u16::from_le_bytes([pair[0], pair[1]]);
            (one, u16::from_le_bytes([pair[2], pair[3]]))
        })
        .collect()
}

/// The properties that the list excludes with this one.
fn partners(list: &[u8], property: u16) -> Vec<u16> {
    let pairs = pairs_of(list).into_iter();
    pairs
        .filter_map(|(one, other)| match property {
            p if p == one => Some(other),
            p if p == other => Some(one),
            _ => None,
        })
        .collect()
}

/// The names in entries of this kind.
fn names(entries: &[Entry], kind: u8) -> Vec<u16> {
    let of_kind = entries.iter().filter(|e| e.kind == kind);
    of_kind.map(|e| e.name).collect()
}

/// A list that is accepted, drawn for these entries: with no pair, one, a few or the most; a star, in which one property excludes all
/// others; with repeats, in both orders.
pub fn drawn(chance: &mut Chance, entries: &[Entry]) -> Vec<u8> {
    let (has, lacks) = (names(entries, 1), names(entries, 2));
    let count = chance.one_of([0, 1, 1, 2, 3, 8, MOST_PAIRS, MOST_PAIRS]);
    let star = chance.once_in(4).then(|| name_of(chance, &has));
    // In one list of three an item that has two of the properties asked for is shut out now and then; in the others only what the
    // entries lack is excluded, so that not all becomes impossible.
    let strict = chance.once_in(3);
    let mut pairs = Vec::new();
    while pairs.len() < count {
        let one = star.unwrap_or_else(|| name_of(chance, &has));
        let others = if strict && chance.once_in(4) {
            &has
        } else {
            &lacks
        };
        let other = name_of(chance, others);
        let pair = match chance.any(&pairs) {
            Some(earlier) if star.is_none() && chance.once_in(8) => earlier,
            _ if one == other => continue,
            _ => (one, other),
        };
        pairs.push(turned(chance, pair));
    }
    list(&pairs)
}

/// One of these names, or one near them or anywhere that is perhaps in no entry.
fn name_of(chance: &mut Chance, names: &[u16]) -> u16 {
    let (low, fresh) = (chance.from_1_to(4), chance.word().max(1));
    match chance.any(names) {
        Some(name) if !chance.once_in(6) => name,
        // With other high bytes, so that a table by the low byte has them side by side.
        Some(name) => chance.one_of([low, name ^ 0x100, name ^ 0x8000]).max(1),
        None => chance.one_of([low, fresh]),
    }
}

/// The pair in one of its two orders.
fn turned(chance: &mut Chance, (one, other): (u16, u16)) -> (u16, u16) {
    chance.one_of([(one, other), (other, one)])
}

/// A list that is refused as 11, made from this one: of a wrong length, with too many pairs, with a 0 or with two equal numbers at
/// any place; with more than one of these at times.
pub fn wrong(chance: &mut Chance, right: &[u8]) -> Vec<u8> {
    let mut pairs = pairs_of(right);
    if chance.once_in(4) {
        let count = chance.one_of([MOST_PAIRS + 1, MOST_PAIRS + 2, 100, 1000]);
        pairs.resize(count, (1, 2));
    }
    let over = pairs.len() > MOST_PAIRS;
    let cut = chance.once_in(3);
    if !over && (!cut || chance.once_in(2)) {
        for _ in 0..=chance.below(3) {
            let (at, bad) = (chance.below(pairs.len() + 1), bad_pair(chance));
            pairs.insert(at, bad);
        }
        pairs.truncate(MOST_PAIRS);
        let first = chance.below(pairs.len());
        pairs[first] = bad_pair(chance);
    }
    let mut bytes = list(&pairs);
    if cut {
        let more = chance.one_of([1, 2, 3]);
        bytes.extend(chance.noise(more));
    }
    bytes
}

/// A pair with a 0 or with two equal numbers.
fn bad_pair(chance: &mut Chance) -> (u16, u16) {
    let (name, far) = (chance.from_1_to(3), chance.word().max(1));
    let name = chance.one_of([name, far]);
    chance.one_of([(0, name), (name, 0), (0, 0), (name, name), (name, name)])
}

/// The description with a few lacks that the list implies where it already says has: it means the same under the list.
pub fn with_implied_lacks(chance: &mut Chance, pairs: &[u8], d: &[Entry]) -> Vec<Entry> {
    let mut d = d.to_vec();
    for partner in partners_of_some(chance, pairs, &d) {
        if d.len() < MOST_DESCRIPTION {
            d.push(Entry { kind: 2, ..partner });
        }
    }
    d
}

/// The specimen with one property more: one that is excluded by a property which this item or another one has.
pub fn with_partner(chance: &mut Chance, pairs: &[u8], s: &[Entry]) -> Vec<Entry> {
    let mut s = s.to_vec();
    s.truncate(MOST_SPECIMEN - 1);
    let Some(mut partner) = partners_of_some(chance, pairs, &s).pop() else {
        return s;
    };
    let owners: Vec<u16> = s.iter().map(|e| e.owner).collect();
    if chance.once_in(3) {
        partner.owner = chance.any(&owners).unwrap_or(0);
    }
    // Also before the property that excludes it.
    insert(chance, &mut s, partner);
    s
}

/// For some entries of kind 1, at most four, an entry with the same owner and a partner of the property.
fn partners_of_some(chance: &mut Chance, pairs: &[u8], entries: &[Entry]) -> Vec<Entry> {
    let has: Vec<&Entry> = entries.iter().filter(|e| e.kind == 1).collect();
    let listed: Vec<&Entry> = has
        .into_iter()
        .filter(|e| !partners(pairs, e.name).is_empty())
        .collect();
    let mut some = Vec::new();
    for _ in 0..4 {
        let Some(e) = chance.any(&listed) else {
            return some;
        };
        if let Some(name) = chance.any(&partners(pairs, e.name)) {
            some.push(Entry { name, ..*e });
        }
    }
    some
}

/// A description with so many places below the top, in each of which a property stands that excludes 64 others, and the list that
/// says so; and a description that lacks the others there, one at each place.
pub fn star(places: u16) -> (Vec<u8>, Vec<Entry>, Vec<Entry>) {
    let hub = 7;
    let others: Vec<u16> = (0..word(MOST_PAIRS)).map(|n| 100 + n).collect();
    let pairs: Vec<(u16, u16)> = others.iter().map(|&other| (other, hub)).collect();
    let place = |n: u16, kind, name| [entry(5, 0, n + 1, 0), entry(kind, 2 * n + 1, name, 0)];
    let c = (0..places).flat_map(|n| place(n, 1, hub)).collect();
    let other = |n: u16| others[usize::from(n) % others.len()];
    let d = (0..places).flat_map(|n| place(n, 2, other(n))).collect();
    (list(&pairs), c, d)
}
