//! Inputs of the calls under a list of properties that exclude each other.

use std::collections::BTreeSet;

use reference::Entry;

use crate::inputs::{entry, Chance, Model, Shape, MOST_NAME};

/// The most pairs of a list.
pub const MOST_PAIRS: usize = 64;
/// The property that excludes 64 others in the worst list, and the first of these.
const HUB: u16 = 7;
const FIRST_OTHER: u16 = 1000;
/// From here on names are in no model.
const STRANGE: u16 = 50_000;

/// The bytes of these pairs.
pub fn list(pairs: &[(u16, u16)]) -> Vec<u8> {
    let words = pairs.iter().flat_map(|&(one, other)| [one, other]);
    words.flat_map(u16::to_le_bytes).collect()
}

/// Two descriptions, of which the first is contained in the second under the list, and a specimen that keeps the list and fits both.
pub struct Case {
    pub pairs: Vec<u8>,
    pub c: Vec<Entry>,
    pub d: Vec<Entry>,
    pub specimen: Vec<Entry>,
}

impl Case {
    /// A model of this many entries, with so many pairs. The lacks of the second description that are in a pair stand where the first
    /// has the other property: by turns the first says the same, which the list implies, and says something else. Where there
    /// are not enough has and lacks, the list is filled with pairs that are nowhere.
    pub fn new(entries: usize, shape: Shape, pairs: usize, chance: &mut Chance) -> Case {
        let model = Model::new(entries, shape, chance);
        let (mut c, mut d) = (model.description(), model.looser(chance));
        let places = |kind| (0..c.len()).filter(|&at| c[at].kind == kind).collect();
        let (has, lacks): (Vec<usize>, Vec<usize>) = (places(1), places(2));
        let mut listed = Vec::new();
        for (&has, &lacks) in has.iter().zip(&lacks).take(pairs) {
            let (has, lacked) = (c[has], c[lacks]);
            let implied = Entry {
                owner: has.owner,
                ..lacked
            };
            let other = entry(3, has.owner.into(), lacked.name, 1);
            c[lacks] = [implied, other][listed.len() % 2];
            for e in d.iter_mut().filter(|&&mut e| e == lacked) {
                *e = implied;
            }
            listed.push((has.name, lacked.name));
        }
        let nowhere = (STRANGE..).map(|name| (name, name + 1));
        listed.extend(nowhere.step_by(2).take(pairs - listed.len()));
        Case {
            pairs: list(&listed),
            c,
            d,
            specimen: model.specimen(),
        }
    }
}

/// The entries, of which each second one that is no 'every' has another name, which none had.
pub fn half_renamed(entries: &[Entry]) -> Vec<Entry> {
    let taken: BTreeSet<u16> = entries.iter().map(|e| e.name).collect();
    let mut free = (1..=MOST_NAME).filter(|name| !taken.contains(name));
    let mut renamed = entries.to_vec();
    let says = renamed.iter_mut().filter(|e| e.kind != 5);
    for (e, name) in says.step_by(2).zip(&mut free) {
        e.name = name;
    }
    renamed
}

/// The worst list: one property excludes 64 others.
pub fn star() -> Vec<u8> {
    let others = (FIRST_OTHER..).take(MOST_PAIRS);
    list(&others.map(|other| (HUB, other)).collect::<Vec<_>>())
}

/// 504 places that each have one of the others, and 504 that each lack the one property; the first is contained in the second under
/// the worst list.
pub fn star_places() -> (Vec<Entry>, Vec<Entry>) {
    let place = |n: usize, kind, name| {
        [
            entry(5, 0, 1 + n as u16, 0),
            entry(kind, 2 * n + 1, name, 0),
        ]
    };
    let other = |n: usize| FIRST_OTHER + (n % MOST_PAIRS) as u16;
    let have = (0..504).flat_map(|n| place(n, 1, other(n)));
    let lack = (0..504).flat_map(|n| place(n, 2, HUB));
    (have.collect(), lack.collect())
}

/// One pair, 64 times: each of its properties is in all 64 pairs of the list.
pub fn again() -> Vec<u8> {
    list(&[(HUB, HUB + 1); MOST_PAIRS])
}

/// 64 pairs whose 128 properties all fall into one bucket of the index. The first one is the last to be looked at there.
pub fn one_bucket() -> Vec<u8> {
    let name = |n: u16| HUB + 256 * n;
    let pairs = (0..64).map(|n| (name(n), name(n + 64)));
    list(&pairs.collect::<Vec<_>>())
}

/// A description of 1,008 entries that has the property which the hub's pairs exclude, and one that asks for the hub's lack as often.
pub fn asked_again(has: u16) -> (Vec<Entry>, Vec<Entry>) {
    let links = (0..1007).map(|n| entry(3, 0, 1 + n as u16, 1));
    let have = std::iter::once(entry(1, 0, has, 0)).chain(links);
    (have.collect(), vec![entry(2, 0, HUB, 0); 1008])
}

/// A service of 1,008 entries that has the property which the hub's pairs exclude, and asks for the hub's lack 1,007 times. It is
/// contained in itself, and each of those lacks is looked for in the list.
pub fn asked_of_itself(has: u16) -> Vec<Entry> {
    let mut service = vec![entry(2, 0, HUB, 0); 1008];
    service[0] = entry(1, 0, has, 0);
    service
}

/// The property beside the hub in the list `again`, and in the list `one_bucket`.
pub const BESIDE: u16 = HUB + 1;
pub const FAR_BESIDE: u16 = HUB + 256 * 64;

/// A specimen that gives the hub 2,016 times.
pub fn given_again() -> Vec<Entry> {
    vec![entry(1, 0, HUB, 0); 2016]
}
