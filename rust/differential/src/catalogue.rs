//! Lists of services: where each begins, and lists drawn for a description.

use reference::Entry;

use crate::chance::Chance;
use crate::naming::Dictionary;
use crate::{derived, draw, BLOCK};

/// The most services of a list.
pub const MOST_SERVICES: usize = 64;

/// The bytes of each service: each block numbered 1 begins a description (L1). A part of a block at the end belongs
/// to the last.
pub fn cut(list: &[u8]) -> Vec<&[u8]> {
    let blocks = list.chunks(BLOCK);
    let begins = (0..).step_by(BLOCK).zip(blocks);
    let begins = begins.filter(|(at, block)| *at == 0 || block.starts_with(&[1, 0]));
    let starts: Vec<usize> = begins.map(|(at, _)| at).collect();
    let ends = starts.iter().skip(1).copied().chain([list.len()]);
    let parts = starts.iter().zip(ends);
    parts.map(|(&start, end)| &list[start..end]).collect()
}

/// So many services for a description: weaker ones, ones that miss by an entry, itself, and ones drawn on their own. They may name
/// what is in the dictionary.
pub fn services(
    chance: &mut Chance,
    dictionary: &Dictionary,
    c: &[Entry],
    count: usize,
) -> Vec<Vec<Entry>> {
    let one = |chance: &mut Chance| match chance.below(5) {
        0 => c.to_vec(),
        1 => derived::weaker(chance, c),
        2 => derived::missed(chance, c),
        3 => {
            let weaker = derived::weaker(chance, c);
            derived::missed(chance, &weaker)
        }
        _ => {
            let shape = draw::shape(chance);
            let plain = draw::description(chance, &shape);
            dictionary.naming(chance, &plain)
        }
    };
    (0..count)
        .map(|_| dictionary.within(&one(chance)))
        .collect()
}

/// The first entries of each service, at most so many, so that a list of many services stays short.
pub fn shortened(services: &[Vec<Entry>], most: usize) -> Vec<Vec<Entry>> {
    let short = |entries: &Vec<Entry>| entries[..entries.len().min(most)].to_vec();
    services.iter().map(short).collect()
}
