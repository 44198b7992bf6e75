//! Two entries of one block exchanged, and whether the checks tell.
//!
//! The first check stays right, since the words only change places. The second is wrong exactly when the distance of the two times
//! the difference of their word sums is no multiple of 16,384.

use reference::notation::entry;
use reference::Entry;

use crate::chance::Chance;
use crate::damage::Sort;
use crate::{BLOCK, BLOCK_ENTRIES};

/// What distance times difference has to be a multiple of so that the second check stays right: each entry that is passed moves
/// the words by 4, and the check wraps at 65,536.
const UNSEEN: usize = 16_384;

/// Two drawn entries, counted from 1, of a block that uses so many, if it uses two.
pub fn two_used(chance: &mut Chance, used: usize) -> Option<(usize, usize)> {
    let used = used.min(BLOCK_ENTRIES);
    if used < 2 {
        return None;
    }
    let one = 1 + chance.below(used);
    let step = 1 + chance.below(used - 1);
    Some((one, 1 + (one - 1 + step) % used))
}

/// Two drawn entries of a drawn block, counted from 1 over all blocks, if the block uses two.
pub fn two_of_a_block(chance: &mut Chance, entries: usize) -> Option<(usize, usize)> {
    let before = BLOCK_ENTRIES * chance.below(entries.div_ceil(BLOCK_ENTRIES));
    let (one, other) = two_used(chance, entries - before)?;
    Some((before + one, before + other))
}

/// Exchanges the bytes of two entries, counted from 1 over all blocks, and nothing else.
pub fn exchange(bytes: &mut [u8], one: usize, other: usize) {
    let (one, other) = (place_of(one), place_of(other));
    for byte in 0..8 {
        bytes.swap(one + byte, other + byte);
    }
}

/// Where the entry with this number begins.
fn place_of(number: usize) -> usize {
    BLOCK * ((number - 1) / BLOCK_ENTRIES) + 4 + 8 * ((number - 1) % BLOCK_ENTRIES)
}

/// The block of this entry, counted from 1.
fn block_of(number: usize) -> u32 {
    u32::from(crate::word((number - 1) / BLOCK_ENTRIES)) + 1
}

/// The sum of the four words of an entry.
fn word_sum(e: &Entry) -> usize {
    let first = u16::from_le_bytes([e.kind, e.zero]);
    [first, e.owner, e.name, e.number]
        .map(usize::from)
        .iter()
        .sum()
}

/// The block at which the exchange of two entries of one block is refused as 2, or none if it is not.
pub fn told(entries: &[Entry], one: usize, other: usize) -> Option<u32> {
    let difference = word_sum(&entries[one - 1]).abs_diff(word_sum(&entries[other - 1]));
    let product = one.abs_diff(other) * difference;
    (!product.is_multiple_of(UNSEEN)).then(|| block_of(one))
}

/// The smallest difference of word sums above 0 that the checks do not tell at this distance, which is below 64.
pub fn least_unseen(distance: usize) -> usize {
    UNSEEN >> distance.trailing_zeros()
}

/// Makes the two entries properties of the top item, whose word sums differ by what the checks do not tell at their distance, or
/// by one more or less. An entry that may own others stays.
pub fn make_nearly_unseen(
    chance: &mut Chance,
    sort: Sort,
    entries: &mut [Entry],
    (one, other): (usize, usize),
) {
    if [one, other]
        .map(|n| entries[n - 1].kind)
        .contains(&sort.owner_kind())
    {
        return;
    }
    let least = least_unseen(one.abs_diff(other));
    let times = chance.below(0xffff / least + 1);
    let name = times * least + chance.one_of([1, 2, 2, 2, 3]);
    entries[one - 1] = entry(1, 0, crate::word(name), 0);
    entries[other - 1] = entry(1, 0, 2, 0);
}
