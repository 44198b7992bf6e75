//! Entries as blocks, and blocks as entries.
//!
//! Nothing here judges: whether blocks are accepted is the library's answer. What is read here of refused blocks serves to show
//! what stands in them.

use crate::entry::Entry;

/// The bytes of a block.
pub const BLOCK: usize = 512;
/// The entries of a block.
pub const BLOCK_ENTRIES: usize = 63;
const ENTRY_BYTES: usize = 8;
const ENTRIES_AT: usize = 4;
const SECOND_AT: usize = 508;
const FIRST_AT: usize = 510;

/// The entries as blocks; none at all are one block.
pub fn encode(entries: &[Entry]) -> Vec<u8> {
    if entries.is_empty() {
        return one_block(1, &[]);
    }
    let numbered = (1usize..).zip(entries.chunks(BLOCK_ENTRIES));
    numbered
        .flat_map(|(number, used)| one_block((number & 0xffff) as u16, used))
        .collect()
}

fn one_block(number: u16, entries: &[Entry]) -> Vec<u8> {
    let mut block = Vec::with_capacity(BLOCK);
    block.extend(number.to_le_bytes());
    block.extend((entries.len() as u16).to_le_bytes());
    for e in entries {
        block.extend(entry_bytes(e));
    }
    block.resize(SECOND_AT, 0);
    let second = second_sum(&block);
    block.extend(second.to_le_bytes());
    let first = first_sum(&block);
    block.extend(first.to_le_bytes());
    block
}

/// The eight bytes of an entry.
pub fn entry_bytes(e: &Entry) -> [u8; ENTRY_BYTES] {
    let ([o, p], [n, m], [k, l]) = (
        e.owner.to_le_bytes(),
        e.name.to_le_bytes(),
        e.number.to_le_bytes(),
    );
    [e.kind, e.zero, o, p, n, m, k, l]
}

/// The used entries of all whole blocks, at most 63 of each.
pub fn decode(bytes: &[u8]) -> Vec<Entry> {
    bytes.chunks_exact(BLOCK).flat_map(used_entries).collect()
}

fn used_entries(block: &[u8]) -> impl Iterator<Item = Entry> + '_ {
    let used = usize::from(word(block, 2)).min(BLOCK_ENTRIES);
    block[ENTRIES_AT..SECOND_AT]
        .chunks_exact(ENTRY_BYTES)
        .take(used)
        .map(|bytes| Entry {
            kind: bytes[0],
            zero: bytes[1],
            owner: word(bytes, 2),
            name: word(bytes, 4),
            number: word(bytes, 6),
        })
}

/// The two bytes from here, low byte first; bytes that are not there read as 0.
fn word(bytes: &[u8], at: usize) -> u16 {
    let byte = |at: usize| bytes.get(at).copied().unwrap_or(0);
    u16::from_le_bytes([byte(at), byte(at + 1)])
}

/// The sum of the 255 words before the first check, of which the second check is the last.
fn first_sum(block: &[u8]) -> u16 {
    let words = (0..FIRST_AT).step_by(2).map(|at| word(block, at));
    words.fold(0, u16::wrapping_add)
}

/// The sum of the 254 words before the second check, each times its number, counted from 1.
fn second_sum(block: &[u8]) -> u16 {
    let words = (0..SECOND_AT).step_by(2).map(|at| word(block, at));
    let times = (1u16..)
        .zip(words)
        .map(|(number, word)| number.wrapping_mul(word));
    times.fold(0, u16::wrapping_add)
}

/// A check of a block.
#[derive(Clone, Copy, Debug, PartialEq, Eq)]
pub struct Check {
    /// The check as it is stored.
    pub says: u16,
    /// The sum that it is due to be.
    pub sum: u16,
}

impl Check {
    /// Whether it says what it is due to be.
    pub fn is_right(self) -> bool {
        self.says == self.sum
    }
}

/// What stands in the frame of a block.
#[derive(Clone, Copy, Debug, PartialEq, Eq)]
pub struct Frame {
    /// The block's number as it is stored.
    pub number: u16,
    /// How many entries it says are used.
    pub used: u16,
    /// The first check.
    pub first: Check,
    /// The second check.
    pub second: Check,
    /// The first byte due to be zero that is not, with its value.
    pub not_zero: Option<(usize, u8)>,
}

/// The frame of a block, counted from 1, if there is that block.
pub fn frame(bytes: &[u8], block: usize) -> Option<Frame> {
    frame_of(bytes, block, (ENTRY_BYTES, BLOCK_ENTRIES))
}

/// The same where entries have so many bytes, and a block has room for so many.
pub(crate) fn frame_of(
    bytes: &[u8],
    block: usize,
    (entry_bytes, most): (usize, usize),
) -> Option<Frame> {
    let block = bytes.chunks_exact(BLOCK).nth(block.checked_sub(1)?)?;
    let used = word(block, 2);
    let unused_at = ENTRIES_AT + entry_bytes * usize::from(used).min(most);
    let not_zero = (unused_at..SECOND_AT).find(|&at| block[at] != 0);
    Some(Frame {
        number: word(block, 0),
        used,
        first: Check {
            says: word(block, FIRST_AT),
            sum: first_sum(block),
        },
        second: Check {
            says: word(block, SECOND_AT),
            sum: second_sum(block),
        },
        not_zero: not_zero.map(|at| (at, block[at])),
    })
}

/// The block of an entry, and where its bytes begin in that block; both counted as in the format, blocks from 1,
/// bytes from 0.
pub fn place_of(entry: usize) -> (usize, usize) {
    let at = entry.saturating_sub(1);
    (
        at / BLOCK_ENTRIES + 1,
        ENTRIES_AT + ENTRY_BYTES * (at % BLOCK_ENTRIES),
    )
}
