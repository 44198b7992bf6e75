//! Blocks of 512 bytes and the entries in them.

use crate::refusal::{Refusal, CHECK, FRAME, LENGTH};

/// Blocks of 512 bytes (B2).
pub(crate) const BLOCK_BYTES: usize = 512;
const NUMBER_AT: usize = 0;
const USED_AT: usize = 2;
const ENTRIES_AT: usize = 4;
/// Where the second check stands (B6).
const SECOND_AT: usize = 508;
/// Where the first check stands (B7).
const CHECK_AT: usize = 510;

/// A form of the entries in a block. Frame and checks are the same in each.
#[derive(Clone, Copy, Debug)]
pub(crate) struct Form {
    entry_bytes: usize,
    block_entries: usize,
}

/// 63 entries of 8 bytes (B2).
pub(crate) const OWNING: Form = Form {
    entry_bytes: 8,
    block_entries: 63,
};
/// The stored form: shorter entries, which have a depth and no owner.
pub(crate) const WALKING: Form = Form {
    entry_bytes: 6,
    block_entries: 84,
};

/// Kind, a zero byte, owner, name, number (E1).
#[derive(Clone, Copy, Debug, Default, PartialEq, Eq)]
pub struct Entry {
    /// The kind, 1 to 9 in accepted inputs.
    pub kind: u8,
    /// The byte that is zero in accepted inputs.
    pub zero: u8,
    /// 0 for the top, or an earlier entry (E7). In a delivered record an item.
    pub owner: u16,
    /// The property or link, or 0 for kind 6; for kind 9 the number of a
    /// description in the dictionary.
    pub name: u16,
    /// n for kinds 3 and 4, count - 1 for kind 7, an item for kind 8, otherwise 0.
    pub number: u16,
}

impl Entry {
    /// The entry in these eight bytes; bytes that are not there read as 0.
    fn from_bytes(bytes: &[u8]) -> Entry {
        Entry {
            kind: byte(bytes, 0),
            zero: byte(bytes, 1),
            owner: word(bytes, 2),
            name: word(bytes, 4),
            number: word(bytes, 6),
        }
    }

    /// The eight bytes of this entry.
    fn to_bytes(self) -> Vec<u8> {
        let mut bytes = vec![self.kind, self.zero];
        bytes.extend(self.owner.to_le_bytes());
        bytes.extend(self.name.to_le_bytes());
        bytes.extend(self.number.to_le_bytes());
        bytes
    }
}

/// A byte; one that is not there reads as 0.
pub(crate) fn byte(bytes: &[u8], at: usize) -> u8 {
    bytes.get(at).copied().unwrap_or(0)
}

/// A word, low byte first (B1).
pub(crate) fn word(bytes: &[u8], at: usize) -> u16 {
    u16::from_le_bytes([byte(bytes, at), byte(bytes, at.saturating_add(1))])
}

/// The sum of the 255 words before it (B7). The second sum is one of the
/// words of the first (B7).
fn sum_of_words(block: &[u8]) -> u16 {
    words_before(block, CHECK_AT).fold(0, u16::wrapping_add)
}

/// Each word times its position, added (B6).
fn second_sum(block: &[u8]) -> u16 {
    (1..)
        .zip(words_before(block, SECOND_AT))
        .fold(0, |sum: u16, (number, word)| {
            sum.wrapping_add(word.wrapping_mul(number))
        })
}

/// The words of two bytes that stand before this byte of a block.
fn words_before(block: &[u8], end: usize) -> impl Iterator<Item = u16> + '_ {
    let before = block.get(..end).unwrap_or(block);
    before.chunks_exact(2).map(|pair| match *pair {
        [low, high] => u16::from_le_bytes([low, high]),
        _ => 0,
    })
}

/// The block number as stored in the block.
pub(crate) fn stored_number(block: &[u8]) -> u16 {
    word(block, NUMBER_AT)
}

/// The used entries of well-framed blocks, in order.
///
/// For other bytes: of each whole block as many entries as its used count
/// says, at most 63; a part of a block at the end is passed over.
pub fn decode(bytes: &[u8]) -> Vec<Entry> {
    rows_in(bytes, OWNING).map(Entry::from_bytes).collect()
}

/// The bytes of each used entry of this form, in order, as in `decode`.
pub(crate) fn rows_in(bytes: &[u8], form: Form) -> impl Iterator<Item = &[u8]> {
    bytes
        .chunks_exact(BLOCK_BYTES)
        .flat_map(move |block| used_rows(block, form))
}

fn used_rows(block: &[u8], form: Form) -> impl Iterator<Item = &[u8]> {
    block
        .get(ENTRIES_AT..SECOND_AT)
        .unwrap_or(&[])
        .chunks_exact(form.entry_bytes)
        .take(usize::from(word(block, USED_AT)))
}

/// The entries as blocks.
///
/// All blocks but the last are full, and only a sole block may be empty (B4).
pub fn encode(entries: &[Entry]) -> Vec<u8> {
    let rows: Vec<Vec<u8>> = entries.iter().map(|entry| entry.to_bytes()).collect();
    in_blocks(&rows, OWNING)
}

/// The bytes of each entry of this form, as blocks.
pub(crate) fn in_blocks(rows: &[Vec<u8>], form: Form) -> Vec<u8> {
    if rows.is_empty() {
        return one_block(1, &[]);
    }
    let blocks: Vec<Vec<u8>> = rows
        .chunks(form.block_entries)
        .enumerate()
        .map(|(index, used)| one_block(low_word(index.saturating_add(1)), used))
        .collect();
    blocks.concat()
}

/// The low 16 bits of a number.
fn low_word(number: usize) -> u16 {
    u16::try_from(number & 0xffff).unwrap_or(0)
}

/// One block with this number and these entries, which are no more than it
/// has room for.
fn one_block(number: u16, rows: &[Vec<u8>]) -> Vec<u8> {
    let mut block = Vec::with_capacity(BLOCK_BYTES);
    block.extend(number.to_le_bytes());
    block.extend(low_word(rows.len()).to_le_bytes());
    for row in rows {
        block.extend(row);
    }
    // Bytes of unused entries are zero (B5).
    block.resize(SECOND_AT, 0);
    let second = second_sum(&block);
    block.extend(second.to_le_bytes());
    let check = sum_of_words(&block);
    block.extend(check.to_le_bytes());
    block
}

/// The number of bytes of the entries as blocks.
pub(crate) fn length_in_blocks(entries: &[Entry]) -> usize {
    let blocks = entries.len().div_ceil(OWNING.block_entries).max(1);
    blocks.saturating_mul(BLOCK_BYTES)
}

/// Writes the entries as blocks from the start of the output; later bytes
/// stay. An output that is too short stays as it is.
pub(crate) fn write(entries: &[Entry], out: &mut [u8]) {
    write_blocks(&encode(entries), out);
}

/// As `write`, for blocks.
pub(crate) fn write_blocks(blocks: &[u8], out: &mut [u8]) {
    if let Some(start) = out.get_mut(..blocks.len()) {
        start.copy_from_slice(blocks);
    }
}

/// Refusal 1: the length is 0, no multiple of 512, or too much (R1).
pub(crate) fn check_length(bytes: &[u8], most_blocks: usize, input: u16) -> Result<(), Refusal> {
    let blocks = bytes.chunks_exact(BLOCK_BYTES);
    let whole = blocks.remainder().is_empty();
    if bytes.is_empty() || !whole || blocks.len() > most_blocks {
        return Err(Refusal::at(LENGTH, input, 0));
    }
    Ok(())
}

/// Refusals 2 and 3: the lowest block decides, 2 before 3 (R24).
pub(crate) fn check_blocks(bytes: &[u8], form: Form, input: u16) -> Result<(), Refusal> {
    let total = bytes.len() / BLOCK_BYTES;
    for (index, block) in bytes.chunks_exact(BLOCK_BYTES).enumerate() {
        let position = index.saturating_add(1);
        if !checks_are_right(block) {
            return Err(Refusal::at(CHECK, input, position));
        }
        if !frame_is_right(block, position, total, form) {
            return Err(Refusal::at(FRAME, input, position));
        }
    }
    Ok(())
}

/// Both sums: the second check is 2 as the first is (R2).
fn checks_are_right(block: &[u8]) -> bool {
    word(block, CHECK_AT) == sum_of_words(block) && word(block, SECOND_AT) == second_sum(block)
}

/// Number, used count and the bytes due to be zero.
fn frame_is_right(block: &[u8], position: usize, total: usize, form: Form) -> bool {
    // The number of a block is its position (B3).
    let number_right = usize::from(stored_number(block)) == position;
    let used = usize::from(word(block, USED_AT));
    let unused_at = ENTRIES_AT.saturating_add(used.saturating_mul(form.entry_bytes));
    number_right
        && used_is_right(used, position, total, form.block_entries)
        && zeros_are_right(block, unused_at)
}

/// All blocks but the last are full, and only a sole block may be empty (B4).
fn used_is_right(used: usize, position: usize, total: usize, most: usize) -> bool {
    if position < total {
        return used == most;
    }
    let fewest = if total == 1 { 0 } else { 1 };
    (fewest..=most).contains(&used)
}

/// Bytes of unused entries are zero (B5).
fn zeros_are_right(block: &[u8], unused_at: usize) -> bool {
    let unused = block.get(unused_at..SECOND_AT).unwrap_or(&[]);
    unused.iter().all(|&value| value == 0)
}
