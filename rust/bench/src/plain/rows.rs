//! Entries that wait to be written in blocks.

use super::entry::Entry;
use super::read::sums;
use super::BLOCK;

/// The entries of a block.
const PER_BLOCK: usize = 63;

/// Twice N cells are enough for a normal form or a specimen of a description of fewer than N entries.
pub struct Rows<const N: usize> {
    cells: [[u64; 2]; N],
    used: usize,
}

impl<const N: usize> Rows<N> {
    pub fn new() -> Rows<N> {
        Rows {
            cells: [[0; 2]; N],
            used: 0,
        }
    }

    /// Adds an entry and answers its number.
    #[inline]
    pub fn push(&mut self, kind: u16, owner: u16, name: u16, number: u32) -> u16 {
        self.push_if(true, Entry::new(kind, owner, name, number as u16));
        self.used as u16
    }

    /// Adds an entry if it is wanted. Otherwise the next one takes its cell.
    #[inline]
    pub fn push_if(&mut self, wanted: bool, entry: Entry) {
        self.cells.as_flattened_mut()[self.used] = entry.0;
        self.used += usize::from(wanted);
    }

    /// The number of entries.
    #[inline]
    pub fn used(&self) -> usize {
        self.used
    }

    /// The bytes of the blocks of all.
    pub fn bytes(&self) -> usize {
        self.used.div_ceil(PER_BLOCK).max(1) * BLOCK
    }

    /// Adds entries again that stand after so many, so that those which these own are owned alike and the others by this one.
    #[inline]
    pub fn repeat(&mut self, after: usize, count: usize, owner: u16) {
        let further = (self.used - after) as u16;
        for at in after..after + count {
            let entry = Entry(self.cells.as_flattened()[at]);
            let own = entry.owner();
            let owner = if own > after {
                own as u16 + further
            } else {
                owner
            };
            self.push_if(true, entry.owned_by(owner));
        }
    }

    /// Writes all in blocks from the start of an output that is long enough, and answers their number.
    pub fn write(&self, out: &mut [u8]) -> usize {
        let rows = &self.cells.as_flattened()[..self.used];
        let blocks = out.as_chunks_mut::<BLOCK>().0;
        let count = self.used.div_ceil(PER_BLOCK).max(1);
        for (index, block) in blocks[..count].iter_mut().enumerate() {
            let rest = &rows[index * PER_BLOCK..];
            let rows = &rest[..rest.len().min(PER_BLOCK)];
            write_block(block, index + 1, rows, |row| row.to_le_bytes());
        }
        self.used
    }
}

/// Writes entries that are stored in blocks from the start of an output, if it is long enough.
pub fn write_stored(entries: &[[u8; 8]], out: &mut [u8]) -> Option<()> {
    let count = entries.len().div_ceil(PER_BLOCK).max(1);
    let blocks = out.as_chunks_mut::<BLOCK>().0.get_mut(..count)?;
    for (index, block) in blocks.iter_mut().enumerate() {
        let rest = &entries[index * PER_BLOCK..];
        let rows = &rest[..rest.len().min(PER_BLOCK)];
        write_block(block, index + 1, rows, |&row| row);
    }
    Some(())
}

#[inline(always)]
fn write_block<R>(
    block: &mut [u8; BLOCK],
    number: usize,
    rows: &[R],
    bytes: impl Fn(&R) -> [u8; 8],
) {
    block[..2].copy_from_slice(&(number as u16).to_le_bytes());
    block[2..4].copy_from_slice(&(rows.len() as u16).to_le_bytes());
    let cells = block[4..508].as_chunks_mut::<8>().0;
    for (cell, row) in cells.iter_mut().zip(rows) {
        *cell = bytes(row);
    }
    block[4 + 8 * rows.len()..].fill(0);
    // The checks are still zero, so they add nothing to the sums.
    let (sum, second) = sums(block);
    block[508..510].copy_from_slice(&second.to_le_bytes());
    block[510..].copy_from_slice(&sum.wrapping_add(second).to_le_bytes());
}
