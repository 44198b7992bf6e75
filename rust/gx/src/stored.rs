//! The stored form of descriptions: what stands in its blocks, where these are refused.

use crate::blocks::{self, Frame, BLOCK};
use crate::entry::{Entry, Says};

/// The entries of a block.
pub const STORED_ENTRIES: usize = 84;
/// The bytes of an entry.
pub const STORED_BYTES: usize = 6;
/// The most blocks.
pub const MOST_BLOCKS: usize = 12;
/// How a file ends that is in the stored form.
pub const ENDING: &str = "stored";

/// An entry in walking order.
#[derive(Clone, Copy, Debug, Default, PartialEq, Eq)]
pub struct Stored {
    /// The kind, 1 to 6 in what is accepted.
    pub kind: u8,
    /// How many links deep it stands.
    pub depth: u8,
    /// The property or the link.
    pub name: u16,
    /// n for kinds 3 and 4.
    pub number: u16,
}

impl Stored {
    /// What the entry says.
    pub fn says(self) -> Says {
        let Stored {
            kind, name, number, ..
        } = self;
        let e = Entry {
            kind,
            name,
            number,
            ..Entry::default()
        };
        e.says()
    }

    /// The six bytes.
    pub fn bytes(self) -> [u8; STORED_BYTES] {
        let ([n, m], [k, l]) = (self.name.to_le_bytes(), self.number.to_le_bytes());
        [self.kind, self.depth, n, m, k, l]
    }
}

/// The used entries of all whole blocks, at most 84 of each.
pub fn decode(bytes: &[u8]) -> Vec<Stored> {
    bytes.chunks_exact(BLOCK).flat_map(used_entries).collect()
}

fn used_entries(block: &[u8]) -> impl Iterator<Item = Stored> + '_ {
    let used = usize::from(u16::from_le_bytes([block[2], block[3]]));
    let entries = block[4..508].chunks_exact(STORED_BYTES);
    entries.take(used).map(|bytes| Stored {
        kind: bytes[0],
        depth: bytes[1],
        name: u16::from_le_bytes([bytes[2], bytes[3]]),
        number: u16::from_le_bytes([bytes[4], bytes[5]]),
    })
}

/// The frame of a block, counted from 1, if there is that block.
pub fn frame(bytes: &[u8], block: usize) -> Option<Frame> {
    blocks::frame_of(bytes, block, (STORED_BYTES, STORED_ENTRIES))
}

/// The block of an entry, and where its bytes begin in that block.
pub fn place_of(entry: usize) -> (usize, usize) {
    let at = entry.saturating_sub(1);
    (
        at / STORED_ENTRIES + 1,
        4 + STORED_BYTES * (at % STORED_ENTRIES),
    )
}
