//! The stored form: entries in walking order, with a depth and no owner.

use crate::blocks::{
    byte, check_blocks, check_length, in_blocks, length_in_blocks, rows_in, word, write,
    write_blocks, Entry, WALKING,
};
use crate::reading::{is_of_a_description, read, Sort, MOST_DEPTH};
use crate::refusal::{Refusal, DEPTH, ENTRY, WALK};

/// The most blocks in the stored form: 1,008 entries, 84 to a block.
const MOST_BLOCKS: usize = 12;

/// An entry of the stored form: kind (1 byte), depth (1 byte), name, number (2
/// bytes each).
#[derive(Clone, Copy, Debug, PartialEq, Eq)]
struct Stored {
    kind: u8,
    depth: u8,
    name: u16,
    number: u16,
}

impl Stored {
    fn from_bytes(bytes: &[u8]) -> Stored {
        Stored {
            kind: byte(bytes, 0),
            depth: byte(bytes, 1),
            name: word(bytes, 2),
            number: word(bytes, 4),
        }
    }

    fn to_bytes(self) -> Vec<u8> {
        let mut bytes = vec![self.kind, self.depth];
        bytes.extend(self.name.to_le_bytes());
        bytes.extend(self.number.to_le_bytes());
        bytes
    }

    /// The entry of a description with this owner.
    fn owned_by(self, owner: u16) -> Entry {
        Entry {
            kind: self.kind,
            zero: 0,
            owner,
            name: self.name,
            number: self.number,
        }
    }
}

/// Writes a description in the stored form and answers its number of entries.
/// Later bytes of the output stay.
///
/// It is input 1 and takes no dictionary. 7 is the answer exactly where the
/// output is shorter than what is to be written.
pub fn to_stored(description: &[u8], out: &mut [u8]) -> Result<usize, Refusal> {
    let entries = read(description, Sort::Description, 1)?;
    let mut walked = Vec::new();
    walk(&entries, 0, 0, &mut walked);
    let rows: Vec<Vec<u8>> = walked.iter().map(|entry| entry.to_bytes()).collect();
    let blocks = in_blocks(&rows, WALKING);
    if out.len() < blocks.len() {
        return Err(Refusal::output_too_short());
    }
    write_blocks(&blocks, out);
    Ok(walked.len())
}

/// Writes the description that is given in the stored form, with owners, and
/// answers its number of entries. Later bytes of the output stay.
///
/// It is input 1. In an entry, a kind, name or number that is not allowed (4)
/// comes before a depth that no owner gives (15), and that before a depth above
/// 32 (6). 7 is the answer exactly where the output is shorter than what is to
/// be written.
pub fn from_stored(stored: &[u8], out: &mut [u8]) -> Result<usize, Refusal> {
    check_length(stored, MOST_BLOCKS, 1)?;
    check_blocks(stored, WALKING, 1)?;
    let walked: Vec<Stored> = rows_in(stored, WALKING).map(Stored::from_bytes).collect();
    let entries = owned(&walked)?;
    if out.len() < length_in_blocks(&entries) {
        return Err(Refusal::output_too_short());
    }
    write(&entries, out);
    Ok(entries.len())
}

/// Adds what this owner owns: each entry followed by what it owns, entries of
/// one owner by their numbers.
fn walk(entries: &[Entry], owner: usize, depth: u8, walked: &mut Vec<Stored>) {
    for (number, entry) in (1..).zip(entries) {
        if usize::from(entry.owner) != owner {
            continue;
        }
        walked.push(Stored {
            kind: entry.kind,
            depth,
            name: entry.name,
            number: entry.number,
        });
        if entry.kind == 5 {
            walk(entries, number, depth.saturating_add(1), walked);
        }
    }
}

/// The entries with their owners, in the same order; or the refusal of the
/// lowest that is wrong.
fn owned(walked: &[Stored]) -> Result<Vec<Entry>, Refusal> {
    let mut entries = Vec::new();
    for (index, &entry) in walked.iter().enumerate() {
        let earlier = walked.get(..index).unwrap_or(&[]);
        let owner = checked_owner(entry, earlier)
            .map_err(|number| Refusal::at(number, 1, index.saturating_add(1)))?;
        entries.push(entry.owned_by(owner));
    }
    Ok(entries)
}

/// The owner of an entry, or the number by which the entry is refused.
fn checked_owner(entry: Stored, earlier: &[Stored]) -> Result<u16, u8> {
    if !is_of_a_description(&entry.owned_by(0)) {
        return Err(ENTRY);
    }
    let owner = owner(entry, earlier).ok_or(WALK)?;
    if usize::from(entry.depth) > MOST_DEPTH {
        return Err(DEPTH);
    }
    Ok(owner)
}

/// The owner of an entry: 0 at depth 0, else the nearest earlier entry of
/// lesser depth, if there is one and it is an 'every' one step up.
fn owner(entry: Stored, earlier: &[Stored]) -> Option<u16> {
    let Some(above) = entry.depth.checked_sub(1) else {
        return Some(0);
    };
    let index = earlier
        .iter()
        .rposition(|other| other.depth < entry.depth)?;
    let nearest = earlier.get(index)?;
    if nearest.kind != 5 || nearest.depth != above {
        return None;
    }
    u16::try_from(index.saturating_add(1)).ok()
}
