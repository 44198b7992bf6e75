//! Unfolding: a plain description in place of one with named entries.

use crate::blocks::{length_in_blocks, write, Entry};
use crate::dictionary::Dictionary;
use crate::refusal::Refusal;

/// Writes the description unfolded, in blocks, and answers its number of
/// entries. It is input 1.
///
/// The contents of a name stand where it stood, in their order (D6) (D7).
///
/// The answer is the number of entries (D12), and one 7 exactly where the
/// output is shorter than what is written; later bytes stay (D12).
pub fn unfold(dict: &[u8], description: &[u8], out: &mut [u8]) -> Result<usize, Refusal> {
    let dictionary = Dictionary::read(dict)?;
    let plain = dictionary.read_description(description, 1)?;
    if out.len() < length_in_blocks(&plain) {
        return Err(Refusal::output_too_short());
    }
    write(&plain, out);
    Ok(plain.len())
}

/// The number of entries that the description has once unfolded: one for each
/// plain entry, and for a named one as many as the contents have.
///
/// The dictionary's descriptions are given unfolded. This is counted before
/// anything is unfolded, since 1,008 names of 1,008 entries each would be a
/// million entries.
pub(crate) fn unfolded_size(entries: &[Entry], dictionary: &[Vec<Entry>]) -> usize {
    entries
        .iter()
        .map(|entry| contents(entry, dictionary).map_or(1, Vec::len))
        .fold(0, usize::saturating_add)
}

/// The contents of a name stand where it stood, in their order (D6).
///
/// The dictionary's descriptions are given unfolded, so the contents have no
/// named entry and nothing is looked up twice.
pub(crate) fn unfolded(entries: &[Entry], dictionary: &[Vec<Entry>]) -> Vec<Entry> {
    let mut plain: Vec<Entry> = Vec::new();
    // What 0, the top, and then each entry are numbered in the plain list. A
    // named entry has no number there, and none is needed: it owns nothing.
    let mut numbers = vec![0];
    for entry in entries {
        let owner = numbers.get(usize::from(entry.owner)).copied().unwrap_or(0);
        match contents(entry, dictionary) {
            Some(contents) => {
                let before = plain.len();
                plain.extend(contents.iter().map(|e| put_in(e, owner, before)));
            }
            None => plain.push(owned_by(entry, owner)),
        }
        numbers.push(plain.len());
    }
    plain
}

/// An entry of the contents, put in at the place of the entry (D3): what was at
/// the top is now owned by the owner of the named entry; other owners are
/// counted on from the entries before.
fn put_in(entry: &Entry, owner: usize, before: usize) -> Entry {
    match usize::from(entry.owner) {
        0 => owned_by(entry, owner),
        own => owned_by(entry, before.saturating_add(own)),
    }
}

/// The entry with another owner.
fn owned_by(entry: &Entry, owner: usize) -> Entry {
    Entry {
        owner: u16::try_from(owner).unwrap_or(u16::MAX),
        ..*entry
    }
}

/// A named entry stands for the description of its name (D3): the entries of
/// that, or nothing for an entry of another kind.
fn contents<'a>(entry: &Entry, dictionary: &'a [Vec<Entry>]) -> Option<&'a Vec<Entry>> {
    if entry.kind != 9 {
        return None;
    }
    dictionary.get(usize::from(entry.name).checked_sub(1)?)
}

/// The largest depth of an entry in a plain description, 0 if it has none.
pub(crate) fn deepest(plain: &[Entry]) -> usize {
    let mut depths: Vec<usize> = Vec::new();
    for entry in plain {
        // Owner 0 gives depth 0 (E9).
        let depth = match usize::from(entry.owner).checked_sub(1) {
            Some(index) => depths.get(index).map_or(0, |depth| depth.saturating_add(1)),
            None => 0,
        };
        depths.push(depth);
    }
    depths.into_iter().max().unwrap_or(0)
}
