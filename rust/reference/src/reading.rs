//! Reading of descriptions and specimens: refusals 1 to 6, 9 and 13.

use crate::blocks::{check_blocks, check_length, decode, Entry, OWNING};
use crate::refusal::{Refusal, DEPTH, ENTRY, NAME, OWNER, PROFILE, SECOND_ITEM};
use crate::sheet::within_profile;
use crate::tree::Link;

/// At most 32 owners above an entry (E9).
pub(crate) const MOST_DEPTH: usize = 32;

/// At most 16 blocks (B8).
pub(crate) const MOST_ENTRIES: usize = 1008;

/// The most blocks of a description.
pub(crate) const MOST_DESCRIPTION_BLOCKS: usize = 16;

/// The most blocks of a specimen or of a delivered record.
pub(crate) const MOST_SPECIMEN_BLOCKS: usize = 32;

/// The sorts of input.
#[derive(Clone, Copy, Debug, PartialEq, Eq)]
pub(crate) enum Sort {
    /// A description where there is no dictionary, not even one of length 0.
    Description,
    /// A description that may name the descriptions of a dictionary, from the
    /// first up to the one with this number; 0 if there is none to be named.
    Naming(usize),
    /// A description that is to be a field sheet.
    Sheet,
    Specimen,
}

impl Sort {
    /// At most 16 blocks, of a specimen 32 (B8).
    fn most_blocks(self) -> usize {
        match self {
            Sort::Description | Sort::Naming(_) | Sort::Sheet => MOST_DESCRIPTION_BLOCKS,
            Sort::Specimen => MOST_SPECIMEN_BLOCKS,
        }
    }

    /// An 'every' owns in a description, a group in a specimen (E7).
    fn owner_kind(self) -> u8 {
        match self {
            Sort::Description | Sort::Naming(_) | Sort::Sheet => 5,
            Sort::Specimen => 7,
        }
    }

    /// Kinds 1 to 6 in descriptions, 1 and 7 in specimens (E4). Where there is a
    /// dictionary, descriptions use kind 9 (E4) too.
    fn uses(self, kind: u8) -> bool {
        match self {
            Sort::Description | Sort::Sheet => (1..=6).contains(&kind),
            Sort::Naming(_) => (1..=6).contains(&kind) || kind == 9,
            Sort::Specimen => kind == 1 || kind == 7,
        }
    }

    /// Whether a named entry may have this name: it is not a name that may not be
    /// given (R13).
    fn knows(self, name: u16) -> bool {
        match self {
            Sort::Naming(most) => (1..=most).contains(&usize::from(name)),
            Sort::Description | Sort::Sheet | Sort::Specimen => false,
        }
    }
}

/// Reads a description and answers its number of entries. It is input 1. It
/// takes no dictionary, so kind 9 is not allowed.
pub fn read_description(bytes: &[u8]) -> Result<usize, Refusal> {
    Ok(read(bytes, Sort::Description, 1)?.len())
}

/// Reads a specimen and answers its number of entries. It is input 1.
pub fn read_specimen(bytes: &[u8]) -> Result<usize, Refusal> {
    Ok(read(bytes, Sort::Specimen, 1)?.len())
}

/// The entries of an accepted input, or its refusal.
///
/// The length, then the lowest block, then the lowest entry (R24). 13 comes
/// after 4 at its entry, and 9 after 6.
pub(crate) fn read(bytes: &[u8], sort: Sort, input: u16) -> Result<Vec<Entry>, Refusal> {
    check_length(bytes, sort.most_blocks(), input)?;
    check_blocks(bytes, OWNING, input)?;
    let entries = decode(bytes);
    check_entries(&entries, sort, input)?;
    Ok(entries)
}

/// The lowest entry decides, 4 before 5 before 6 (R24), or 13 after 4, or 9
/// after them
pub(crate) fn check_entries(entries: &[Entry], sort: Sort, input: u16) -> Result<(), Refusal> {
    let mut earlier: Vec<(Entry, usize)> = Vec::new();
    for entry in entries {
        let place = earlier.len().saturating_add(1);
        let depth =
            depth(entry, &earlier, sort).map_err(|number| Refusal::at(number, input, place))?;
        earlier.push((*entry, depth));
        if brings_a_second_item(entry, &earlier) {
            return Err(Refusal::at(SECOND_ITEM, input, place));
        }
        if sort == Sort::Sheet && !within_profile(entry, depth) {
            return Err(Refusal::at(PROFILE, input, place));
        }
    }
    Ok(())
}

/// A group that brings its owner a second item by a single link (R9); the
/// entry is the last of those so far.
///
/// All items of the owner are linked to the same items of its groups, so one
/// item of the owner has as many as the groups have together.
fn brings_a_second_item(entry: &Entry, so_far: &[(Entry, usize)]) -> bool {
    let link = Link(entry.name);
    entry.kind == 7 && link.is_single() && items_by(entry.owner, link, so_far) > 1
}

/// Groups of one owner and link add up (F9).
fn items_by(owner: u16, link: Link, so_far: &[(Entry, usize)]) -> u64 {
    so_far
        .iter()
        .filter(|(e, _)| e.kind == 7 && e.owner == owner && Link(e.name) == link)
        .map(|(e, _)| u64::from(e.number).saturating_add(1))
        .fold(0, u64::saturating_add)
}

/// The depth of an entry, given the earlier entries with their depths; or
/// the number of the refusal.
fn depth(entry: &Entry, earlier: &[(Entry, usize)], sort: Sort) -> Result<usize, u8> {
    if !sort.uses(entry.kind) || entry.zero != 0 || !within_table(entry) {
        return Err(ENTRY);
    }
    if entry.kind == 9 && !sort.knows(entry.name) {
        return Err(NAME);
    }
    let depth = match owner_of(entry, earlier) {
        // Owner 0 gives depth 0 (E9).
        Owner::Top => 0,
        Owner::Entry(owner, depth) if owner.kind == sort.owner_kind() => depth.saturating_add(1),
        _ => return Err(OWNER),
    };
    if depth > MOST_DEPTH {
        return Err(DEPTH);
    }
    Ok(depth)
}

/// What an entry's owner field names.
enum Owner {
    Top,
    Entry(Entry, usize),
    NotEarlier,
}

/// 0 for the top, or an earlier entry (E7).
fn owner_of(entry: &Entry, earlier: &[(Entry, usize)]) -> Owner {
    let Some(index) = usize::from(entry.owner).checked_sub(1) else {
        return Owner::Top;
    };
    match earlier.get(index) {
        Some(&(owner, depth)) => Owner::Entry(owner, depth),
        None => Owner::NotEarlier,
    }
}

/// Whether an entry has a kind that a description may have without a
/// dictionary, and the name and number of that kind.
pub(crate) fn is_of_a_description(entry: &Entry) -> bool {
    Sort::Description.uses(entry.kind) && within_table(entry)
}

/// The columns Name and Number of the table of kinds; of a named entry has
/// any name and number 0 (D3) (E5) the name is left to 13.
fn within_table(entry: &Entry) -> bool {
    match entry.kind {
        1 | 2 | 5 => entry.name != 0 && entry.number == 0,
        3 | 4 | 7 => entry.name != 0,
        6 => entry.name == 0 && entry.number == 0,
        9 => entry.number == 0,
        _ => false,
    }
}
