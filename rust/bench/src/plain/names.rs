//! The dictionary: what its descriptions come to once unfolded, and calls that have one.

use super::list::{Parts, MOST};
use super::read::{
    entries_of, fault, is_right, place_fault, read, refusal, right_blocks, Block, DEEPEST, NAMING,
    NEVER,
};
use super::unfold::unfold_into;
use super::{Refusal, BLOCK, TOO_SHORT};

/// The most entries of a description once unfolded.
const MOST_ENTRIES: u32 = 1008;
/// The input number of the dictionary.
const DICTIONARY: u16 = 100;
/// The bytes of the longest description.
pub const ROOM: usize = 16 * BLOCK;

/// The descriptions of a dictionary that is not refused, counted from 1.
pub struct Names<'a> {
    parts: [&'a [Block]; MOST + 1],
    extents: [Extent; MOST + 1],
    count: usize,
}

/// What a description comes to once unfolded.
#[derive(Clone, Copy, Default)]
struct Extent {
    entries: u32,
    /// One more than the depth of the deepest entry, 0 where there is none.
    levels: u32,
    /// How many entries of it name a description.
    names: u32,
}

impl<'a> Names<'a> {
    /// Reads a dictionary; none where its length is 0.
    pub fn read(dictionary: &'a [u8]) -> Result<Option<Names<'a>>, Refusal> {
        let parts = Parts::of(dictionary, DICTIONARY)?;
        if parts.is_empty() {
            return Ok(None);
        }
        let mut names = Names {
            parts: [&[]; MOST + 1],
            extents: [Extent::default(); MOST + 1],
            count: 0,
        };
        for part in parts {
            let number = names.count + 1;
            let extent = names.extent(part.as_flattened(), DICTIONARY + number as u16)?;
            names.parts[number] = part;
            names.extents[number] = extent;
            names.count = number;
        }
        Ok(Some(names))
    }

    /// The blocks of the description with this name.
    pub fn part(&self, name: usize) -> &'a [Block] {
        self.parts[name]
    }

    /// The number of entries that a name comes to.
    #[inline]
    pub fn entries(&self, name: usize) -> usize {
        self.extents[name].entries as usize
    }

    /// Reads a description that names the ones read so far.
    fn extent(&self, description: &[u8], input: u16) -> Result<Extent, Refusal> {
        let blocks = right_blocks(description, &NAMING, input)?;
        let extent = match blocks.len() {
            1 => self.sized_extent::<64>(blocks),
            _ => self.sized_extent::<1024>(blocks),
        };
        let extent = extent.map_err(|(number, place)| refusal(number, input, place))?;
        if extent.entries > MOST_ENTRIES || extent.levels > u32::from(DEEPEST) + 1 {
            return Err(refusal(14, input, 0));
        }
        Ok(extent)
    }

    /// Checks the entries of a description of fewer than N, and adds up what they come to.
    fn sized_extent<const N: usize>(&self, blocks: &[Block]) -> Result<Extent, (u8, usize)> {
        // For each entry the depth of what it owns. Entries not yet come to cannot own, and named ones never do.
        let mut levels = [NEVER; N];
        levels[0] = 0;
        let mut extent = Extent::default();
        let mut number = 0;
        for entry in blocks.iter().flat_map(entries_of) {
            number += 1;
            let level = levels.get(entry.owner()).copied().unwrap_or(NEVER);
            if entry.is_named() {
                let name = usize::from(entry.name());
                if name == 0 || name > self.count {
                    return Err((13, number));
                }
                if level > DEEPEST {
                    return Err((place_fault(level), number));
                }
                let named = self.extents[name];
                let deepest = (u32::from(level) + named.levels) * u32::from(named.entries > 0);
                extent.entries += named.entries;
                extent.levels = extent.levels.max(deepest);
                extent.names += 1;
                continue;
            }
            if !is_right(entry, &NAMING, level) {
                return Err((fault(entry, &NAMING, level), number));
            }
            levels[number] = if NAMING.owns(entry) { level + 1 } else { NEVER };
            extent.entries += 1;
            extent.levels = extent.levels.max(u32::from(level) + 1);
        }
        Ok(extent)
    }

    /// The description once unfolded: as it was sent where it names nothing, and otherwise as it is written into the room.
    pub fn unfolded<'b>(
        &self,
        description: &'b [u8],
        input: u16,
        room: &'b mut [u8; ROOM],
    ) -> Result<&'b [u8], Refusal> {
        let extent = self.extent(description, input)?;
        if extent.names == 0 {
            return Ok(description);
        }
        self.write(description, extent, room);
        Ok(&room[..length(extent.entries as usize)])
    }

    /// Writes a description that is not refused, unfolded.
    fn write(&self, description: &[u8], extent: Extent, out: &mut [u8]) {
        let blocks = description.as_chunks::<BLOCK>().0;
        match extent.entries {
            0..=64 => unfold_into::<32>(self, blocks, out),
            65..=256 => unfold_into::<128>(self, blocks, out),
            _ => unfold_into::<512>(self, blocks, out),
        }
    }
}

/// The bytes of the blocks of this many entries.
fn length(entries: usize) -> usize {
    BLOCK * entries.div_ceil(63).max(1)
}

/// Writes a description unfolded, and answers its number of entries.
pub fn unfold(dictionary: &[u8], description: &[u8], out: &mut [u8]) -> Result<usize, Refusal> {
    let Some(names) = Names::read(dictionary)? else {
        let entries = read::<1024>(description, &NAMING, 1, |_, _| ())?;
        return copied(description, entries, out);
    };
    let extent = names.extent(description, 1)?;
    let entries = extent.entries as usize;
    if extent.names == 0 {
        return copied(description, entries, out);
    }
    if out.len() < length(entries) {
        return Err(TOO_SHORT);
    }
    names.write(description, extent, out);
    Ok(entries)
}

/// Writes a description that names nothing.
fn copied(description: &[u8], entries: usize, out: &mut [u8]) -> Result<usize, Refusal> {
    let out = out.get_mut(..description.len()).ok_or(TOO_SHORT)?;
    out.copy_from_slice(description);
    Ok(entries)
}
