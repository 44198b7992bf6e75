//! Reading: one pass over the bytes for checks and frames, one over the entries.

use super::entry::{Entry, AT_LEAST, AT_MOST, EVERY, GROUP, HAS, LACKS, NOTHING};
use super::seen::Seen;
use super::single::{is_second, is_single_group};
use super::{size, Refusal, Size, BLOCK};

pub type Block = [u8; BLOCK];

/// The entries of a block.
const PER_BLOCK: usize = 63;
/// The deepest that an entry may stand.
pub const DEEPEST: u8 = 32;
/// The level of what cannot own.
pub const NEVER: u8 = 255;

/// What differs between descriptions and specimens.
pub struct Rules {
    most_blocks: usize,
    kinds: u16,
    owner_kind: u16,
    /// Whether a named entry is one whose name is not there, and otherwise one of a wrong kind.
    names: bool,
    /// The largest number, and the deepest that an entry may stand.
    most_number: u16,
    deepest: u8,
}

impl Rules {
    /// Whether an entry may own others.
    #[inline]
    pub fn owns(&self, entry: Entry) -> bool {
        entry.kind() == self.owner_kind
    }

    /// Whether an entry by itself is as the table has it.
    #[inline]
    pub fn allows(&self, entry: Entry) -> bool {
        entry.form_is_right(self.kinds)
    }
}

/// A description where no dictionary is taken.
pub const DESCRIPTION: Rules = Rules {
    most_blocks: 16,
    kinds: 1 << HAS | 1 << LACKS | 1 << AT_LEAST | 1 << AT_MOST | 1 << EVERY | 1 << NOTHING,
    owner_kind: EVERY,
    names: false,
    most_number: u16::MAX,
    deepest: DEEPEST,
};

/// A field sheet. What it refuses and a description does not is outside its profile.
const SHEET: Rules = Rules {
    kinds: 1 << HAS | 1 << AT_LEAST | 1 << AT_MOST | 1 << EVERY,
    most_number: 99,
    deepest: 3,
    ..DESCRIPTION
};

/// A description where a dictionary is taken, of length 0.
pub const NAMING: Rules = Rules {
    names: true,
    ..DESCRIPTION
};

pub const SPECIMEN: Rules = Rules {
    most_blocks: 32,
    kinds: 1 << HAS | 1 << GROUP,
    owner_kind: GROUP,
    ..DESCRIPTION
};

/// A description of a call that takes a dictionary.
#[derive(Clone, Copy)]
pub enum Described<'a> {
    /// As it was sent, with a dictionary of length 0.
    Sent(&'a [u8]),
    /// Unfolded, so that it is right.
    Unfolded(&'a [u8]),
    /// With a dictionary that is not refused.
    Refused(Refusal),
}

impl<'a> Described<'a> {
    pub fn bytes(self) -> &'a [u8] {
        match self {
            Described::Sent(bytes) | Described::Unfolded(bytes) => bytes,
            Described::Refused(_) => &[],
        }
    }

    /// Reads it as `read` does.
    #[inline(always)]
    pub fn read<const N: usize>(
        self,
        input: u16,
        show: impl FnMut(usize, Entry),
    ) -> Result<usize, Refusal> {
        match self {
            Described::Sent(bytes) => read::<N>(bytes, &NAMING, input, show),
            Described::Unfolded(bytes) => Ok(show_all(bytes, show)),
            Described::Refused(refusal) => Err(refusal),
        }
    }
}

/// Reads a description and answers its number of entries.
pub fn read_description(bytes: &[u8]) -> Result<usize, Refusal> {
    read_service(bytes, 1)
}

/// Reads a description as the input of this number, where no dictionary is taken.
pub fn read_service(bytes: &[u8], input: u16) -> Result<usize, Refusal> {
    match size(bytes.len()) {
        Size::Small => read::<64>(bytes, &DESCRIPTION, input, |_, _| ()),
        _ => read::<1024>(bytes, &DESCRIPTION, input, |_, _| ()),
    }
}

/// Reads a field sheet and answers its number of entries.
pub fn read_sheet(bytes: &[u8]) -> Result<usize, Refusal> {
    match size(bytes.len()) {
        Size::Small => read::<64>(bytes, &SHEET, 1, |_, _| ()),
        _ => read::<1024>(bytes, &SHEET, 1, |_, _| ()),
    }
}

/// Reads a specimen and answers its number of entries.
pub fn read_specimen(bytes: &[u8]) -> Result<usize, Refusal> {
    match size(bytes.len()) {
        Size::Small => read::<64>(bytes, &SPECIMEN, 1, |_, _| ()),
        _ => read::<2048>(bytes, &SPECIMEN, 1, |_, _| ()),
    }
}

/// Reads an input of fewer than N entries. Each entry that is accepted is shown with its number, before later ones are looked at.
#[inline(always)]
pub fn read<const N: usize>(
    bytes: &[u8],
    rules: &Rules,
    input: u16,
    show: impl FnMut(usize, Entry),
) -> Result<usize, Refusal> {
    let refused = |(number, place)| refusal(number, input, place);
    let blocks = right_blocks(bytes, rules, input)?;
    check_entries::<N>(blocks, rules, show).map_err(refused)
}

pub fn refusal(number: u8, input: u16, place: usize) -> Refusal {
    Refusal {
        number,
        input,
        place: place as u16,
    }
}

/// The blocks of an input, if they are right.
#[inline]
pub fn right_blocks<'a>(
    bytes: &'a [u8],
    rules: &Rules,
    input: u16,
) -> Result<&'a [Block], Refusal> {
    let (blocks, rest) = bytes.as_chunks::<BLOCK>();
    if blocks.is_empty() || !rest.is_empty() || blocks.len() > rules.most_blocks {
        return Err(refusal(1, input, 0));
    }
    let refused = |(number, place)| refusal(number, input, place);
    check_blocks::<8, PER_BLOCK>(blocks).map_err(refused)?;
    Ok(blocks)
}

/// The entries of a block that is right, as they are stored.
#[inline]
pub fn stored(block: &Block) -> &[[u8; 8]] {
    &block[4..508].as_chunks::<8>().0[..used(block)]
}

/// The entries of a block that is right.
#[inline]
pub fn entries_of(block: &Block) -> impl Iterator<Item = Entry> + '_ {
    let entries = stored(block).iter();
    entries.map(|&bytes| Entry(u64::from_le_bytes(bytes)))
}

/// Shows the entries of an input that is right, and answers their number.
#[inline(always)]
fn show_all(bytes: &[u8], mut show: impl FnMut(usize, Entry)) -> usize {
    let mut number = 0;
    for block in bytes.as_chunks::<BLOCK>().0 {
        for entry in entries_of(block) {
            number += 1;
            show(number, entry);
        }
    }
    number
}

/// An entry of an accepted input, by its number.
#[inline]
pub fn entry_at(bytes: &[u8], number: usize) -> Entry {
    let index = number - 1;
    let at = index / PER_BLOCK * BLOCK + 4 + index % PER_BLOCK * 8;
    let bytes = bytes[at..].first_chunk().copied().unwrap_or_default();
    Entry(u64::from_le_bytes(bytes))
}

/// Checks blocks of entries of WIDTH bytes, ROOM of them to a block.
#[inline]
pub fn check_blocks<const WIDTH: usize, const ROOM: usize>(
    blocks: &[Block],
) -> Result<(), (u8, usize)> {
    for (index, block) in blocks.iter().enumerate() {
        if !checks_are_right(block) {
            return Err((2, index + 1));
        }
        if !frame_is_right::<WIDTH, ROOM>(block, index + 1, blocks.len()) {
            return Err((3, index + 1));
        }
    }
    Ok(())
}

/// The sums count the checks too, as words 255 and 256, so the first comes twice and both come 256 times.
#[inline]
fn checks_are_right(block: &Block) -> bool {
    let (second, first) = (word(block, 508), word(block, 510));
    let (sum, numbered) = sums(block);
    let twice = first.wrapping_add(first);
    let both = second.wrapping_add(first).wrapping_mul(256);
    (sum == twice) & (numbered == both)
}

/// The sum of all 256 words of a block, the checks among them, and the sum of each times its number, in one pass.
#[inline]
pub fn sums(block: &Block) -> (u16, u16) {
    let words = (1..).zip(block.as_chunks::<2>().0);
    words.fold((0, 0), |(sum, numbered), (number, &word)| {
        let word = u16::from_le_bytes(word);
        let times: u16 = word.wrapping_mul(number);
        (word.wrapping_add(sum), times.wrapping_add(numbered))
    })
}

fn frame_is_right<const WIDTH: usize, const ROOM: usize>(
    block: &Block,
    position: usize,
    blocks: usize,
) -> bool {
    let used = used(block);
    let fewest = match (position < blocks, blocks) {
        (true, _) => ROOM,
        (false, 1) => 0,
        _ => 1,
    };
    usize::from(word(block, 0)) == position
        && (fewest..=ROOM).contains(&used)
        && block[4 + WIDTH * used..508]
            .iter()
            .fold(0, |all, &b| all | b)
            == 0
}

fn check_entries<const N: usize>(
    blocks: &[Block],
    rules: &Rules,
    mut show: impl FnMut(usize, Entry),
) -> Result<usize, (u8, usize)> {
    // For each entry the depth of what it owns. Entries not yet come to cannot own.
    let mut levels = [NEVER; N];
    levels[0] = 0;
    // Made with the first group by a link that leads to one item only, so that other inputs don't pay for clearing it.
    let mut led: Option<Seen<N>> = None;
    let mut number = 0;
    for block in blocks {
        for entry in entries_of(block) {
            number += 1;
            let level = levels.get(entry.owner()).copied().unwrap_or(NEVER);
            if !is_right(entry, rules, level) {
                return Err((fault(entry, rules, level), number));
            }
            let looked_at = rules.owner_kind == GROUP && is_single_group(entry);
            if looked_at && is_second(led.get_or_insert_with(Seen::new), entry) {
                return Err((9, number));
            }
            levels[number] = if rules.owns(entry) { level + 1 } else { NEVER };
            show(number, entry);
        }
    }
    Ok(number)
}

/// The refusal's number of an entry of a description, if it has one, by the levels of those before it. Else its level is taken down.
#[inline(always)]
pub fn judge_next<const N: usize>(
    entry: Entry,
    number: usize,
    levels: &mut [u8; N],
) -> Result<(), u8> {
    let level = levels[..number].get(entry.owner()).copied();
    let level = level.unwrap_or(NEVER);
    if !is_right(entry, &DESCRIPTION, level) {
        return Err(fault(entry, &DESCRIPTION, level));
    }
    levels[number] = match DESCRIPTION.owns(entry) {
        true => level + 1,
        false => NEVER,
    };
    Ok(())
}

/// Whether an entry that is not named breaks no rule at this level.
#[inline]
pub fn is_right(entry: Entry, rules: &Rules, level: u8) -> bool {
    let small = entry.number() <= rules.most_number;
    entry.form_is_right(rules.kinds) & small & (level <= rules.deepest)
}

/// The refusal's number for an entry that breaks a rule.
#[cold]
pub fn fault(entry: Entry, rules: &Rules, level: u8) -> u8 {
    match entry.form_is_right(rules.kinds) {
        _ if rules.deepest < DEEPEST => outside(entry, level),
        false if rules.names && entry.is_named() => 13,
        false => 4,
        true => place_fault(level),
    }
}

/// The same for an entry that is not in a field sheet.
#[cold]
fn outside(entry: Entry, level: u8) -> u8 {
    match is_right(entry, &DESCRIPTION, level) {
        true => 19,
        false => fault(entry, &DESCRIPTION, level),
    }
}

/// The same for an entry whose form is right.
#[cold]
pub fn place_fault(level: u8) -> u8 {
    match level {
        NEVER => 5,
        _ => 6,
    }
}

fn used(block: &Block) -> usize {
    usize::from(word(block, 2))
}

#[inline]
fn word(block: &Block, at: usize) -> u16 {
    u16::from_le_bytes([block[at], block[at + 1]])
}
