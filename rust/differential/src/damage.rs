//! Bytes with one fault or several, for refusals 1 to 6, 9 and 13.

use reference::notation::entry;
use reference::{encode, Entry};

use crate::chance::Chance;
use crate::exchange::{exchange, two_used};
use crate::{word, BLOCK, BLOCK_ENTRIES, MOST_DESCRIPTION, MOST_SPECIMEN};

/// The two sorts of input.
#[derive(Clone, Copy, Debug, PartialEq, Eq)]
pub enum Sort {
    /// A description.
    Description,
    /// A specimen.
    Specimen,
}

impl Sort {
    /// The most entries.
    pub fn most(self) -> usize {
        match self {
            Sort::Description => MOST_DESCRIPTION,
            Sort::Specimen => MOST_SPECIMEN,
        }
    }

    /// The kind of entries that own a place.
    pub fn owner_kind(self) -> u8 {
        match self {
            Sort::Description => 5,
            Sort::Specimen => 7,
        }
    }
}

/// The entries as bytes, with one to four faults.
pub fn damaged(chance: &mut Chance, sort: Sort, entries: &[Entry]) -> Vec<u8> {
    let mut entries = entries.to_vec();
    let mut faults: Vec<usize> = (0..=chance.below(4)).map(|_| chance.below(22)).collect();
    faults.sort_unstable();
    for fault in &faults {
        match fault {
            0..=3 => break_form(chance, &mut entries),
            4..=6 => break_owner(chance, &mut entries),
            7..=8 => break_depth(chance, sort, &mut entries),
            9..=10 => lead_to_two(chance, sort, &mut entries),
            20..=21 => break_name(chance, sort, &mut entries),
            _ => (),
        }
    }
    let mut bytes = if faults.contains(&11) {
        uneven(chance, &entries)
    } else {
        encode(&entries)
    };
    for fault in faults {
        match fault {
            12..=13 => break_frame(chance, &mut bytes),
            14 => exchange_words(chance, &mut bytes),
            15 => exchange_entries(chance, &mut bytes),
            16..=18 => break_check(chance, &mut bytes),
            19 => break_length(chance, sort, &mut bytes),
            _ => (),
        }
    }
    bytes
}

/// A fault of row 4 in a drawn entry; a list without entries gets one.
pub fn break_form(chance: &mut Chance, entries: &mut Vec<Entry>) {
    if entries.is_empty() {
        entries.push(Entry::default());
    }
    let at = chance.below(entries.len());
    let e = &mut entries[at];
    match chance.below(6) {
        0 => e.kind = chance.one_of([0, 6, 7, 8, 9, 128, 255]),
        1 => e.kind = chance.one_of([1, 2, 3, 4, 5, 7]),
        2 => e.zero = chance.one_of([1, 2, 128, 255]),
        3 => e.name = 0,
        4 => e.name = chance.word(),
        _ => e.number = chance.one_of([1, 256, 32_768, 65_535]),
    }
}

/// An owner of a drawn entry that is, most likely, not one by row 5; a list without entries gets one.
pub fn break_owner(chance: &mut Chance, entries: &mut Vec<Entry>) {
    if entries.is_empty() {
        entries.push(entry(1, 0, 7, 0));
    }
    let at = chance.below(entries.len());
    let number = word(at + 1);
    let nothing = entries[..at].iter().position(|e| e.kind == 6);
    entries[at].owner = match chance.below(7) {
        0 => number,
        1 => number + 1,
        2 => word(entries.len()),
        3 => chance.one_of([65_535, 32_768, 2017, 1009]),
        4 => chance.word(),
        5 => nothing.map_or(number, |earlier| word(earlier + 1)),
        _ => chance.up_to(number),
    };
}

/// Puts a chain of owners at the end that is up to six entries too deep, and some entries after it.
pub fn break_depth(chance: &mut Chance, sort: Sort, entries: &mut Vec<Entry>) {
    entries.truncate(sort.most() - 48);
    let mut owner = 0;
    for _ in 0..33 + chance.below(7) {
        entries.push(entry(sort.owner_kind(), owner, chance.from_1_to(3), 0));
        owner = word(entries.len());
    }
    for _ in 0..chance.below(8) {
        let back = chance.up_to(6);
        entries.push(entry(1, owner.saturating_sub(back), 7, 0));
    }
}

/// Entries of links around those that lead to one item only. In a specimen a group brings its owner a second item by such a link,
/// or just not: the link may lead to several, or the second item is another owner's. A description may have all of them.
pub fn lead_to_two(chance: &mut Chance, sort: Sort, entries: &mut Vec<Entry>) {
    entries.truncate(sort.most() - 4);
    let owner = any_owner(chance, sort, entries);
    let link = chance.one_of([32_768, 32_769, 50_000, 65_535]);
    let number = chance.one_of([1, 1, 2, 65_535]);
    if sort == Sort::Description {
        entries.push(entry(chance.one_of([3, 4]), owner, link, number));
        return;
    }
    let one = entry(7, owner, link, 0);
    match chance.below(6) {
        0 => entries.push(Entry { number, ..one }),
        1 => entries.extend([one, one]),
        2 => entries.extend([one, entry(1, owner, 7, 0), one]),
        3 => {
            let groups: Vec<usize> = (0..entries.len())
                .filter(|&at| entries[at].kind == 7)
                .collect();
            match chance.any(&groups) {
                Some(at) => (entries[at].name, entries[at].number) = (link, number),
                None => entries.push(Entry { number, ..one }),
            }
        }
        4 => entries.extend([entry(7, owner, 32_767, number); 2]),
        _ => {
            let other = any_owner(chance, sort, entries);
            entries.extend([one, entry(7, other, link, 0)]);
        }
    }
}

/// A named entry at the end or instead of an entry that owns nothing: of a name that is there or not, 0, with a number, at any owner,
/// or itself the owner of the next.
pub fn break_name(chance: &mut Chance, sort: Sort, entries: &mut Vec<Entry>) {
    entries.truncate(sort.most() - 2);
    let owner = any_owner(chance, sort, entries);
    let name = chance.one_of([0, 1, 1, 2, 3, 64, 65, 65_535]);
    let named = entry(9, owner, name, 0);
    let at = chance.below(entries.len());
    match chance.below(5) {
        0 => entries.push(Entry {
            number: chance.one_of([1, 256, 65_535]),
            ..named
        }),
        1 => entries.push(Entry {
            owner: word(entries.len()) + chance.up_to(2),
            ..named
        }),
        2 => {
            entries.push(named);
            entries.push(entry(1, word(entries.len()), 7, 0));
        }
        _ => match entries.get_mut(at) {
            Some(e) if e.kind != sort.owner_kind() => {
                *e = Entry {
                    owner: e.owner,
                    ..named
                }
            }
            _ => entries.push(named),
        },
    }
}

/// The top, or an entry that owns a place.
fn any_owner(chance: &mut Chance, sort: Sort, entries: &[Entry]) -> u16 {
    let numbered = (1..).zip(entries);
    let owning = numbered.filter(|(_, e)| e.kind == sort.owner_kind());
    let mut owners: Vec<u16> = owning.map(|(number, _)| number).collect();
    owners.push(0);
    chance.any(&owners).unwrap_or(0)
}

/// Writes both checks that are right for the block.
pub fn seal(block: &mut [u8]) {
    seal_second(block);
    seal_first(block);
}

/// Writes the first check that is right for the block with the second as it stands there.
pub fn seal_first(block: &mut [u8]) {
    let sum = words(block).take(255).sum();
    put(block, 510, sum);
}

/// Writes the second check that is right for the block, and leaves the first as it stands there.
pub fn seal_second(block: &mut [u8]) {
    let numbered = (1..).zip(words(block).take(254));
    let sum = numbered.map(|(number, word)| number * word).sum();
    put(block, 508, sum);
}

/// The words of a block, low byte first.
fn words(block: &[u8]) -> impl Iterator<Item = u64> + '_ {
    let pairs = block.chunks_exact(2);
    pairs.map(|pair| u64::from(pair[0]) + 256 * u64::from(pair[1]))
}

/// Writes the low two bytes of a sum.
fn put(block: &mut [u8], at: usize, sum: u64) {
    for (byte, low) in block.iter_mut().skip(at).take(2).zip(sum.to_le_bytes()) {
        *byte = low;
    }
}

/// A drawn block, if there is a whole one.
fn any_block<'a>(chance: &mut Chance, bytes: &'a mut [u8]) -> Option<&'a mut [u8]> {
    let blocks = bytes.len() / BLOCK;
    bytes.chunks_exact_mut(BLOCK).nth(chance.below(blocks))
}

/// A wrong number, used count or byte due to be zero in a drawn block, mostly with both checks that are right for it, so that 3 is
/// due, and else with one of them.
pub fn break_frame(chance: &mut Chance, bytes: &mut [u8]) {
    let Some(block) = any_block(chance, bytes) else {
        return;
    };
    let any_byte = chance.one_of([1, 2, 64, 128, 255]);
    match chance.below(6) {
        0 => block[0] ^= any_byte,
        1 => block[1] ^= any_byte,
        2 => block[2] = chance.one_of([0, 1, 61, 62, 63, 64, 65, 255]),
        3 => block[3] ^= any_byte,
        4 => block[507 - chance.below(16)] ^= any_byte,
        _ => block[4 + chance.below(504)] ^= any_byte,
    }
    let sealed: fn(&mut [u8]) = chance.one_of([seal, seal, seal, seal_first, seal_second]);
    sealed(block);
}

/// The entries in blocks with right numbers and checks, of which one uses fewer entries than it is due to, or none.
pub fn uneven(chance: &mut Chance, entries: &[Entry]) -> Vec<u8> {
    let whole = entries.len() / BLOCK_ENTRIES;
    // With all entries in full blocks, or with the last block as it comes.
    let kept = chance.one_of([entries.len(), whole * BLOCK_ENTRIES]);
    let at = BLOCK_ENTRIES * chance.below(whole + 1);
    let (before, after) = entries[..kept].split_at(at);
    let fewer = chance.one_of([0, 0, 1, 62]).min(after.len());
    let (few, rest) = after.split_at(fewer);
    let mut used: Vec<&[Entry]> = before.chunks(BLOCK_ENTRIES).collect();
    used.push(few);
    used.extend(rest.chunks(BLOCK_ENTRIES));
    framed(&used)
}

/// Blocks with right numbers and checks, which use these entries, at most 63 each.
pub fn framed(used: &[&[Entry]]) -> Vec<u8> {
    let mut bytes = Vec::new();
    for (number, entries) in (1..).zip(used) {
        let mut block = encode(entries);
        block.truncate(BLOCK);
        block[..2].copy_from_slice(&word(number).to_le_bytes());
        seal(&mut block);
        bytes.extend(block);
    }
    bytes
}

/// Exchanges two words of a drawn block, which its first check does not notice; the second check may be one of them.
pub fn exchange_words(chance: &mut Chance, bytes: &mut [u8]) {
    if let Some(block) = any_block(chance, bytes) {
        let (one, other) = (2 * chance.below(255), 2 * chance.below(255));
        block.swap(one, other);
        block.swap(one + 1, other + 1);
    }
}

/// Exchanges two used entries of a drawn block, if it uses two.
pub fn exchange_entries(chance: &mut Chance, bytes: &mut [u8]) {
    let Some(block) = any_block(chance, bytes) else {
        return;
    };
    if let Some((one, other)) = two_used(chance, usize::from(block[2])) {
        exchange(block, one, other);
    }
}

/// Changes one bit of a drawn block, so that its first check is wrong, or its second, or both.
pub fn break_check(chance: &mut Chance, bytes: &mut [u8]) {
    let bit = 1 << chance.below(8);
    let (low, any) = (chance.below(2), chance.below(508));
    let Some(block) = any_block(chance, bytes) else {
        return;
    };
    match chance.below(6) {
        0 => block[510 + low] ^= bit,
        1 => block[508 + low] ^= bit,
        2 => {
            block[508 + low] ^= bit;
            seal_first(block);
        }
        3 => block[any] ^= bit,
        4 => {
            block[any] ^= bit;
            seal_first(block);
        }
        _ => {
            block[any] ^= bit;
            seal_second(block);
        }
    }
}

/// A length that is 0, no multiple of 512, or over the limit.
pub fn break_length(chance: &mut Chance, sort: Sort, bytes: &mut Vec<u8>) {
    let part = 1 + chance.below(511);
    match chance.below(5) {
        0 => bytes.clear(),
        1 => bytes.truncate(bytes.len().saturating_sub(part)),
        2 => bytes.truncate(part),
        3 => bytes.extend(chance.noise(part)),
        _ => {
            let limit = crate::length_of(sort.most());
            let last = bytes.clone();
            while bytes.len() <= limit && !last.is_empty() {
                bytes.extend(&last);
            }
        }
    }
}
