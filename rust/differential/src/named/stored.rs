//! Vectors of the statements on the shorter stored form.

use reference::notation::{blocks, entry};
use reference::{encode, Entry};

use super::{change, in_last_block, properties};
use crate::damage::{seal, seal_first};
use crate::vectors::Vector;
use crate::{length_of, word, BLOCK, MOST_DESCRIPTION};

/// Kind, depth, name and number of a stored entry.
pub type Row = (u8, u8, u16, u16);

/// How many stored entries a block has room for, and the bytes of each.
const ROOM: usize = 84;
const WIDTH: usize = 6;

/// All of them, in the order of the statements.
pub fn all() -> Vec<Vector> {
    [
        walked(),
        sizes(),
        refused_descriptions(),
        restored(),
        restored_sizes(),
        owners(),
        order(),
        frames(),
        exchanged(),
        both_forms(),
    ]
    .concat()
}

/// Blocks of the stored form with these entries.
pub fn stored(rows: &[Row]) -> Vec<u8> {
    let mut bytes = vec![0; BLOCK * rows.len().div_ceil(ROOM).max(1)];
    for (index, block) in bytes.chunks_exact_mut(BLOCK).enumerate() {
        let used = &rows[index * ROOM..rows.len().min(index * ROOM + ROOM)];
        block[..2].copy_from_slice(&word(index + 1).to_le_bytes());
        block[2..4].copy_from_slice(&word(used.len()).to_le_bytes());
        for (at, &(kind, depth, name, number)) in (4..).step_by(WIDTH).zip(used) {
            let ([n0, n1], [m0, m1]) = (name.to_le_bytes(), number.to_le_bytes());
            block[at..at + WIDTH].copy_from_slice(&[kind, depth, n0, n1, m0, m1]);
        }
        seal(block);
    }
    bytes
}

/// A description written in the stored form, with a block more than is needed of so few entries.
fn to(description: Vec<u8>) -> Vector {
    Vector::to_stored(description, 2 * BLOCK)
}

/// Stored entries written as a description, with a block more than is needed of so few.
fn from(rows: &[Row]) -> Vector {
    from_bytes(stored(rows))
}

fn from_bytes(bytes: Vec<u8>) -> Vector {
    Vector::from_stored(bytes, 2 * BLOCK)
}

/// An 'every' at each depth from 0 on, so many.
pub fn chain(length: u8) -> Vec<Row> {
    (0..length).map(|depth| (5, depth, 1, 0)).collect()
}

/// So many properties, as stored entries.
pub fn flat(count: usize) -> Vec<Row> {
    let names = (1..=word(count)).rev();
    names.map(|name| (1, 0, name, 0)).collect()
}

/// Entries that come level by level.
pub fn by_level() -> Vec<Entry> {
    vec![
        entry(5, 0, 1, 0),
        entry(5, 0, 2, 0),
        entry(1, 2, 8, 0),
        entry(5, 1, 3, 0),
        entry(1, 1, 7, 0),
        entry(4, 4, 513, 4660),
        entry(1, 2, 7, 0),
        entry(2, 0, 9, 0),
    ]
}

/// Walking order: each entry is followed by what it owns.
pub fn walked() -> Vec<Vector> {
    let apart = [
        entry(1, 0, 8, 0),
        entry(5, 0, 1, 0),
        entry(2, 0, 9, 0),
        entry(1, 2, 7, 0),
    ];
    let deep: Vec<Entry> = (0..33).map(|owner| entry(5, owner, 1, 0)).collect();
    vec![
        to(blocks("")),
        to(blocks("6")),
        to(encode(&apart)),
        to(encode(&by_level())),
        to(blocks("1,7; 2,8; 3,1,2; 4,32768,65535; 5,1 [6; 5,2]")),
        to(encode(&deep)),
    ]
}

/// Outputs that are as long as is needed, and one byte shorter. 84 entries fill a block.
pub fn sizes() -> Vec<Vector> {
    let with = |entries, output| Vector::to_stored(properties(entries), output);
    vec![
        with(0, 0),
        with(0, BLOCK - 1),
        with(0, BLOCK),
        with(64, BLOCK),
        with(84, BLOCK),
        with(85, 2 * BLOCK - 1),
        with(85, 2 * BLOCK),
        with(MOST_DESCRIPTION, 12 * BLOCK),
        with(MOST_DESCRIPTION, 12 * BLOCK - 1),
    ]
}

/// A description is refused as by its reader, before 7.
pub fn refused_descriptions() -> Vec<Vector> {
    let too_deep: Vec<Entry> = (0..34).map(|owner| entry(5, owner, 1, 0)).collect();
    vec![
        to(Vec::new()),
        to(in_last_block(blocks("1,7"), |block| change(block, 511))),
        to(stored(&[(1, 0, 7, 0)])),
        to(blocks("9,1")),
        to(blocks("7,1,2")),
        to(encode(&[entry(1, 1, 7, 0)])),
        to(encode(&too_deep)),
        Vector::to_stored(blocks("9,1"), 0),
    ]
}

/// Written as descriptions, with the owners that depths say.
pub fn restored() -> Vec<Vector> {
    vec![
        from(&[]),
        from(&[(6, 0, 0, 0)]),
        from(&[(1, 0, 8, 0), (5, 0, 1, 0), (1, 1, 7, 0), (2, 0, 9, 0)]),
        from(&[(5, 0, 1, 0), (5, 1, 2, 0), (1, 2, 7, 0), (1, 1, 8, 0)]),
        from(&[(5, 0, 1, 0), (5, 1, 2, 0), (1, 2, 7, 0), (1, 0, 8, 0)]),
        from(&[(5, 0, 1, 0), (1, 1, 8, 0), (1, 1, 7, 0)]),
        from(&chain(33)),
    ]
}

/// Outputs that are as long as is needed, and one byte shorter. 63 entries fill a block of a description.
pub fn restored_sizes() -> Vec<Vector> {
    let with = |count, output| Vector::from_stored(stored(&flat(count)), output);
    let most = length_of(MOST_DESCRIPTION);
    vec![
        with(0, 0),
        with(63, BLOCK),
        with(64, 2 * BLOCK - 1),
        with(64, 2 * BLOCK),
        with(84, 2 * BLOCK),
        with(85, 2 * BLOCK),
        with(MOST_DESCRIPTION, most),
        with(MOST_DESCRIPTION, most - 1),
        with(MOST_DESCRIPTION + 1, most + BLOCK),
    ]
}

/// The nearest earlier entry of lesser depth has to be an 'every' of a depth one less.
pub fn owners() -> Vec<Vector> {
    vec![
        from(&[(5, 0, 1, 0), (1, 2, 7, 0)]),
        from(&[(1, 0, 8, 0), (1, 1, 7, 0)]),
        from(&[(1, 1, 8, 0)]),
        from(&[(5, 0, 1, 0), (1, 0, 8, 0), (1, 1, 7, 0)]),
        from(&[(5, 0, 1, 0), (2, 1, 8, 0), (1, 2, 7, 0)]),
        from(&[(5, 0, 1, 0), (5, 1, 1, 0), (5, 0, 1, 0), (1, 2, 7, 0)]),
        from(&[(1, 32, 7, 0)]),
        from(&[(1, 33, 7, 0)]),
        from(&[(1, 255, 7, 0)]),
    ]
}

/// At one entry 4 before 15 before 6; of two entries the lower decides; and before 7.
pub fn order() -> Vec<Vector> {
    let then = |row: Row| [chain(33), vec![row]].concat();
    vec![
        from(&then((1, 33, 7, 0))),
        from(&then((5, 33, 7, 0))),
        from(&then((1, 34, 7, 0))),
        from(&then((1, 33, 0, 0))),
        from(&[(5, 3, 0, 0)]),
        from(&[(1, 0, 7, 1)]),
        from(&[(6, 0, 1, 0)]),
        from(&[(7, 0, 1, 0)]),
        from(&[(9, 0, 1, 0)]),
        from(&[(9, 1, 1, 0)]),
        from(&[(1, 1, 8, 0), (1, 0, 0, 0)]),
        from(&[(1, 0, 0, 0), (1, 1, 8, 0)]),
        Vector::from_stored(stored(&[(1, 1, 8, 0)]), 0),
    ]
}

/// Lengths, frames and checks, which come before entries.
pub fn frames() -> Vec<Vector> {
    let wrong = [(1, 1, 8, 0)];
    let cut = |length: usize| from_bytes(stored(&flat(84))[..length].to_vec());
    let long = |blocks: usize| vec![0; BLOCK * blocks];
    let sealed = |count: usize, alter: fn(&mut [u8])| {
        let mut bytes = stored(&flat(count));
        alter(&mut bytes[..BLOCK]);
        seal(&mut bytes[..BLOCK]);
        from_bytes(bytes)
    };
    vec![
        from_bytes(Vec::new()),
        cut(BLOCK - 1),
        from_bytes(long(13)),
        from_bytes(long(12)),
        from_bytes(in_last_block(stored(&wrong), |block| change(block, 511))),
        from_bytes(in_last_block(stored(&wrong), |block| {
            change(block, 508);
            seal_first(block);
        })),
        from_bytes(in_last_block(stored(&flat(85)), |block| change(block, 10))),
        sealed(84, |block| block[2] = 85),
        sealed(84, |block| block[2] = 83),
        sealed(85, |block| block[0] = 2),
        sealed(1, |block| block[507] = 1),
        sealed(1, |block| block[10] = 1),
    ]
}

/// Two entries of a block change places, after its checks were written.
pub fn exchanged() -> Vec<Vector> {
    let with = |rows: &[Row], one: usize, other: usize| {
        let mut bytes = stored(rows);
        for byte in 0..WIDTH {
            bytes.swap(4 + WIDTH * one + byte, 4 + WIDTH * other + byte);
        }
        from_bytes(bytes)
    };
    let numbers = |m: u16| [(3, 0, 1, 0), (1, 0, 9, 0), (3, 0, 1, m)];
    vec![
        with(&[(3, 0, 1, 2), (3, 0, 2, 1)], 0, 1),
        with(&[(3, 0, 1, 2), (3, 0, 2, 2)], 0, 1),
        with(&numbers(32_768), 0, 2),
        with(&numbers(16_384), 0, 2),
        with(&[(3, 0, 1, 0), (3, 0, 1, 32_768)], 0, 1),
        with(&[(5, 0, 1, 0), (1, 1, 7, 0), (1, 0, 263, 0)], 1, 2),
    ]
}

/// A description taken for a stored input: but for two it is refused.
pub fn both_forms() -> Vec<Vector> {
    vec![
        from_bytes(blocks("")),
        from_bytes(blocks("6")),
        from_bytes(blocks("1,7")),
        from_bytes(blocks("6; 6")),
        from_bytes(properties(63)),
        from_bytes(properties(64)),
    ]
}
