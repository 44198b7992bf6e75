//! Blocks as bytes.

use reference::{decode, encode, Entry};

use crate::chance::Chance;
use crate::notation::entry;

/// The block of no entries (B9).
#[test]
fn the_empty_description() {
    let mut empty = vec![0; 512];
    (empty[0], empty[508], empty[510]) = (1, 1, 2);
    assert_eq!(encode(&[]), empty);
    assert_eq!(decode(&empty), []);
}

#[test]
fn one_entry_byte_by_byte() {
    let block = encode(&[entry(3, 0x0201, 0xA403, 0xFF05)]);
    assert_eq!(
        block[..14],
        [1, 0, 1, 0, 3, 0, 1, 2, 3, 0xA4, 5, 0xFF, 0, 0]
    );
    assert!(block[14..508].iter().all(|&byte| byte == 0));
    // 1 * 1 + 2 * 1 + 3 * 3 + 4 * 0x0201 + 5 * 0xA403 + 6 * 0xFF05 = 0x9363D.
    assert_eq!(block[508..510], [0x3D, 0x36]);
    // 1 + 1 + 3 + 0x0201 + 0xA403 + 0xFF05 + 0x363D = 0x1DB4B.
    assert_eq!(block[510..], [0x4B, 0xDB]);
    assert_eq!(block.len(), 512);
}

/// The last word that the second check counts is number 254, and the largest
/// words wrap many times.
#[test]
fn a_full_block_byte_by_byte() {
    let block = encode(&[entry(255, u16::MAX, u16::MAX, u16::MAX); 63]);
    // Each entry counts 3 words of -1 and one of 255; words 3 to 254.
    let minus: i64 = (3..=254).filter(|number| number % 4 != 3).sum();
    let kinds: i64 = (3..=254).filter(|number| number % 4 == 3).sum();
    let second = (1 + 2 * 63 - minus + 255 * kinds).rem_euclid(65_536);
    let check = (1 + 63 - 3 * 63 + 255 * 63 + second).rem_euclid(65_536);
    assert_eq!(block[508..510], (second as u16).to_le_bytes());
    assert_eq!(block[510..], (check as u16).to_le_bytes());
}

#[test]
fn entries_fill_the_blocks_in_turn() {
    for count in [0usize, 1, 62, 63, 64, 126, 127, 1008, 2016, 2017] {
        let entries: Vec<Entry> = (0..count).map(|n| entry(1, 0, n as u16, 0)).collect();
        let bytes = encode(&entries);
        assert_eq!(bytes.len(), 512 * count.div_ceil(63).max(1));
        assert_eq!(decode(&bytes), entries);
        for (index, block) in bytes.chunks(512).enumerate() {
            let used = (count - index * 63).min(63);
            assert_eq!(block[..4], [index as u8 + 1, 0, used as u8, 0]);
        }
    }
}

#[test]
fn decode_takes_any_bytes() {
    let mut chance = Chance::from(1);
    for length in [0, 1, 511, 512, 513, 1024, 5000] {
        let bytes: Vec<u8> = (0..length).map(|_| chance.next() as u8).collect();
        assert!(decode(&bytes).len() <= length / 512 * 63);
    }
}
