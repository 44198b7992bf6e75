//! Each refusal at several places, and their order.

use reference::{
    compare, encode, fit, normal_form, read_description, read_specimen, run_program, Entry, Refusal,
};

use crate::chance::{description, exact_description, specimen, Chance, Size};
use crate::notation::{blocks, entry, FILL};

const LARGE: Size = Size {
    entries: 200,
    properties: 3,
    links_after: 0,
    links: 3,
    number: 4,
};

/// The word of a block with this number, counted from 1.
fn word(block: &[u8], number: usize) -> usize {
    usize::from(block[2 * number - 2]) + 256 * usize::from(block[2 * number - 1])
}

/// Writes the low two bytes of a number.
fn put(block: &mut [u8], at: usize, number: usize) {
    block[at] = (number % 256) as u8;
    block[at + 1] = (number / 256 % 256) as u8;
}

/// Writes the right first check into each block, whatever its second is.
fn with_first_check(mut bytes: Vec<u8>) -> Vec<u8> {
    for block in bytes.chunks_exact_mut(512) {
        let sum = (1..=255).map(|number| word(block, number)).sum();
        put(block, 510, sum);
    }
    bytes
}

/// Writes the right checks into each block.
pub fn with_checks(mut bytes: Vec<u8>) -> Vec<u8> {
    for block in bytes.chunks_exact_mut(512) {
        let sum = (1..=254).map(|number| number * word(block, number)).sum();
        put(block, 508, sum);
    }
    with_first_check(bytes)
}

/// The refusal of a description by every call that takes one, in each
/// position, with the outputs unchanged.
fn refused(bytes: &[u8], number: u8, place: u32) {
    let good = blocks("1,1");
    let at = |input| Refusal {
        number,
        input,
        place,
    };
    let mut out = vec![FILL; bytes.len() + 512];
    assert_eq!(read_description(bytes), Err(at(1)));
    assert_eq!(fit(&good, bytes), Err(at(2)));
    assert_eq!(normal_form(bytes, &mut out), Err(at(1)));
    assert_eq!(compare(bytes, &good, &mut out), Err(at(1)));
    assert_eq!(compare(&good, bytes, &mut out), Err(at(2)));
    // Input 1 comes before input 2, both before 7.
    assert_eq!(compare(bytes, &[], &mut out), Err(at(1)));
    assert_eq!(compare(&good, bytes, &mut []), Err(at(2)));
    assert_eq!(normal_form(bytes, &mut []), Err(at(1)));
    assert!(out.iter().all(|&byte| byte == FILL));
}

/// The refusal of a specimen by both calls that take one.
fn specimen_refused(bytes: &[u8], number: u8, place: u32) {
    let refusal = Refusal {
        number,
        input: 1,
        place,
    };
    assert_eq!(read_specimen(bytes), Err(refusal));
    assert_eq!(fit(bytes, &blocks("")), Err(refusal));
    assert_eq!(fit(bytes, &[]), Err(refusal));
}

fn has(count: usize) -> Vec<Entry> {
    vec![entry(1, 0, 1, 0); count]
}

#[test]
fn number_1() {
    let long = vec![FILL; 512 * 40 + 1];
    let lengths = [
        0,
        1,
        511,
        513,
        1023,
        512 * 16 - 1,
        512 * 16 + 1,
        512 * 17,
        512 * 40,
    ];
    for length in lengths {
        refused(&long[..length], 1, 0);
    }
    for length in [
        0,
        1,
        511,
        513,
        512 * 32 - 1,
        512 * 32 + 1,
        512 * 33,
        512 * 40,
    ] {
        specimen_refused(&long[..length], 1, 0);
    }
    // Lengths within the limit go on to the blocks.
    for blocks in [1, 2, 16] {
        refused(&long[..512 * blocks], 2, 1);
    }
    for blocks in [1, 17, 32] {
        specimen_refused(&long[..512 * blocks], 2, 1);
    }
}

#[test]
fn number_2_at_each_block_and_byte() {
    let bytes = encode(&has(63 * 3 + 5));
    for at in 0..bytes.len() {
        if at % 97 != 0 && at % 512 < 500 {
            continue;
        }
        let mut wrong = bytes.clone();
        wrong[at] = wrong[at].wrapping_add(1);
        refused(&wrong, 2, (at / 512 + 1) as u32);
        specimen_refused(&wrong, 2, (at / 512 + 1) as u32);
    }
}

/// Of all words in bytes 508-509 one passes, and the others give 2, none 3.
#[test]
fn number_2_second_check() {
    for (entries, block) in [(0, 0), (5, 0), (63 * 2 + 5, 1), (63 * 2 + 5, 2)] {
        let right = encode(&has(entries));
        let (at, place) = (512 * block + 508, block as u32 + 1);
        let stored = word(&right[512 * block..], 255);
        for other in 0..=65_535 {
            let mut bytes = right.clone();
            put(&mut bytes, at, other);
            let bytes = with_first_check(bytes);
            let answer = if other == stored {
                Ok(entries)
            } else {
                let (number, input) = (2, 1);
                Err(Refusal {
                    number,
                    input,
                    place,
                })
            };
            assert_eq!(read_description(&bytes), answer);
            assert_eq!(read_specimen(&bytes), answer);
        }
        let mut bytes = right;
        put(&mut bytes, at, stored + 1);
        let bytes = with_first_check(bytes);
        refused(&bytes, 2, place);
        specimen_refused(&bytes, 2, place);
    }
}

/// Zero in bytes 508-509, which was right before the second check.
#[test]
fn number_2_blocks_without_a_second_check() {
    for entries in [0, 1, 63, 64] {
        let mut bytes = encode(&has(entries));
        for block in bytes.chunks_exact_mut(512) {
            put(block, 508, 0);
        }
        refused(&with_first_check(bytes), 2, 1);
    }
}

/// Each way in which the frame is wrong, with each check right or wrong.
#[test]
fn number_2_before_3_for_both_checks() {
    let breaks: [fn(&mut [u8]); 5] = [
        |block| block[0] += 1,
        |block| block[1] = 1,
        |block| put(block, 2, 0),
        |block| put(block, 2, 64),
        |block| block[507] = 1,
    ];
    for breaks in breaks {
        let mut bytes = encode(&has(63 + 5));
        breaks(&mut bytes[512..]);
        refused(&bytes, 2, 2);
        refused(&with_first_check(bytes.clone()), 2, 2);
        let mut bytes = with_checks(bytes);
        refused(&bytes, 3, 2);
        specimen_refused(&bytes, 3, 2);
        bytes[512 + 510] ^= 1;
        refused(&bytes, 2, 2);
        bytes[512 + 508] ^= 1;
        refused(&bytes, 2, 2);
        refused(&with_first_check(bytes), 2, 2);
    }
}

#[test]
fn number_2_before_3_in_one_block_but_not_over_blocks() {
    let mut bytes = encode(&has(63 * 3));
    bytes[512] = 9;
    refused(&bytes, 2, 2);
    bytes = with_checks(bytes);
    refused(&bytes, 3, 2);
    bytes[1024 + 300] ^= 1;
    refused(&bytes, 3, 2);
    bytes[3] ^= 1;
    refused(&bytes, 2, 1);
}

#[test]
fn number_3_block_number() {
    for block in 0..4 {
        for wrong in [0u16, 9, 256, 257, 65535] {
            let mut bytes = encode(&has(63 * 3 + 5));
            let number = if wrong == 257 {
                block as u16 + 257
            } else {
                wrong
            };
            bytes[512 * block..512 * block + 2].copy_from_slice(&number.to_le_bytes());
            let bytes = with_checks(bytes);
            refused(&bytes, 3, block as u32 + 1);
            specimen_refused(&bytes, 3, block as u32 + 1);
        }
    }
}

#[test]
fn number_3_used_count() {
    // Each block but the last uses 63.
    for block in 0..3 {
        for wrong in [0u16, 1, 62, 64, 319, 65535] {
            let mut bytes = encode(&has(63 * 3 + 5));
            bytes[512 * block + 2..512 * block + 4].copy_from_slice(&wrong.to_le_bytes());
            // Make the entries beyond the count zero, so that only the count
            // is wrong.
            let from = 4 + 8 * usize::from(wrong.min(63));
            bytes[512 * block + from..512 * block + 508].fill(0);
            let bytes = with_checks(bytes);
            refused(&bytes, 3, block as u32 + 1);
            specimen_refused(&bytes, 3, block as u32 + 1);
        }
    }
    // The last uses 1 to 63.
    for wrong in [0u16, 64, 256, 261] {
        let mut bytes = encode(&has(63 + 1));
        bytes[514..516].copy_from_slice(&wrong.to_le_bytes());
        bytes[516..1020].fill(0);
        refused(&with_checks(bytes), 3, 2);
    }
    // An only block uses 0 to 63.
    for wrong in [64u16, 256] {
        let mut bytes = encode(&[]);
        bytes[2..4].copy_from_slice(&wrong.to_le_bytes());
        refused(&with_checks(bytes), 3, 1);
    }
}

#[test]
fn number_3_bytes_due_to_be_zero() {
    let bytes = encode(&has(63 + 5));
    for at in 512 + 4 + 40..512 + 508 {
        let mut wrong = bytes.clone();
        wrong[at] = 0x80;
        let wrong = with_checks(wrong);
        refused(&wrong, 3, (at / 512 + 1) as u32);
        specimen_refused(&wrong, 3, (at / 512 + 1) as u32);
    }
}

/// Puts a wrong entry at several places of an otherwise right list.
fn entry_refused(wrong: Entry, number: u8) {
    for place in [1, 2, 63, 64, 127, 150] {
        let mut entries = has(150);
        entries[place - 1] = wrong;
        refused(&encode(&entries), number, place as u32);
    }
}

fn specimen_entry_refused(wrong: Entry, number: u8) {
    for place in [1, 2, 63, 64, 127, 150] {
        let mut entries = has(150);
        entries[place - 1] = wrong;
        specimen_refused(&encode(&entries), number, place as u32);
    }
}

#[test]
fn number_4_kind() {
    for kind in [0, 7, 8, 255] {
        entry_refused(entry(kind, 0, 1, 0), 4);
    }
    for kind in [0, 2, 3, 4, 5, 6, 8, 9, 255] {
        specimen_entry_refused(entry(kind, 0, 1, 0), 4);
    }
    specimen_entry_refused(entry(6, 0, 0, 0), 4);
}

#[test]
fn number_4_zero_byte() {
    for kind in 1..=5 {
        entry_refused(
            Entry {
                zero: 1,
                ..entry(kind, 0, 1, 0)
            },
            4,
        );
    }
    entry_refused(
        Entry {
            zero: 255,
            ..entry(6, 0, 0, 0)
        },
        4,
    );
    for kind in [1, 7] {
        specimen_entry_refused(
            Entry {
                zero: 128,
                ..entry(kind, 0, 1, 0)
            },
            4,
        );
    }
}

#[test]
fn number_4_name_and_number() {
    for kind in 1..=5 {
        entry_refused(entry(kind, 0, 0, 0), 4);
    }
    for name in [1, 256, 65535] {
        entry_refused(entry(6, 0, name, 0), 4);
    }
    for kind in [1, 2, 5] {
        for number in [1, 256, 65535] {
            entry_refused(entry(kind, 0, 1, number), 4);
        }
    }
    entry_refused(entry(6, 0, 0, 1), 4);
    for kind in [1, 7] {
        specimen_entry_refused(entry(kind, 0, 0, 0), 4);
    }
    specimen_entry_refused(entry(1, 0, 1, 1), 4);
    // Names and numbers up to 65,535 pass.
    for kind in [1, 2, 5] {
        assert_eq!(
            read_description(&encode(&[entry(kind, 0, 65535, 0)])),
            Ok(1)
        );
    }
    for kind in [3, 4] {
        assert_eq!(
            read_description(&encode(&[entry(kind, 0, 65535, 65535)])),
            Ok(1)
        );
    }
    assert_eq!(read_specimen(&encode(&[entry(7, 0, 32767, 65535)])), Ok(1));
    assert_eq!(read_specimen(&encode(&[entry(7, 0, 65535, 0)])), Ok(1));
}

#[test]
fn number_5() {
    for place in [1u16, 2, 63, 64, 127, 150] {
        // Not earlier: itself, a later one, one beyond the end.
        for owner in [place, place + 1, 151, 65535] {
            let mut entries = vec![entry(5, 0, 1, 0); 150];
            entries[usize::from(place) - 1].owner = owner;
            refused(&encode(&entries), 5, u32::from(place));
            let mut entries = vec![entry(7, 0, 1, 0); 150];
            entries[usize::from(place) - 1].owner = owner;
            specimen_refused(&encode(&entries), 5, u32::from(place));
        }
    }
    // Earlier but not of kind 5 (7).
    for kind in [1, 2, 3, 4, 6] {
        let name = if kind == 6 { 0 } else { 1 };
        let entries = [
            entry(5, 0, 1, 0),
            entry(kind, 1, name, 0),
            entry(1, 2, 1, 0),
        ];
        refused(&encode(&entries), 5, 3);
    }
    let entries = [entry(7, 0, 1, 0), entry(1, 1, 1, 0), entry(1, 2, 1, 0)];
    specimen_refused(&encode(&entries), 5, 3);
}

#[test]
fn number_6() {
    for kind in 1..=6 {
        for before in [0u16, 1, 30, 100] {
            let mut entries = has(usize::from(before));
            entries.push(entry(5, 0, 1, 0));
            entries.extend((1..33).map(|step| entry(5, before + step, 1, 0)));
            assert_eq!(
                read_description(&encode(&entries)),
                Ok(usize::from(before) + 33)
            );
            let name = if kind == 6 { 0 } else { 1 };
            entries.push(entry(kind, before + 33, name, 0));
            refused(&encode(&entries), 6, u32::from(before) + 34);
        }
    }
    for kind in [1, 7] {
        let mut entries: Vec<Entry> = (0..33).map(|owner| entry(7, owner, 1, 0)).collect();
        assert_eq!(read_specimen(&encode(&entries)), Ok(33));
        entries.push(entry(kind, 33, 1, 0));
        specimen_refused(&encode(&entries), 6, 34);
    }
}

#[test]
fn numbers_4_5_6_in_one_entry_and_over_entries() {
    let chain: Vec<Entry> = (0..33).map(|owner| entry(5, owner, 1, 0)).collect();
    // 4 before 5 in one entry.
    refused(&encode(&[entry(8, 1, 1, 0)]), 4, 1);
    // 4 before 6 in one entry.
    let mut entries = chain.clone();
    entries.push(entry(1, 33, 0, 0));
    refused(&encode(&entries), 4, 34);
    // The lowest entry decides, whatever the number.
    let mut entries = chain.clone();
    entries.push(entry(1, 33, 1, 0));
    entries.push(entry(1, 35, 1, 0));
    entries.push(entry(8, 0, 0, 0));
    refused(&encode(&entries), 6, 34);
    refused(&encode(&[entry(1, 9, 1, 0), entry(8, 0, 0, 0)]), 5, 1);
    // A frame that is wrong later comes before an entry that is wrong.
    let mut bytes = encode(&[vec![entry(8, 0, 0, 0)], has(100)].concat());
    refused(&bytes, 4, 1);
    bytes[512 + 507] = 1;
    refused(&bytes, 2, 2);
    refused(&with_first_check(bytes.clone()), 2, 2);
    refused(&with_checks(bytes), 3, 2);
}

#[test]
fn number_7_at_each_length() {
    let seven = Refusal {
        number: 7,
        input: 0,
        place: 0,
    };
    let mut out = vec![FILL; 4096];
    for (c, d) in [(1, 1), (64, 1), (1, 64), (64, 64), (200, 3)] {
        let (c, d) = (encode(&has(c)), encode(&has(d)));
        for length in [0, 1, 511, 512, c.len() - 1] {
            if length < c.len() {
                assert_eq!(normal_form(&c, &mut out[..length]), Err(seven));
            }
        }
        let both = c.len() + d.len();
        for length in [
            0,
            511,
            512,
            c.len(),
            d.len(),
            c.len().max(d.len()),
            both - 1,
        ] {
            assert_eq!(compare(&c, &d, &mut out[..length]), Err(seven));
        }
    }
    assert!(out.iter().all(|&byte| byte == FILL));
}

/// Accepted inputs with a few bytes changed, and the checks put right or not:
/// no call panics, refusals agree, and outputs of refused calls stay.
#[test]
fn any_bytes_at_all() {
    let mut chance = Chance::from(7);
    for round in 0..1500 {
        let c = spoilt(&mut chance, round);
        let d = spoilt(&mut chance, round / 2);
        let mut out = vec![FILL; 512 * chance.below(8)];
        let read = read_description(&c);
        let normal = normal_form(&c, &mut out);
        if normal.is_err() {
            assert!(out.iter().all(|&byte| byte == FILL));
        }
        assert!(read.is_ok() || normal.is_err());
        let mut out = vec![FILL; c.len() + d.len()];
        let answer = compare(&c, &d, &mut out);
        match (read, read_description(&d)) {
            (Err(refusal), _) => assert_eq!(answer, Err(refusal)),
            (_, Err(refusal)) => assert_eq!(
                answer,
                Err(Refusal {
                    input: 2,
                    ..refusal
                })
            ),
            _ => assert!(answer.is_ok()),
        }
        let fitted = fit(&c, &d);
        assert_eq!(
            fitted.is_ok(),
            read_specimen(&c).is_ok() && read_description(&d).is_ok()
        );
        assert!(!run_program(&[c, d].concat()).is_empty());
    }
}

fn spoilt(chance: &mut Chance, round: usize) -> Vec<u8> {
    let entries = match round % 3 {
        0 => description(chance, LARGE),
        1 => specimen(chance, LARGE),
        _ => exact_description(chance, LARGE, 1),
    };
    let mut bytes = encode(&entries);
    for _ in 0..chance.below(3) {
        let at = if chance.once_in(2) {
            chance.below(40)
        } else {
            chance.below(bytes.len())
        };
        bytes[at] = chance.one_of(&[0, 1, 5, 7, 63, 64, 255]);
    }
    if chance.once_in(8) {
        bytes.truncate(chance.below(bytes.len() + 1));
    }
    if chance.once_in(5) {
        return bytes;
    }
    if chance.once_in(5) {
        return with_first_check(bytes);
    }
    with_checks(bytes)
}
