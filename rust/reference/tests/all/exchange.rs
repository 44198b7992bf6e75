//! Two entries of one block exchanged: which exchanges the second check finds.
//!
//! What exchanging two entries of a block comes to (B11).

use reference::{encode, read_description, read_specimen, Entry, Refusal};

use crate::chance::{exact_description, specimen, Chance, Size};
use crate::notation::{entries, entry};

/// Names and numbers as they come, so that differences of word sums do too.
const ANY: Size = Size {
    entries: 200,
    properties: 65_535,
    links_after: 0,
    links: 65_535,
    number: 65_535,
};

/// Few names and numbers, so that many word sums are equal.
const FEW: Size = Size {
    entries: 200,
    properties: 3,
    links_after: 0,
    links: 3,
    number: 2,
};

/// The blocks of these entries with two of them, counted from 1, exchanged and
/// nothing else.
fn exchanged(entries: &[Entry], one: usize, other: usize) -> Vec<u8> {
    let place = |number: usize| 512 * ((number - 1) / 63) + 4 + 8 * ((number - 1) % 63);
    let mut bytes = encode(entries);
    for byte in 0..8 {
        bytes.swap(place(one) + byte, place(other) + byte);
    }
    bytes
}

fn word_sum(e: &Entry) -> usize {
    let first = usize::from(e.kind) + 256 * usize::from(e.zero);
    first + usize::from(e.owner) + usize::from(e.name) + usize::from(e.number)
}

/// Whether the statement says that the exchange is refused as 2.
fn is_found(entries: &[Entry], one: usize, other: usize) -> bool {
    let difference = word_sum(&entries[one - 1]).abs_diff(word_sum(&entries[other - 1]));
    !(one.abs_diff(other) * difference).is_multiple_of(16_384)
}

/// The answer is what the statement says: 2 at the block of the two, or none
/// of 1, 2 and 3.
fn stated(entries: &[Entry], one: usize, other: usize, answer: Result<usize, Refusal>) {
    let place = (one as u32 - 1) / 63 + 1;
    let (number, input) = (2, 1);
    let two = Refusal {
        number,
        input,
        place,
    };
    if is_found(entries, one, other) {
        assert_eq!(answer, Err(two));
    } else if let Err(refusal) = answer {
        assert!(refusal.number > 3, "{refusal:?}");
    }
}

/// Exchanges two drawn entries of one block, if it has two, and gives whether
/// that is found.
fn exchange_any(
    chance: &mut Chance,
    entries: &[Entry],
    read: fn(&[u8]) -> Result<usize, Refusal>,
) -> Option<bool> {
    assert_eq!(read(&encode(entries)), Ok(entries.len()));
    let block = 63 * chance.below(entries.len().div_ceil(63).max(1));
    let used = (entries.len() - block).min(63);
    if used < 2 {
        return None;
    }
    let (one, other) = (
        block + 1 + chance.below(used),
        block + 1 + chance.below(used),
    );
    let answer = read(&exchanged(entries, one, other));
    stated(entries, one, other, answer);
    Some(is_found(entries, one, other))
}

#[test]
fn drawn_exchanges() {
    let mut chance = Chance::from(5);
    let (mut found, mut passed) = (0, 0);
    for round in 0..6000 {
        let size = if round % 2 == 0 { ANY } else { FEW };
        let count = 2 + chance.below(size.entries);
        let made = if round % 4 < 2 {
            let entries = exact_description(&mut chance, size, count);
            exchange_any(&mut chance, &entries, read_description)
        } else {
            let entries = specimen(&mut chance, size);
            exchange_any(&mut chance, &entries, read_specimen)
        };
        match made {
            Some(true) => found += 1,
            Some(false) => passed += 1,
            None => (),
        }
    }
    assert!(
        found > 1000 && passed > 300,
        "{found} found, {passed} passed"
    );
}

/// Each two places of one block, with differences around each multiple of what
/// passes there.
#[test]
fn each_two_places() {
    for one in 1..=63 {
        for other in one + 1..=63 {
            let apart: usize = other - one;
            // The least difference above 0 that passes.
            let least = 16_384 >> apart.trailing_zeros();
            for difference in [0, 1, least - 1, least, least + 1, 2 * least, 3 * least] {
                let mut entries = vec![entry(1, 0, 1, 0); 63];
                entries[one - 1] = entry(3, 0, 1, difference as u16);
                entries[other - 1] = entry(3, 0, 1, 0);
                let answer = read_description(&exchanged(&entries, one, other));
                stated(&entries, one, other, answer);
                let passes = difference % least == 0;
                assert_eq!(answer.is_ok(), passes, "{apart} {difference}");
            }
        }
    }
}

/// What the courier's software did.
#[test]
fn an_exchange_that_is_found() {
    let entries = entries("1,7; 3,1,2");
    let refusal = Refusal {
        number: 2,
        input: 1,
        place: 1,
    };
    assert_eq!(read_description(&exchanged(&entries, 1, 2)), Err(refusal));
}

/// Equal word sums, and 16,384 as the product: another description, which has
/// the same checks.
#[test]
fn exchanges_that_pass() {
    for text in ["1,8; 2,7", "3,1,16384; 3,1", "3,1,8192; 1,1; 3,1"] {
        let mut entries = entries(text);
        let count = entries.len();
        let bytes = exchanged(&entries, 1, count);
        assert_eq!(read_description(&bytes), Ok(count));
        entries.swap(0, count - 1);
        assert_eq!(bytes, encode(&entries));
    }
    for text in ["3,1,16383; 3,1", "3,1,16385; 3,1", "3,1,8191; 1,1; 3,1"] {
        let entries = entries(text);
        let count = entries.len();
        assert!(read_description(&exchanged(&entries, 1, count)).is_err());
    }
}

/// An owner exchanged with what it owns, of equal word sums: the blocks pass,
/// and the entry before its owner is refused.
#[test]
fn an_exchange_that_passes_the_blocks_and_not_the_entries() {
    let entries = entries("5,1 [1,4]");
    let refusal = Refusal {
        number: 5,
        input: 1,
        place: 1,
    };
    assert_eq!(read_description(&exchanged(&entries, 1, 2)), Err(refusal));
}
