//! Sweeps that several calls share: over the numbers and bytes of blocks, and over the lengths of a list of services.

use super::*;
use reference::notation::blocks;

/// The blocks of these texts, end to end.
pub fn laid(texts: &[&str]) -> Vec<u8> {
    texts.iter().flat_map(|text| blocks(text)).collect()
}

/// A list of four services, of one block and of two.
pub fn four_services() -> Vec<u8> {
    let two = encode(&mixed(100));
    [blocks("1,7"), two.clone(), encode(&mixed(63)), two].concat()
}

/// Hands over the list with each number in each of its blocks that could begin, end or move a service, sealed and not.
pub fn each_number_of_each_block(list: &[u8], mut call: impl FnMut(&[u8])) {
    for block in 0..list.len() / BLOCK {
        for number in [0u16, 1, 2, 3, 16, 17, 255, 256, 257, 65_535] {
            for sealed in [false, true] {
                let mut list = list.to_vec();
                let bytes = &mut list[BLOCK * block..][..BLOCK];
                bytes[..2].copy_from_slice(&number.to_le_bytes());
                if sealed {
                    seal(bytes);
                }
                call(&list);
            }
        }
    }
}

/// Hands over the blocks with each byte changed, with right checks and without.
pub fn each_byte(whole: &[u8], mut call: impl FnMut(&[u8])) {
    for at in 0..whole.len() {
        for change in [1, 0x80] {
            for sealed in [false, true] {
                let mut bytes = whole.to_vec();
                bytes[at] ^= change;
                if sealed {
                    seal(&mut bytes[at / BLOCK * BLOCK..][..BLOCK]);
                }
                call(&bytes);
            }
        }
    }
}

/// Asks with each length of a list of three services of one block; `count` is what so many services count.
pub fn each_length_of_a_list(
    mut call: impl FnMut(&[u8]) -> Answer,
    count: impl Fn(usize) -> usize,
) {
    let list = laid(&["1,7", "", "1,8"]);
    for length in 0..=list.len() {
        let due = match (length, length % BLOCK) {
            (0, _) | (_, 1..) => Answer::Refused(1, 2),
            _ => Answer::Count(count(length / BLOCK)),
        };
        assert_eq!(call(&list[..length]), due, "{length}");
    }
}
