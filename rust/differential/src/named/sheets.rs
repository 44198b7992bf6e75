//! Vectors of the statements on field sheets.

use reference::notation::{blocks, entry};
use reference::{encode, Entry};

use super::{change, in_last_block, properties};
use crate::damage::seal;
use crate::vectors::Vector;
use crate::{BLOCK, MOST_DESCRIPTION};

/// All of them, in the order of the statements.
pub fn all() -> Vec<Vector> {
    [kinds(), numbers(), depths(), order(), as_any()].concat()
}

/// This text, read as a sheet.
fn sheet(text: &str) -> Vector {
    Vector::sheet(blocks(text))
}

/// The kinds of a sheet, and each other one. A name is of no description that is read alone.
pub fn kinds() -> Vec<Vector> {
    vec![
        sheet(""),
        sheet("1,7; 3,1,2; 4,1,5; 5,1 [1,8]"),
        sheet("1,7; 2,8"),
        sheet("1,7; 6"),
        sheet("5,1 [6]"),
        sheet("7,1,2"),
        sheet("8,1"),
        sheet("9,1"),
    ]
}

/// Numbers up to 99; names are no numbers, and stay as they are.
pub fn numbers() -> Vec<Vector> {
    vec![
        sheet("3,1,99; 4,1,99"),
        sheet("3,1,100"),
        sheet("4,1,100"),
        sheet("4,32768,65535"),
        sheet("1,65535; 3,100,1; 5,65535 [4,32768,0]"),
        Vector::sheet(encode(&[entry(1, 0, 7, 100)])),
    ]
}

/// Up to three links deep: an 'every' that stands there owns nothing of a sheet.
pub fn depths() -> Vec<Vector> {
    vec![
        sheet("5,1 [5,2 [5,3 [5,4]]]"),
        sheet("5,1 [5,2 [5,3 [1,7; 3,1,99]]]"),
        sheet("5,1 [5,2 [5,3 [5,4 [1,7]]]]"),
        sheet("5,1 [5,2 [5,3 [5,4 [5,5]]]]"),
    ]
}

/// So many 'every', each owned by the one before, and then these, owned by the last.
fn chain(length: u16, then: &[Entry]) -> Vec<u8> {
    let every = (0..length).map(|owner| entry(5, owner, 1, 0));
    let owned = then.iter().map(|&then| Entry {
        owner: length,
        ..then
    });
    encode(&every.chain(owned).collect::<Vec<_>>())
}

/// At one entry 4, 5 and 6 come before 19; of two entries the lower decides; blocks come before entries.
pub fn order() -> Vec<Vector> {
    let lack = entry(2, 0, 8, 0);
    let wrong = entry(1, 0, 0, 0);
    let read = |entries: &[Entry]| Vector::sheet(encode(entries));
    let damaged = |fault: fn(&mut [u8])| Vector::sheet(in_last_block(encode(&[lack]), fault));
    vec![
        read(&[lack, wrong]),
        read(&[wrong, lack]),
        read(&[entry(2, 0, 0, 0)]),
        read(&[Entry { zero: 1, ..lack }]),
        read(&[Entry { owner: 1, ..lack }]),
        read(&[Entry { owner: 9, ..lack }, wrong]),
        // Entries 5 and on are outside before one is too deep.
        Vector::sheet(chain(33, &[lack])),
        read(&[lack, entry(1, 3, 7, 0)]),
        damaged(|block| change(block, 508)),
        damaged(|block| {
            change(block, 507);
            seal(block);
        }),
    ]
}

/// Lengths and sizes are those of any description.
pub fn as_any() -> Vec<Vector> {
    let one = blocks("1,7");
    let cut = |length: usize| Vector::sheet(one[..length].to_vec());
    let mut last = properties(MOST_DESCRIPTION);
    // Byte 500 is the kind of the last entry, which becomes 2, a lack.
    if let Some(block) = last.chunks_exact_mut(BLOCK).last() {
        block[500] = 2;
        seal(block);
    }
    vec![
        cut(0),
        cut(BLOCK - 1),
        Vector::sheet(properties(63)),
        Vector::sheet(properties(64)),
        Vector::sheet(properties(MOST_DESCRIPTION)),
        Vector::sheet(properties(MOST_DESCRIPTION + 1)),
        Vector::sheet(last),
    ]
}
