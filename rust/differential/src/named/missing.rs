//! Vectors of the statements on what a description lacks.

use std::ops::Range;

use reference::notation::{blocks, entry};
use reference::{decode, encode};

use super::properties;
use crate::excluding::Given;
use crate::vectors::Vector;

/// All of them, in the order of the statements.
pub fn all() -> Vec<Vector> {
    [
        tried(),
        owners(),
        together(),
        against(),
        single(),
        by_the_list(),
        limits(),
        outputs(),
        order(),
    ]
    .concat()
}

/// What this text lacks for that, with an output two bytes longer than is needed.
fn missing(c: &str, d: &str) -> Vector {
    missing_bytes(c, blocks(d))
}

fn missing_bytes(c: &str, d: Vec<u8>) -> Vector {
    let entries = decode(&d).len();
    Vector::missing(blocks(c), d, entries + 2)
}

/// From the last to the first, each is left out that can be.
pub fn tried() -> Vec<Vector> {
    vec![
        missing("", "3,1,1; 3,1,2"),
        missing("", "1,1; 1,1"),
        missing("3,1,2", "3,1,1; 5,1"),
        missing("", ""),
        missing("1,7; 2,8", ""),
        missing("1,7", "1,7; 1,8; 3,1,2"),
        missing("3,1,2", "3,1,3; 3,1,4"),
        missing("", "3,1,4; 3,1,3"),
        missing("", "4,1,2; 4,1,1; 4,1,3"),
        missing("", "3,1,0; 4,1,65535"),
        missing_bytes("", properties(70)),
        missing_bytes("1,64; 1,3", properties(70)),
    ]
}

/// Owners of what is marked, at any depth; an 'every' is not tried itself.
pub fn owners() -> Vec<Vector> {
    let by_level = [
        entry(5, 0, 1, 0),
        entry(5, 0, 2, 0),
        entry(1, 2, 8, 0),
        entry(1, 1, 7, 0),
    ];
    vec![
        missing("", "5,1 [1,1]"),
        missing("", "5,1 [5,2 [1,7]]; 5,1"),
        missing("5,1 [1,7]", "5,1 [1,7; 1,8]"),
        missing("", "5,1; 5,2 [5,3]"),
        missing("5,1 [5,2 [1,7]]", "5,1 [5,2 [1,7; 3,3,1]; 1,9]"),
        missing_bytes("5,2 [1,8]", encode(&by_level)),
    ]
}

/// Entries that say something together with others, and what a link that leads nowhere makes needless.
pub fn together() -> Vec<Vector> {
    vec![
        missing("5,1 [1,1]", "5,1 [2,1]; 4,1,0"),
        missing("5,1 [1,1]", "5,1 [2,1]; 4,1,0; 3,2,1"),
        missing("5,1 [2,1]", "5,1 [1,1]"),
        missing("", "5,1 [1,1; 2,1]; 4,1,0"),
        missing("4,1,0", "5,1 [1,7]; 4,1,3"),
        missing("", "5,1 [1,7]; 4,1,0"),
        missing("", "4,1,0; 5,1 [1,7]"),
    ]
}

/// No item fits both: what contradicts is marked, and no more. What no item fits lacks nothing.
pub fn against() -> Vec<Vector> {
    vec![
        missing("1,1", "2,1; 1,2"),
        missing("1,7", "6"),
        missing("", "6"),
        missing("6", "1,7; 6"),
        missing("1,7; 2,7", "1,9"),
        missing("3,1,2", "4,1,1; 3,1,5"),
        missing("", "1,7; 2,7; 1,8"),
        missing("3,1,1", "5,1 [6]"),
    ]
}

/// Links that lead to one item only.
pub fn single() -> Vec<Vector> {
    vec![
        missing("", "3,32768,2"),
        missing("", "4,32768,1"),
        missing("", "3,32768,1; 4,32768,0"),
        missing("3,32768,1", "4,32768,1; 3,32768,1"),
        missing("", "3,32767,2; 4,32767,1"),
    ]
}

/// Under a list of pairs.
pub fn by_the_list() -> Vec<Vector> {
    vec![
        missing("1,7", "2,8; 1,9"),
        missing("1,7", "2,8; 1,9").under(&[(7, 8)]),
        missing("1,7", "1,8"),
        missing("1,7", "1,8").under(&[(7, 8)]),
        missing("", "1,7; 2,8").under(&[(8, 7)]),
        missing("", "2,8; 1,7").under(&[(8, 7)]),
    ]
}

/// Both together have 16 blocks, and one more.
pub fn limits() -> Vec<Vector> {
    let named = |names: Range<u16>| names.map(|name| entry(1, 0, name, 0)).collect::<Vec<_>>();
    let of = |first: u16, entries: u16| encode(&named(first..first + entries));
    let with = |c: Vec<u8>, d: Vec<u8>, output| Vector::missing(c, d, output);
    let wrong = encode(&[&[entry(9, 0, 1, 0)][..], &named(2..506)].concat());
    vec![
        with(of(1, 504), of(505, 504), 504),
        with(of(1, 504), of(505, 504), 503),
        with(of(1, 504), of(1, 505), 505),
        with(of(1, 504), of(1, 505), 0),
        with(of(1, 505), of(1, 504), 504),
        with(of(1, 1008), of(1, 0), 0),
        with(of(1, 945), of(1, 63), 63),
        with(of(1, 504), wrong, 505),
    ]
}

/// Outputs of a byte for each entry of D, and of one less, whatever is missing.
pub fn outputs() -> Vec<Vector> {
    let with = |c, d, output| Vector::missing(blocks(c), blocks(d), output);
    vec![
        with("1,7", "1,7; 1,8", 2),
        with("1,7", "1,7; 1,8", 1),
        with("1,7; 1,8", "1,7; 1,8", 1),
        with("1,7", "2,7; 1,9", 1),
        with("", "", 0),
        with("", "1,7", 0),
        with("1,7", "", 0),
    ]
}

/// The list, input 1, input 2, and then the output. No dictionary is there, so kind 9 is wrong.
pub fn order() -> Vec<Vector> {
    let none = |c: &str, d: &str| Vector::missing(blocks(c), blocks(d), 0);
    let wrong = || Given::list(vec![7, 0, 8]);
    vec![
        none("9,1", "9,1").given(wrong()),
        none("1,7", "1,7").under(&[(7, 8), (7, 7)]),
        none("9,1", "9,1"),
        none("1,7", "1,7; 9,1"),
        Vector::missing(Vec::new(), Vec::new(), 0),
        Vector::missing(blocks("1,7"), Vec::new(), 0),
        Vector::missing(blocks("1,7"), encode(&[entry(1, 1, 7, 0)]), 0),
        none("1,7", "7,1,1"),
    ]
}
