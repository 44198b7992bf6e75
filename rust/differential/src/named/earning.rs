//! Vectors of the statements on the entries that earn a yes.

use reference::notation::{blocks, entry};
use reference::{decode, encode};

use super::properties;
use crate::excluding::Given;
use crate::vectors::Vector;

/// All of them, in the order of the statements.
pub fn all() -> Vec<Vector> {
    [
        tried(),
        owners(),
        nothing_fits(),
        noes(),
        by_the_list(),
        outputs(),
        order(),
    ]
    .concat()
}

/// What of this text earns that it is contained in that, with an output two bytes longer than is needed.
fn earning(c: &str, d: &str) -> Vector {
    earning_bytes(blocks(c), d)
}

fn earning_bytes(c: Vec<u8>, d: &str) -> Vector {
    let entries = decode(&c).len();
    Vector::earning(c, blocks(d), entries + 2)
}

/// From the last to the first, each is left out that can be.
pub fn tried() -> Vec<Vector> {
    vec![
        earning("3,1,2; 5,1 [1,7; 1,8]; 3,1,2", "3,1,1; 5,1 [1,7]"),
        earning("", ""),
        earning("1,7; 2,8", ""),
        earning("1,7; 1,7", "1,7"),
        earning("1,7; 1,8; 1,9", "1,8"),
        earning("3,1,2; 3,1,3", "3,1,2"),
        earning("3,1,3; 3,1,2", "3,1,2"),
        earning("4,1,2; 4,1,1; 4,1,3", "4,1,2"),
        earning("3,1,2; 3,1,3", "3,1,3"),
        earning_bytes(properties(70), "1,64; 1,3"),
    ]
}

/// Owners of what is marked, at any depth; an 'every' is not tried itself.
pub fn owners() -> Vec<Vector> {
    let by_level = [
        entry(5, 0, 1, 0),
        entry(5, 0, 2, 0),
        entry(1, 2, 8, 0),
        entry(1, 1, 7, 0),
    ];
    vec![
        earning("5,1 [1,7]", "5,1 [1,7]"),
        earning("5,1; 1,7", "1,7"),
        earning("5,1; 5,1 [5,2]", "5,1 [5,2]"),
        earning("5,1 [5,2 [1,7; 1,8]]", "5,1 [5,2 [1,8]]"),
        earning("5,1 [1,7]; 5,1 [1,7]", "5,1 [1,7]"),
        earning("5,1 [1,7]; 5,1 [1,8]", "5,1 [1,7; 1,8]"),
        earning_bytes(encode(&by_level), "5,1 [1,7]"),
    ]
}

/// Where no item fits: what shows it is enough.
pub fn nothing_fits() -> Vec<Vector> {
    vec![
        earning("1,7; 2,7", "1,9"),
        earning("6; 1,7; 2,7", "1,9"),
        earning("1,7; 2,7; 6", "1,9"),
        earning("3,1,2; 4,1,1; 1,8", "1,9"),
        earning("3,1,1; 5,1 [6]", "1,9"),
        earning("5,1 [1,7]; 5,1 [2,7]", "4,1,0"),
        earning("4,1,0; 1,8", "5,1 [1,7]"),
        earning("3,32768,2; 1,8", "1,9"),
        earning("1,7", "4,32768,1"),
    ]
}

/// Where it is not contained nothing is marked.
pub fn noes() -> Vec<Vector> {
    vec![
        earning("1,7", "1,8"),
        earning("", "1,8"),
        earning("1,7; 5,1 [1,8]", "1,7; 5,1 [1,9]"),
        earning("1,7", "4,32767,1"),
        earning("3,1,2", "3,1,3"),
    ]
}

/// Under a list of pairs.
pub fn by_the_list() -> Vec<Vector> {
    vec![
        earning("1,7", "2,8"),
        earning("1,7; 1,8", "1,9"),
        earning("1,7", "2,8").under(&[(7, 8)]),
        earning("1,9; 1,7; 1,8", "1,6").under(&[(8, 7)]),
        earning("2,8; 1,7", "2,8").under(&[(7, 8)]),
        earning("1,7; 2,8", "2,8").under(&[(7, 8)]),
    ]
}

/// Outputs of a byte for each entry of C, and of one less, contained or not.
pub fn outputs() -> Vec<Vector> {
    let with = |c, d, output| Vector::earning(blocks(c), blocks(d), output);
    vec![
        with("1,7; 1,8", "1,7", 2),
        with("1,7; 1,8", "1,7", 1),
        with("1,7; 1,8", "1,9", 1),
        with("1,7; 1,8", "1,9", 2),
        with("", "", 0),
        with("", "1,7", 0),
        with("1,7", "", 0),
    ]
}

/// The list, input 1, input 2, and then the output. No dictionary is there, so kind 9 is wrong.
pub fn order() -> Vec<Vector> {
    let none = |c: &str, d: &str| Vector::earning(blocks(c), blocks(d), 0);
    let wrong = || Given::list(vec![7, 0, 8]);
    vec![
        none("9,1", "9,1").given(wrong()),
        none("1,7", "1,7").under(&[(7, 8), (7, 7)]),
        none("9,1", "9,1"),
        none("1,7", "1,7; 9,1"),
        Vector::earning(Vec::new(), Vec::new(), 0),
        Vector::earning(blocks("1,7"), Vec::new(), 0),
        Vector::earning(blocks("1,7"), encode(&[entry(1, 1, 7, 0)]), 0),
        none("1,7", "7,1,1"),
    ]
}
