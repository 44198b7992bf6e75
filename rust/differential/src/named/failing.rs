//! Vectors of the statements on the entries that fail.

use reference::notation::{blocks, entries, entry};
use reference::{decode, encode, Entry};

use super::naming::numbered;
use super::{chain, compare_bytes, properties};
use crate::damage::seal_first;
use crate::excluding::Given;
use crate::vectors::Vector;
use crate::MOST_DESCRIPTION;

/// All of them, in the order of the statements.
pub fn all() -> Vec<Vector> {
    [
        bytes(),
        lowest(),
        alone(),
        nothing_fits(),
        single(),
        by_the_list(),
        sizes(),
        outputs(),
        of_the_list(),
        of_input(1),
        of_input(2),
        order(),
    ]
    .concat()
}

/// What fails of that text for this one, with an output two bytes longer than is needed.
fn failing(c: &str, d: &str) -> Vector {
    failing_bytes(blocks(c), blocks(d))
}

fn failing_bytes(c: Vec<u8>, d: Vec<u8>) -> Vector {
    let entries = decode(&d).len();
    Vector::failing(c, d, entries + 2)
}

/// A byte for each entry: all are 0 exactly where contained (X3). An 'every' never fails; what stands below a link that leads nowhere
/// holds.
pub fn bytes() -> Vec<Vector> {
    vec![
        failing("4,1,0", "5,1 [1,7]; 1,2; 4,1,3; 6"),
        failing("", ""),
        failing("1,7", ""),
        failing("1,7; 2,8", "2,8; 1,7; 1,7"),
        failing("3,1,2; 4,1,5", "3,1,1; 3,1,0; 4,1,5; 4,1,65535"),
        failing("3,1,2; 4,1,5", "3,1,3; 3,1,2; 4,1,4; 4,2,65535"),
        failing("", "1,7; 2,7; 3,1,0; 5,1 [1,7; 5,2 [2,8]]"),
        failing("5,1 [4,2,0]", "5,1 [5,2 [1,7; 6]; 4,2,1; 4,3,1]"),
        failing("", "6"),
        failing("", "5,1 [6]"),
        failing("4,1,0", "5,1 [6]"),
        failing("5,1 [6]", "4,1,0; 4,1,7; 3,1,1"),
    ]
}

/// Each beside the comparison, which names the lowest entry that fails.
pub fn lowest() -> Vec<Vector> {
    let beside = |(c, d)| [failing(c, d), compare_bytes(blocks(c), blocks(d))];
    [
        ("1,7", "1,7"),
        ("1,7", "1,7; 1,8; 1,7; 1,9"),
        ("3,1,2", "3,1,3; 3,1,1"),
        ("5,1 [1,7]", "5,1 [1,7; 5,2 [1,8]]; 1,9"),
    ]
    .into_iter()
    .flat_map(beside)
    .collect()
}

/// What is asked of the entries one by one, each with its owners alone (X2).
const SUPPLIER: &str = "5,1 [1,1; 5,2 [4,3,0]]";
const SERVICE: &str = "5,1 [2,1; 5,2 [5,3 [1,7]; 1,8]; 1,1]; 4,1,0";

/// What fails, and then the comparison with each entry with its owners alone: what stands beside it plays no part. And owners that do
/// not stand right before what they own.
pub fn alone() -> Vec<Vector> {
    let by_level = [
        entry(5, 0, 1, 0),
        entry(5, 0, 2, 0),
        entry(1, 2, 8, 0),
        entry(1, 1, 7, 0),
    ];
    let mut vectors = vec![
        failing(SUPPLIER, SERVICE),
        failing_bytes(blocks("5,2 [1,8]"), encode(&by_level)),
        failing("5,1 [1,1]", "5,1 [2,1]; 4,1,0"),
        failing("", "1,7; 2,7; 4,1,0; 5,1 [1,7]"),
    ];
    let service = entries(SERVICE);
    let each = (0..service.len()).map(|index| encode(&with_owners(&service, index)));
    vectors.extend(each.map(|d| compare_bytes(blocks(SUPPLIER), d)));
    vectors
}

/// An entry with its owners alone, numbered anew.
fn with_owners(entries: &[Entry], index: usize) -> Vec<Entry> {
    let mut chain = vec![entries[index]];
    while let Some(owner) = chain[chain.len() - 1].owner.checked_sub(1) {
        chain.push(entries[usize::from(owner)]);
    }
    chain.reverse();
    (0..)
        .zip(chain)
        .map(|(owner, entry)| Entry { owner, ..entry })
        .collect()
}

/// Where no item fits the first, nothing fails.
pub fn nothing_fits() -> Vec<Vector> {
    vec![
        failing("6", "1,7; 6; 5,1 [6]"),
        failing("1,7; 2,7", "1,9; 2,9; 3,1,65535"),
        failing("3,1,2; 4,1,1", "6"),
        failing("3,1,1; 5,1 [6]", "1,9; 6"),
        failing("5,1 [1,7; 2,7]", "1,9; 4,1,0"),
    ]
}

/// Links that lead to one item only.
pub fn single() -> Vec<Vector> {
    vec![
        failing("", "4,32768,1; 4,32767,1; 3,32768,0; 4,65535,0"),
        failing("3,32768,1", "3,32768,2; 3,32768,1; 4,32768,1"),
        failing("3,32768,2", "1,9; 6"),
    ]
}

/// Under a list of pairs.
pub fn by_the_list() -> Vec<Vector> {
    vec![
        failing("1,7", "2,8; 1,9; 2,7"),
        failing("1,7", "2,8; 1,9; 2,7").under(&[(8, 7)]),
        failing("5,1 [1,7]", "5,1 [2,8]; 2,8").under(&[(7, 8)]),
        failing("1,7; 1,8", "1,9; 6").under(&[(7, 8)]),
        failing("5,1 [1,7; 1,8]", "4,1,0; 5,1 [1,9]; 1,9").under(&[(7, 8)]),
        failing("2,8", "1,7; 2,8").under(&[(7, 8)]),
    ]
}

/// As many entries as are allowed on both sides, which is no limit on both together: none fail, and all but one.
pub fn sizes() -> Vec<Vector> {
    let full = properties(MOST_DESCRIPTION);
    vec![
        failing_bytes(full.clone(), full.clone()),
        failing_bytes(blocks("1,7"), full),
        failing_bytes(blocks("1,64; 1,3"), properties(70)),
    ]
}

/// Outputs of a byte for each entry of D, and of one less, contained or not.
pub fn outputs() -> Vec<Vector> {
    let with = |c, d, output| Vector::failing(blocks(c), blocks(d), output);
    vec![
        with("1,7", "1,7; 1,8", 2),
        with("1,7", "1,7; 1,8", 1),
        with("1,7; 1,8", "1,7; 1,8", 2),
        with("1,7; 1,8", "1,7; 1,8", 1),
        with("6", "1,7", 0),
        with("", "", 0),
        with("1,7; 1,8", "", 0),
        with("1,7; 1,8", "1,7", 1),
    ]
}

/// The list comes before both inputs.
pub fn of_the_list() -> Vec<Vector> {
    let none = |pairs: &[u8]| {
        let list = Given::list(pairs.to_vec());
        Vector::failing(Vec::new(), Vec::new(), 0).given(list)
    };
    vec![
        none(&[7, 0, 8]),
        none(&[7, 0, 8, 0].repeat(65)),
        none(&[7, 0, 8, 0, 7, 0, 7, 0]),
        none(&[0, 0, 8, 0]),
    ]
}

/// What is refused of an input by itself: its length, its checks, its frame, its entries. Where it is input 1, input 2 is of length 0, and
/// else input 1 is right; the output has length 0. No dictionary is there, so kind 9 is wrong.
pub fn of_input(input: u16) -> Vec<Vector> {
    let mut wrong_check = blocks("1,7");
    wrong_check[508] ^= 1;
    seal_first(&mut wrong_check);
    let wrong = [
        Vec::new(),
        vec![0; 511],
        properties(MOST_DESCRIPTION + 1),
        wrong_check,
        numbered(2),
        blocks("1,7; 7,1"),
        blocks("1,7; 9,1"),
        encode(&[entry(1, 1, 7, 0)]),
        chain(5, 34, &[]),
    ];
    let each = wrong.into_iter().map(|wrong| match input {
        1 => Vector::failing(wrong, Vec::new(), 0),
        _ => Vector::failing(blocks("1,7"), wrong, 0),
    });
    each.collect()
}

/// The output comes last.
pub fn order() -> Vec<Vector> {
    vec![
        Vector::failing(blocks("1,7"), blocks("1,7; 8"), 0),
        Vector::failing(blocks("8"), blocks("1,7"), 0),
        Vector::failing(blocks("1,7"), blocks("1,7"), 0),
        Vector::failing(blocks("1,7"), blocks("1,7"), 1).under(&[(7, 8), (8, 8)]),
    ]
}
