//! Vectors of the statements on the catalogue as a hierarchy.

use goltximen::hierarchy_bytes;
use reference::notation::{blocks, entry};
use reference::{encode, Entry};

use super::naming::{dictionary as laid, numbered};
use super::properties;
use crate::catalogue::MOST_SERVICES;
use crate::damage::seal_first;
use crate::excluding::Given;
use crate::naming::{chain, named};
use crate::vectors::Vector;
use crate::{BLOCK, MOST_DEPTH, MOST_DESCRIPTION};

/// All of them, in the order of the statements.
pub fn all() -> Vec<Vector> {
    [
        table(),
        superiors(),
        classes(),
        by_the_list(),
        begins(),
        lengths(),
        counts(),
        own_checks(),
        one_after_the_other(),
        order(),
        outputs(),
    ]
    .concat()
}

/// The hierarchy of these texts, with an output two bytes longer than what is written.
fn ranked(services: &[&str]) -> Vector {
    Vector::hierarchy(laid(services), hierarchy_bytes(services.len()) + 2)
}

/// The hierarchy of this list, with an output for three services.
fn of_list(list: Vec<u8>) -> Vector {
    Vector::hierarchy(list, hierarchy_bytes(3))
}

/// A row for the one that is contained, a byte for the one that contains it, as single comparisons answer.
pub fn table() -> Vec<Vector> {
    vec![
        ranked(&[""]),
        ranked(&["6"]),
        ranked(&["1,7", ""]),
        ranked(&["", "1,7"]),
        ranked(&["1,7", "1,8"]),
        ranked(&["3,1,2; 4,1,2", "3,1,3", "6"]),
        ranked(&["4,1,0", "5,1 [6]"]),
        ranked(&["4,32768,1", "4,32767,1", "3,32768,2"]),
        ranked(&["5,1 [3,2,1]", "5,1 [3,2,1; 4,2,1]", "5,1 [4,2,1]"]),
    ]
}

/// Strictly above, with no third strictly between. Those that contain each other stand not between one another, all of the next class
/// are superiors, and from one service several ways may lead up.
pub fn superiors() -> Vec<Vector> {
    vec![
        // A chain, upwards and downwards: only the next is a superior.
        ranked(&["1,1; 1,2; 1,3", "1,1; 1,2", "1,1", ""]),
        ranked(&["", "1,1", "1,1; 1,2", "1,1; 1,2; 1,3"]),
        // A class of two in the middle, and one below it and one above it.
        ranked(&["1,1", "1,1; 1,2", "", "1,1; 1,1", "6"]),
        // Two ways up from one to one.
        ranked(&["1,1; 1,2", "1,1", "1,2", ""]),
        // A class of two at the bottom and one of two at the top.
        ranked(&["1,1", "", "1,1; 1,1", "3,1,0"]),
        // One is below the longest way up and beside it.
        ranked(&["6", "1,1; 1,2", "1,1", "2,1"]),
    ]
}

/// The lowest position, from 1, of those that say the same.
pub fn classes() -> Vec<Vector> {
    vec![
        ranked(&["1,7", "1,7", "1,7"]),
        ranked(&["1,7", "1,8", "1,7", "1,8"]),
        ranked(&["6", "1,1; 2,1", "3,1,2; 4,1,1"]),
        ranked(&["4,1,0", "1,9", "5,1 [6]", "5,1 [1,2; 2,2]"]),
        ranked(&["3,1,0", "", "4,32768,1"]),
    ]
}

/// The pairs count as in the single comparison: under them more is contained, and classes come together.
pub fn by_the_list() -> Vec<Vector> {
    let clay = || ranked(&["1,7", "2,8", "1,7; 2,8"]);
    let both = || ranked(&["1,7; 1,8", "6", "1,9"]);
    vec![
        clay(),
        clay().under(&[(8, 7)]),
        clay().under(&[(7, 9), (9, 8)]),
        both(),
        both().under(&[(7, 8)]),
    ]
}

/// So many properties 7.
fn sevens(count: usize) -> Vec<Entry> {
    vec![entry(1, 0, 7, 0); count]
}

/// The first block, and each later one numbered 1, begins a service, by both bytes of the stored number and before any check.
pub fn begins() -> Vec<Vector> {
    let full = encode(&sevens(63));
    let after_full = |number| [&full[..], &numbered(number)].concat();
    let mut wrong_check = numbered(1);
    wrong_check[510] ^= 1;
    let mut vectors = vec![
        // One service of two blocks, and two of one.
        of_list(after_full(2)),
        of_list(after_full(1)),
        // The first block begins a service whatever its number is.
        of_list(numbered(2)),
        of_list([numbered(257), blocks("1,7")].concat()),
        // Cut short by a block numbered 1: what follows stands at the wrong place of the next.
        of_list([&full[..], &numbered(1), &numbered(2)].concat()),
        of_list([&full[..], &wrong_check, &blocks("8")].concat()),
    ];
    for number in [0, 3, 257] {
        let list = [&blocks("")[..], &after_full(number), &blocks("8")].concat();
        vectors.push(of_list(list));
    }
    vectors
}

/// 1 for a list of length 0 or no multiple of 512, at input 2, whatever stands in it.
pub fn lengths() -> Vec<Vector> {
    let two = blocks("1,7").repeat(2);
    let lengths = [0, 1, 511, 513, 1023];
    let mut vectors: Vec<Vector> = lengths.map(|n| of_list(two[..n].to_vec())).to_vec();
    vectors.push(of_list([&blocks("8")[..], &[0]].concat()));
    vectors
}

/// Up to 64 services: each with one property more than the next. 8 for more, before anything of theirs and before 7, but not before 1.
pub fn counts() -> Vec<Vector> {
    let most = (0..MOST_SERVICES).map(|n| properties(MOST_SERVICES - 1 - n));
    let most: Vec<u8> = most.flatten().collect();
    let mut number_alone = vec![0; BLOCK];
    number_alone[0] = 1;
    let over = number_alone.repeat(MOST_SERVICES + 1);
    vec![
        Vector::hierarchy(most, hierarchy_bytes(MOST_SERVICES) + 1),
        Vector::hierarchy(over.clone(), 0),
        Vector::hierarchy(over[..over.len() - 1].to_vec(), 0),
    ]
}

/// What is wrong with a service by itself, each at the number and place of its own. Any name is a 4, since there is no dictionary.
fn faults() -> Vec<Vec<u8>> {
    let mut wrong_second = encode(&sevens(64));
    wrong_second[BLOCK + 508] ^= 1;
    seal_first(&mut wrong_second[BLOCK..]);
    let deep = [chain(MOST_DEPTH + 1), vec![entry(1, 33, 7, 0)]].concat();
    vec![
        wrong_second,
        [blocks("1,7"), numbered(2)].concat(),
        blocks("1,7; 8"),
        blocks("1,7; 7,1"),
        encode(&[entry(1, 0, 7, 0), named(0, 1)]),
        encode(&[named(0, 0)]),
        encode(&[entry(1, 0, 7, 0), entry(1, 1, 8, 0)]),
        encode(&deep),
    ]
}

/// Each fault first and third: the input is 1 plus the service's position. A service's own 1 is only for more than 16 blocks.
pub fn own_checks() -> Vec<Vector> {
    let mut vectors = Vec::new();
    for fault in faults() {
        let third = [&blocks("1,7").repeat(2)[..], &fault].concat();
        vectors.extend([of_list(fault), of_list(third)]);
    }
    let seventeen = properties(MOST_DESCRIPTION + 1);
    vectors.extend([
        of_list(seventeen.clone()),
        of_list([&blocks("1,7")[..], &seventeen].concat()),
    ]);
    vectors
}

/// Each service in full before anything of the next.
pub fn one_after_the_other() -> Vec<Vector> {
    let [check, frame, form, ..] = &faults()[..] else {
        return Vec::new();
    };
    let good = blocks("1,7");
    [[form, check], [frame, check], [check, form]]
        .map(|two| of_list([&good[..], two[0], two[1]].concat()))
        .to_vec()
}

/// 11; 1 and 8 of the list; the services; 7.
pub fn order() -> Vec<Vector> {
    let bad = blocks("8");
    let wrong = || Given::list(vec![7]);
    vec![
        Vector::hierarchy(Vec::new(), 0).given(wrong()),
        Vector::hierarchy(bad.clone(), 0).given(Given::pairs(&[(7, 8), (7, 7)])),
        Vector::hierarchy(Vec::new(), 0),
        Vector::hierarchy(laid(&["1,7", "8"]), 0),
        Vector::hierarchy(laid(&["1,7", "1,8"]), 0),
    ]
}

/// 7 where the output is shorter than 2n² + n, however long the descriptions are; a byte more stays.
pub fn outputs() -> Vec<Vector> {
    let mut vectors = Vec::new();
    for (services, outputs) in [
        (&["1,7"][..], &[0, 2, 3, 4][..]),
        (&["1,7", "", "1,8"], &[3, 9, 18, 20, 21, 22]),
    ] {
        for &output in outputs {
            vectors.push(Vector::hierarchy(laid(services), output));
        }
    }
    let long = properties(2 * 63).repeat(2);
    vectors.extend([9, 10].map(|output| Vector::hierarchy(long.clone(), output)));
    vectors
}
