//! Vectors of the statements on all services in one call.

use reference::notation::{blocks, entry};
use reference::{encode, Entry};

use super::naming::{dictionary as laid, numbered};
use super::properties;
use crate::catalogue::MOST_SERVICES;
use crate::damage::seal_first;
use crate::excluding::Given;
use crate::naming::{chain, named};
use crate::vectors::Vector;
use crate::{BLOCK, MOST_DEPTH, MOST_DESCRIPTION};

/// All of them, in the order of the statements.
pub fn all() -> Vec<Vector> {
    [
        bytes(),
        desk(),
        begins(),
        lengths(),
        counts(),
        own_checks(),
        one_after_the_other(),
        order(),
        outputs(),
        pairs_and_names(),
        as_unfolded(),
    ]
    .concat()
}

/// The catalogue of these texts, with an output two bytes longer than they are many.
fn catalogue(c: &str, services: &[&str]) -> Vector {
    Vector::catalogue(blocks(c), laid(services), services.len() + 2)
}

/// The catalogue of "has property 7" and this list, with an output for any.
fn of_list(list: Vec<u8>) -> Vector {
    Vector::catalogue(blocks("1,7"), list, MOST_SERVICES)
}

/// A byte for each service: 1 for contained, 0 for not (L3). The same service again is judged
/// again.
pub fn bytes() -> Vec<Vector> {
    vec![
        catalogue("", &[""]),
        catalogue("", &["6"]),
        catalogue("1,7", &["1,7", "1,8", "", "2,8"]),
        catalogue("3,1,2; 4,1,2", &["3,1,2", "3,1,3", "4,1,2", "4,1,1"]),
        catalogue("6", &["6", "1,1; 2,1", "3,1,65535"]),
        catalogue("4,1,0", &["5,1 [6]", "5,2 [6]", "4,1,0"]),
        catalogue("1,1", &["4,32768,1", "4,32767,1", "3,32768,2"]),
        catalogue("1,7", &["1,8", "1,7", "1,8", "1,7", "1,7"]),
    ]
}

/// The pairs of the desk: what the single comparison says.
pub fn desk() -> Vec<Vector> {
    let pairs = [
        ("", ""),
        ("1,7", "1,7"),
        ("5,1 [3,2,1]", "5,1 [3,2,1; 4,2,1]"),
        ("5,1 [5,2 [6]; 3,2,1]", "5,1 [1,9]"),
        ("", "5,3 [3,1,0]"),
        ("3,1,2; 4,1,2", "3,1,3"),
        ("3,1,3; 4,1,2", "6"),
        ("", "4,1,65535"),
        ("1,7", "2,8"),
        ("4,1,0", "5,1 [6]"),
        ("5,1 [6]", "4,1,0"),
        ("", "6"),
    ];
    pairs.map(|(c, d)| catalogue(c, &[d])).to_vec()
}

/// So many properties 7.
fn sevens(count: usize) -> Vec<Entry> {
    vec![entry(1, 0, 7, 0); count]
}

/// Each block numbered 1 begins a description (L1): by both bytes of the stored number, before any check.
pub fn begins() -> Vec<Vector> {
    let full = encode(&sevens(63));
    let after_full = |number| [&full[..], &numbered(number)].concat();
    let mut wrong_check = numbered(1);
    wrong_check[510] ^= 1;
    let mut vectors = vec![
        // One service of two blocks, two of one, and one of two blocks between two others.
        of_list(after_full(2)),
        of_list(after_full(1)),
        of_list([&blocks("1,8")[..], &after_full(2), &blocks("6")].concat()),
        // The first block begins a service whatever its number is.
        of_list(numbered(2)),
        of_list([numbered(0), blocks("8")].concat()),
        of_list([numbered(257), blocks("1,7")].concat()),
        // Cut short by a block numbered 1: what follows stands at the wrong place of the next.
        of_list([&full[..], &numbered(1), &numbered(2)].concat()),
        // A number 1 begins a service also where the check is wrong.
        of_list([&full[..], &wrong_check, &blocks("8")].concat()),
    ];
    // A later block of another number belongs to the service before.
    for number in [0, 3, 256, 257, 65_535] {
        let list = [&blocks("")[..], &after_full(number), &blocks("8")].concat();
        vectors.push(of_list(list));
    }
    vectors
}

/// 1 for a list of length 0 or no multiple of 512, at input 2, whatever stands in it.
pub fn lengths() -> Vec<Vector> {
    let two = blocks("1,7").repeat(2);
    let lengths = [0, 1, 511, 513, 1023];
    let mut vectors: Vec<Vector> = lengths.map(|n| of_list(two[..n].to_vec())).to_vec();
    vectors.push(of_list([&blocks("8")[..], &[0]].concat()));
    vectors
}

/// Up to 64 services; 8 for more, before anything of theirs and before 7, but not before 1.
pub fn counts() -> Vec<Vector> {
    let most = [blocks("1,7").repeat(MOST_SERVICES - 1), blocks("1,8")].concat();
    let mut number_alone = vec![0; BLOCK];
    number_alone[0] = 1;
    vec![
        of_list(most.clone()),
        of_list([&most[..], &blocks("1,7")].concat()),
        Vector::catalogue(blocks("1,7"), number_alone.repeat(MOST_SERVICES + 1), 0),
        of_list([&most[..], &blocks("1,7"), &[1]].concat()),
    ]
}

/// What is wrong with a service by itself, each at the number and place of its own.
fn faults() -> Vec<Vec<u8>> {
    let mut wrong_second = encode(&sevens(64));
    wrong_second[BLOCK + 508] ^= 1;
    seal_first(&mut wrong_second[BLOCK..]);
    let deep = [chain(MOST_DEPTH + 1), vec![entry(1, 33, 7, 0)]].concat();
    vec![
        wrong_second,
        [blocks("1,7"), numbered(2)].concat(),
        blocks("1,7; 8"),
        blocks("1,7; 7,1"),
        blocks("1,7; 9,1,1"),
        blocks("1,7; 9,3"),
        encode(&[entry(1, 0, 7, 0), entry(1, 1, 8, 0)]),
        encode(&deep),
        over(),
    ]
}

/// A dictionary of 63 properties 7, and an empty description.
fn full_and_empty() -> Vec<u8> {
    [encode(&sevens(63)), blocks("")].concat()
}

/// More than 1,008 entries with that dictionary.
fn over() -> Vec<u8> {
    encode(&[named(0, 1); 17])
}

/// The n-th service is input 1 + n (L5): each fault first and third. Its 1 is only for more than 16 blocks.
pub fn own_checks() -> Vec<Vector> {
    let mut vectors = Vec::new();
    for fault in faults() {
        let third = [&blocks("9,2; 1,7").repeat(2)[..], &fault].concat();
        vectors.extend([of_list(fault), of_list(third)].map(|v| v.with(&full_and_empty())));
    }
    let sixteen = properties(MOST_DESCRIPTION);
    let seventeen = properties(MOST_DESCRIPTION + 1);
    vectors.extend([
        of_list([&sixteen[..], &blocks("1,7")].concat()),
        of_list([&blocks("1,7")[..], &seventeen].concat()),
        // 17 blocks that would unfold to nothing.
        of_list(encode(&vec![named(0, 2); MOST_DESCRIPTION + 1])).with(&full_and_empty()),
    ]);
    vectors
}

/// Each service in full, its 14 included, before anything of the next.
pub fn one_after_the_other() -> Vec<Vector> {
    let [check, frame, form, ..] = &faults()[..] else {
        return Vec::new();
    };
    let (over, good, dictionary) = (over(), blocks("1,7"), full_and_empty());
    [
        [form, check],
        [frame, check],
        [&over, check],
        [&over, &good],
        [&good, &over],
    ]
    .map(|two| of_list([&good[..], two[0], two[1]].concat()).with(&dictionary))
    .to_vec()
}

/// 11; the dictionary; the supplier in full; 1 and 8 of the list; the services; 7.
pub fn order() -> Vec<Vector> {
    let right = full_and_empty();
    let (bad, empty) = (blocks("8"), Vec::new());
    let pairs = |pairs: &[(u16, u16)], dictionary: &[u8]| Given {
        dictionary: dictionary.to_vec(),
        ..Given::pairs(pairs)
    };
    let on_nothing = || Vector::catalogue(Vec::new(), Vec::new(), 0);
    let mut vectors = vec![
        on_nothing().given(Given::list(vec![7])),
        on_nothing().given(pairs(&[(7, 8), (7, 7)], &bad)),
        on_nothing().given(pairs(&[(7, 8)], &right[..511])),
        on_nothing().given(pairs(&[(7, 8)], &[&right[..], &blocks("9,3")].concat())),
        on_nothing(),
    ];
    let suppliers = [bad.clone(), blocks("1,7; 9,3"), over()];
    for c in suppliers {
        vectors.push(Vector::catalogue(c, empty.clone(), 0).with(&right));
    }
    let many = bad.repeat(MOST_SERVICES + 1);
    vectors.extend([
        Vector::catalogue(bad.clone(), many, 0),
        Vector::catalogue(blocks("1,7"), empty, 0),
        Vector::catalogue(blocks("1,7"), bad, 0),
        Vector::catalogue(blocks("1,7"), laid(&["1,7", "1,8", "8"]), 0),
        Vector::catalogue(blocks("1,7"), laid(&["1,7", "1,8"]), 0),
    ]);
    vectors
}

/// 7 last, for fewer bytes than services (L7); later bytes stay, and long descriptions need no more.
pub fn outputs() -> Vec<Vector> {
    let mut vectors = Vec::new();
    for (services, outputs) in [
        (&["1,7"][..], &[0, 1, 2][..]),
        (&["1,8"], &[0, 1, 2]),
        (&["1,7", "1,8", "1,7", "1,7", "1,8"], &[0, 1, 4, 5, 6, 100]),
    ] {
        for &output in outputs {
            vectors.push(Vector::catalogue(blocks("1,7"), laid(services), output));
        }
    }
    let long = properties(2 * 63);
    let twice = long.repeat(2);
    vectors.extend([1, 2].map(|n| Vector::catalogue(long.clone(), twice.clone(), n)));
    vectors
}

/// Pairs and names count as in the single comparison.
pub fn pairs_and_names() -> Vec<Vector> {
    let clay = || catalogue("1,7", &["2,8", "2,9", "1,7"]);
    let both = || catalogue("5,1 [1,7]; 5,1 [1,8]", &["4,1,0", "5,1 [6]", "4,1,1"]);
    let dictionary = laid(&["1,7", "", "5,1 [9,1]"]);
    let names = || catalogue("9,1; 5,1 [1,7]", &["9,2", "9,3", "9,1; 9,3", "1,8"]);
    vec![
        clay(),
        clay().under(&[(8, 7)]),
        clay().under(&[(7, 8), (9, 7)]),
        both(),
        both().under(&[(7, 8)]),
        names().with(&dictionary),
        names(),
        catalogue("1,7", &["1,7", "9,1"]),
        catalogue("9,1", &["2,8", "9,1"])
            .under(&[(7, 8)])
            .with(&dictionary),
    ]
}

/// The services of a list with names, and the same unfolded with no dictionary: one line, but for its number.
pub fn as_unfolded() -> Vec<Vector> {
    let dictionary = laid(&["1,7; 2,8", "5,1 [9,1; 3,2,1]"]);
    vec![
        catalogue("9,2; 9,1", &["9,1; 1,9", "5,1 [9,1]", "9,2", "5,1 [9,2]"]).with(&dictionary),
        catalogue(
            "5,1 [1,7; 2,8; 3,2,1]; 1,7; 2,8",
            &[
                "1,7; 2,8; 1,9",
                "5,1 [1,7; 2,8]",
                "5,1 [1,7; 2,8; 3,2,1]",
                "5,1 [5,1 [1,7; 2,8; 3,2,1]]",
            ],
        ),
    ]
}
