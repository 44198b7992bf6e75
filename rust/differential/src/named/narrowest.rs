//! Vectors of the statements on the narrowest description of two.

use reference::notation::{blocks, entry};
use reference::{encode, Entry};

use super::naming::{dictionary, numbered};
use super::{chain, properties};
use crate::damage::seal_first;
use crate::excluding::Given;
use crate::vectors::Vector;
use crate::{length_of, word, BLOCK, MOST_DESCRIPTION};

/// All of them, in the order of the statements.
pub fn all() -> Vec<Vector> {
    [
        joined(),
        most(),
        every(),
        closed(),
        impossible(),
        lacks(),
        names(),
        together(),
        lengthened(),
        outputs(),
        before_the_inputs(),
        of_input(1),
        of_input(2),
        after_the_inputs(),
    ]
    .concat()
}

/// The narrowest of these, with an output two bytes longer than is needed.
fn narrowest_bytes(a: Vec<u8>, b: Vec<u8>) -> Vector {
    let output = a.len() + b.len() + 2;
    Vector::narrowest(a, b, output)
}

fn narrowest(a: &str, b: &str) -> Vector {
    narrowest_bytes(blocks(a), blocks(b))
}

/// The narrowest of each two, in either order.
fn both_ways(each: &[(&str, &str)]) -> Vec<Vector> {
    let turned = |&(a, b): &(&str, &str)| [narrowest(a, b), narrowest(b, a)];
    each.iter().flat_map(turned).collect()
}

/// What both have, lack and ask for, each looser, as the specification's examples have it (G2).
pub fn joined() -> Vec<Vector> {
    both_ways(&[
        ("", ""),
        ("1,7; 2,8; 1,9", "1,7; 2,8; 2,9"),
        ("3,1,5; 4,1,7", "3,1,2; 4,1,9"),
        ("3,1,5; 4,1,7", "3,2,5; 4,2,7"),
        (
            "1,7; 3,1,2; 4,1,5; 5,1 [1,7; 1,8]",
            "3,1,1; 4,1,3; 4,2,1; 5,1 [1,8; 2,7]",
        ),
        // Not as they are sent: as their normal forms are.
        ("3,1,1; 3,1,4; 1,7; 1,7", "1,7; 3,1,3; 4,1,9"),
    ])
}

/// No at most is not at most 65,535, and at most 0 on both sides is at most 0, with nothing below; and a link that leads to one item only.
pub fn most() -> Vec<Vector> {
    both_ways(&[
        ("4,1,65535", ""),
        ("4,1,65535", "4,1,3"),
        ("4,1,65535", "3,1,2"),
        ("4,1,0", ""),
        ("4,1,0", "4,1,0"),
        ("4,1,0; 5,1 [1,7]", "4,1,0; 5,1 [1,7]"),
        ("5,1 [4,2,0; 5,2 [1,7]]", "5,1 [4,2,0]"),
        ("4,32768,0", "4,32768,1"),
        ("3,32768,1", "3,32768,1; 4,32768,1"),
        ("3,65535,1; 5,65535 [1,7]", "5,65535 [1,7]"),
    ])
}

/// An 'every' that one side lacks is the empty place, and nothing is joined below it; a joined place that says nothing goes.
pub fn every() -> Vec<Vector> {
    both_ways(&[
        ("5,1 [1,7]", ""),
        ("5,1 [1,7]", "5,2 [1,7]"),
        ("5,1 [1,7]", "5,1 [1,8]"),
        ("5,1 [5,2 [1,7]]", "5,1 [1,7]"),
        ("5,1 [1,7; 5,2 [1,8]]", "5,1 [1,7; 5,3 [1,8]]"),
        ("5,1 [5,2 [1,7]]", "5,1 [5,2 [1,8]]"),
        ("3,1,2; 5,1 [1,7]", "3,1,1; 5,1 [2,7]"),
        (
            "5,1 [1,7]; 5,1 [5,2 [1,8]]",
            "5,1 [1,7; 5,2 [1,8]]; 5,2 [1,7]",
        ),
    ])
}

/// Below a link of which one side has at most 0 the other's place stands whole, at any depth; and where the other side lacks that.
pub fn closed() -> Vec<Vector> {
    both_ways(&[
        ("4,1,0", "4,1,3; 5,1 [1,7]"),
        ("4,1,0", "5,1 [1,7; 5,2 [2,7; 3,3,2]]"),
        ("5,1 [6]", "5,1 [1,7]"),
        ("5,1 [4,2,0]", "5,1 [5,2 [1,7]]"),
        ("5,1 [5,2 [4,3,0]]", "5,1 [5,2 [5,3 [1,7]; 1,8]]"),
        ("4,1,0; 5,2 [2,9]", "5,1 [5,3 [1,8]]; 4,2,0"),
        ("5,1 [3,32768,2]", "5,1 [1,7]"),
        ("4,1,0", "3,1,1"),
        ("4,1,0; 1,7", "5,1 [1,8]; 1,9"),
    ])
}

/// Where no item fits one of the two, the result is the other's normal form.
pub fn impossible() -> Vec<Vector> {
    both_ways(&[
        ("6", "1,7; 3,1,2"),
        ("6", ""),
        ("6", "6"),
        ("6; 6", "1,7; 2,7"),
        ("1,7; 2,7", "3,1,0; 1,8; 1,8; 4,1,3"),
        ("3,1,2; 4,1,1", "5,1 [1,7]"),
        ("3,32768,2", "4,32768,0"),
        ("3,1,1; 5,1 [6]", "4,1,0; 5,1 [1,7]"),
    ])
}

/// The pairs of the lists below: two properties that exclude property 1; two each of which excludes three others.
const TWO: [(u16, u16); 2] = [(2, 1), (3, 1)];
const SIX: [(u16, u16); 6] = [(1, 3), (1, 4), (1, 5), (2, 3), (2, 4), (2, 5)];

/// A lack that a pair implies counts, is listed where the result does not imply it, and else is not (G2, G9).
pub fn lacks() -> Vec<Vector> {
    let under = |pairs: &[(u16, u16)], each: &[(&str, &str)]| -> Vec<Vector> {
        let vectors = both_ways(each).into_iter();
        vectors.map(|vector| vector.under(pairs)).collect()
    };
    [
        both_ways(&[("1,2", "1,3"), ("1,2", "2,1")]),
        under(
            &TWO,
            &[
                ("1,2", "1,3"),
                ("1,2", "2,1"),
                ("1,2", "1,2; 1,3"),
                ("1,2; 2,1", "2,1"),
                ("1,2", "1,1"),
                ("5,1 [1,2]", "5,1 [1,3]"),
                ("5,1 [1,2]", "5,1 [1,3; 1,2]"),
                ("5,1 [5,2 [1,2]]", "5,1 [5,2 [2,1]]"),
                ("1,1; 1,2", "1,3"),
                ("5,1 [1,1; 1,2]", "5,1 [1,3]"),
            ],
        ),
        under(&[(2, 1), (1, 3), (1, 2), (2, 1)], &[("1,2", "1,3")]),
        under(&SIX, &[("1,1", "1,2"), ("1,1; 2,9", "1,2; 2,9; 2,4")]),
    ]
    .concat()
}

/// With a dictionary all is as for the unfolded ones, lengths and number of entries too.
pub fn names() -> Vec<Vector> {
    let of = |texts: &[&str], a: &str, b: &str| {
        [narrowest(a, b), narrowest(b, a)].map(|vector| vector.with(&dictionary(texts)))
    };
    let full = encode(&[entry(1, 0, 7, 0); 504]);
    let longer = encode(&[entry(1, 0, 7, 0); 505]);
    let named_twice = |dictionary: &[u8], output| {
        Vector::narrowest(blocks("9,1"), blocks("9,1"), output).with(dictionary)
    };
    let mut vectors = [
        of(&["1,7; 1,8", "9,1; 3,1,2"], "9,1", "1,7; 2,9"),
        of(&["1,7; 1,8", "5,1 [9,1]; 3,1,2"], "9,2", "5,1 [1,8; 1,7]"),
        of(&["", "6"], "9,1", "9,2"),
        of(&["4,1,0"], "9,1", "5,1 [1,7]"),
    ]
    .concat();
    vectors.extend([
        named_twice(&full, 8192),
        named_twice(&full, 8191),
        named_twice(&longer, 8192),
    ]);
    vectors
}

/// Both together have 16 blocks, and one more, whatever the output is; each by itself is within its own limit.
pub fn together() -> Vec<Vector> {
    let of = |a, b, output| Vector::narrowest(properties(a), properties(b), output);
    vec![
        of(504, 504, 8192),
        of(504, 504, 8191),
        of(504, 505, 0),
        of(945, 63, 8192),
        of(63, 946, 8192),
        of(1008, 0, 0),
    ]
}

/// Eight properties, each of which excludes each of eight others.
fn eight_by_eight() -> Vec<(u16, u16)> {
    let with = |one| (9..=16).map(move |other| (one, other));
    (1..=8).flat_map(with).collect()
}

/// So many links, each of whose items have this property.
fn below_links(links: u16, property: u16) -> Vec<u8> {
    let every = |link| [entry(5, 0, link, 0), entry(1, 2 * link - 1, property, 0)];
    encode(&(1..=links).flat_map(every).collect::<Vec<Entry>>())
}

/// Places that imply eight lacks each: nine entries of the result for two of each side. 112 places are 1,008 entries, and 113 are too many
/// for any output; of 30 the result is longer than both.
pub fn lengthened() -> Vec<Vector> {
    let of = |links, output| {
        let (a, b) = (below_links(links, 1), below_links(links, 2));
        Vector::narrowest(a, b, output).under(&eight_by_eight())
    };
    vec![
        of(112, 8192),
        of(112, 8191),
        of(113, 8192),
        of(113, 17_408),
        of(30, length_of(270)),
        of(30, length_of(270) - 1),
        of(30, 2 * BLOCK),
        of(30, 2 * BLOCK - 1),
    ]
}

/// Outputs as long as both, and a byte shorter and longer, whatever the result has.
pub fn outputs() -> Vec<Vector> {
    let mut vectors = Vec::new();
    for output in [0, BLOCK, 2 * BLOCK - 1, 2 * BLOCK, 2 * BLOCK + 1] {
        vectors.push(Vector::narrowest(blocks("1,7"), blocks("1,8"), output));
        vectors.push(Vector::narrowest(blocks("1,7"), blocks("1,7"), output));
    }
    vectors
}

/// The list, and then the dictionary, before both inputs.
pub fn before_the_inputs() -> Vec<Vector> {
    let none = |pairs: &[u8], dictionary: &[u8]| {
        Vector::narrowest(Vec::new(), Vec::new(), 0).given(Given {
            pairs: pairs.to_vec(),
            dictionary: dictionary.to_vec(),
        })
    };
    let wrong = blocks("9,1");
    vec![
        none(&[7, 0, 8], &wrong),
        none(&[7, 0, 8, 0].repeat(65), &wrong),
        none(&[7, 0, 8, 0, 7, 0, 7, 0], &wrong),
        none(&[0, 0, 8, 0], &wrong),
        none(&[7, 0, 8, 0], &[0; 511]),
        none(&[7, 0, 8, 0], &blocks("1,7").repeat(65)),
        none(&[7, 0, 8, 0], &wrong),
        none(&[], &dictionary(&["1,7", "8"])),
        none(&[], &numbered(2)),
    ]
}

/// What is refused of an input by itself: its length, its checks, its frame, its entries, and, with a dictionary, its names and what it
/// stands for. Where it is input 1, input 2 is of length 0, and else input 1 is right; the output has length 0.
pub fn of_input(input: u16) -> Vec<Vector> {
    let mut wrong_check = blocks("1,7");
    wrong_check[508] ^= 1;
    seal_first(&mut wrong_check);
    let wrong = [
        Vec::new(),
        vec![0; 511],
        properties(MOST_DESCRIPTION + 1),
        wrong_check,
        numbered(2),
        blocks("1,7; 7,1"),
        encode(&[entry(1, 1, 7, 0)]),
        chain(5, 34, &[]),
        blocks("9,1"),
    ];
    let of = |wrong| match input {
        1 => Vector::narrowest(wrong, Vec::new(), 0),
        _ => Vector::narrowest(blocks("1,7"), wrong, 0),
    };
    let mut vectors: Vec<Vector> = wrong.into_iter().map(of).collect();
    vectors.extend([
        of(blocks("9,1; 9,2")).with(&blocks("1,7")),
        of(blocks("9,1; 9,1")).with(&encode(&[entry(1, 0, 7, 0); 505])),
    ]);
    vectors
}

/// Both together come after input 2 and before the output; the output comes last.
pub fn after_the_inputs() -> Vec<Vector> {
    let names: Vec<Entry> = (2..506).map(|name| entry(1, 0, word(name), 0)).collect();
    let wrong = encode(&[&[entry(8, 0, 1, 0)][..], &names].concat());
    vec![
        Vector::narrowest(properties(504), wrong.clone(), 0),
        Vector::narrowest(properties(504), properties(505), 8191),
        Vector::narrowest(blocks("1,7"), blocks("8"), 0),
        Vector::narrowest(blocks("6"), blocks("1,7"), 1023),
    ]
}
