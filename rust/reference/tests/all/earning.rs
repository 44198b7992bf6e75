//! The entries that earn a yes.

use reference::{earning, encode, Entry};

use crate::chance::{description, Chance, Size};
use crate::comparing::weakened;
use crate::marks::{check_fewest, contained, each_tiny_pair, fewest_of_all_sets};
use crate::naming::chain;
use crate::notation::{blocks, entries, entry, list};
use crate::wrong::{marked, needs, refuses_inputs};

/// The answer and the marks, with a longer output than needed.
fn earned(pairs: &[u8], c: &[Entry], d: &[Entry]) -> (bool, Vec<bool>) {
    let (c_bytes, d_bytes) = (encode(c), encode(d));
    let call = |out: &mut [u8]| earning(pairs, &c_bytes, &d_bytes, out);
    marked(c.len() + 9, c.len(), call).unwrap()
}

#[test]
fn by_hand() {
    for (c, d, due) in [
        ("", "", &[][..]),
        ("1,1; 1,2", "1,2", &[0, 1]),
        // Of two equal entries the first stays.
        ("1,1; 1,1", "1,1", &[1, 0]),
        ("1,1; 1,2", "", &[0, 0]),
        ("3,1,2; 3,1,4; 3,1,3", "3,1,3", &[0, 1, 0]),
        (
            "5,1 [5,2 [1,1]; 1,2]; 1,3",
            "5,1 [5,2 [1,1]]",
            &[1, 1, 1, 0, 0],
        ),
        ("5,1 [1,1]; 5,1 [1,2]", "5,1 [1,2; 1,1]", &[1, 1, 1, 1]),
        ("5,1 []; 1,1", "1,1", &[0, 1]),
        // What makes it impossible is enough for all.
        ("1,1; 2,1; 1,2", "1,2", &[1, 1, 0]),
        ("1,2; 1,1; 2,1", "1,2", &[1, 0, 0]),
        ("5,1 [6; 1,1]; 3,1,1; 1,5", "1,9", &[1, 1, 0, 1, 0]),
        ("4,1,0; 5,1 [1,1]", "5,1 [1,1]", &[1, 0, 0]),
        ("6", "5,1 [3,1,0]", &[0]),
    ] {
        let (answer, marks) = earned(&[], &entries(c), &entries(d));
        assert!(answer);
        let due: Vec<bool> = due.iter().map(|&byte| byte == 1).collect();
        assert_eq!(marks, due, "{c} / {d}");
    }
    for (c, d) in [("", "1,1"), ("1,1; 5,1 [1,1]", "5,1 [1,2]")] {
        let c = entries(c);
        assert_eq!(earned(&[], &c, &entries(d)), (false, vec![false; c.len()]));
    }
}

/// Under a list of pairs a property earns a lack.
#[test]
fn under_pairs() {
    let pairs = list(&[(1, 2)]);
    let (c, d) = (entries("1,5; 1,1; 2,2"), entries("2,2"));
    assert_eq!(earned(&pairs, &c, &d), (true, vec![false, true, false]));
    assert_eq!(earned(&[], &c, &d), (true, vec![false, false, true]));
}

fn check(pairs: &[u8], c: &[Entry], d: &[Entry]) -> bool {
    let (answer, marks) = earned(pairs, c, d);
    let keeps = |left: &[Entry]| contained(pairs, left, d);
    assert_eq!(answer, keeps(c));
    if answer {
        check_fewest(c, &marks, keeps);
        if c.len() <= 5 {
            assert_eq!(marks, fewest_of_all_sets(c, keeps));
        }
    } else {
        assert_eq!(marks, vec![false; c.len()]);
    }
    answer
}

#[test]
fn all_tiny_descriptions() {
    each_tiny_pair((1, 4), |pairs, c, d| {
        check(pairs, c, d);
    });
}

const SMALL: Size = Size {
    entries: 10,
    properties: 2,
    links_after: 32_766,
    links: 2,
    number: 3,
};

#[test]
fn drawn_descriptions() {
    let mut chance = Chance::from(1201);
    let mut yes = 0;
    for round in 0..600 {
        let pairs = [list(&[]), list(&[(1, 2)])][round % 2].clone();
        let size = Size {
            entries: [4, 5, 10, 25][round % 4],
            ..SMALL
        };
        let c = description(&mut chance, size);
        yes += usize::from(check(&pairs, &c, &weakened(&mut chance, &c)));
        check(&pairs, &c, &description(&mut chance, SMALL));
    }
    assert!(yes > 200, "{yes}");
}

#[test]
fn inputs() {
    refuses_inputs(earning);
}

#[test]
fn outputs() {
    for (c, length) in [("", 0), ("1,1", 1), ("5,1 [1,1; 1,2]", 3)] {
        for d in ["", "6"] {
            needs(length, |out| earning(&[], &blocks(c), &blocks(d), out));
        }
    }
}

/// 1,008 entries of which each is needed.
#[test]
fn all_of_the_largest() {
    let each: Vec<Entry> = (1..=1008).map(|n| entry(1, 0, n, 0)).collect();
    assert_eq!(earned(&[], &each, &each), (true, vec![true; 1008]));
}

/// What is impossible below goes up 32 links, and what is beside goes.
#[test]
fn the_deepest() {
    let mut deep = chain(32);
    deep.extend((0..32).map(|owner| entry(3, owner, 1, 1)));
    deep.push(entry(6, 32, 0, 0));
    let mut due = vec![true; 65];
    deep.extend((0..235).map(|n| entry(1, n % 33, n + 1, 0)));
    due.resize(300, false);
    assert_eq!(earned(&[], &deep, &entries("6")), (true, due));
}

/// A property that 64 others exclude, and 400 times the lack of it.
#[test]
fn the_most_pairs() {
    let pairs: Vec<_> = (2..=65).map(|other| (1, other)).collect();
    let mut c: Vec<Entry> = (100..499).map(|n| entry(1, 0, n, 0)).collect();
    c.push(entry(1, 0, 65, 0));
    let mut due = vec![false; 399];
    due.push(true);
    let d = vec![entry(2, 0, 1, 0); 400];
    assert_eq!(earned(&list(&pairs), &c, &d), (true, due));
}
