//! What is missing for a yes.

use reference::{encode, missing, Entry, Missing};

use crate::chance::{description, Chance, Size};
use crate::comparing::weakened;
use crate::marks::{check_fewest, contained, each_tiny_pair, fewest_of_all_sets};
use crate::naming::refusal;
use crate::notation::{blocks, entries, entry, list, normal_under};
use crate::wrong::{marked, needs, needs_a_byte_for_each_asked, refused, refuses_inputs};

/// The answer and the marks, with a longer output than needed.
fn lacking(pairs: &[u8], c: &[Entry], d: &[Entry]) -> (Missing, Vec<bool>) {
    let (c_bytes, d_bytes) = (encode(c), encode(d));
    let call = |out: &mut [u8]| missing(pairs, &c_bytes, &d_bytes, out);
    marked(d.len() + 9, d.len(), call).unwrap()
}

#[test]
fn by_hand() {
    use Missing::{NothingFitsBoth, NothingToAdd, ToBeAdded};
    for (c, d, answer, due) in [
        ("", "", NothingToAdd, &[][..]),
        ("1,1", "1,1; 5,1 [3,1,0]", NothingToAdd, &[0, 0, 0]),
        ("1,1", "1,2; 1,1; 1,3", ToBeAdded, &[1, 0, 1]),
        // Of two equal entries the first stays.
        ("", "1,1; 1,1", ToBeAdded, &[1, 0]),
        ("", "3,1,2; 3,1,3", ToBeAdded, &[0, 1]),
        ("", "4,1,0; 5,1 [1,1]", ToBeAdded, &[1, 0, 0]),
        ("", "5,1 [1,1; 5,2 [2,1]]", ToBeAdded, &[1, 1, 1, 1]),
        ("5,1 [1,1]", "5,1 [2,1; 1,5]; 1,3", ToBeAdded, &[1, 1, 0, 1]),
        // Nothing fits both: a smallest contradiction.
        ("1,1", "1,5; 2,1; 1,6", NothingFitsBoth, &[0, 1, 0]),
        ("3,1,3", "4,1,9; 4,1,2; 4,1,1", NothingFitsBoth, &[0, 1, 0]),
        (
            "3,1,1",
            "5,1 [1,5; 1,1; 2,1]",
            NothingFitsBoth,
            &[1, 0, 1, 1],
        ),
        ("", "6", NothingFitsBoth, &[1]),
        ("", "1,1; 2,1; 6", NothingFitsBoth, &[1, 1, 0]),
        // Nothing fits C: nothing is to be added.
        ("6", "6; 1,1", NothingToAdd, &[0, 0]),
        ("1,1; 2,1", "1,2", NothingToAdd, &[0]),
    ] {
        let due: Vec<bool> = due.iter().map(|&byte| byte == 1).collect();
        let found = lacking(&[], &entries(c), &entries(d));
        assert_eq!(found, (answer, due), "{c} / {d}");
    }
    let (c, d) = (entries("1,1"), entries("1,3; 1,2"));
    assert_eq!(lacking(&[], &c, &d), (ToBeAdded, vec![true, true]));
    let found = lacking(&list(&[(1, 2)]), &c, &d);
    assert_eq!(found, (NothingFitsBoth, vec![false, true]));
}

/// The entries of C and then those of another description, beside them.
fn with(c: &[Entry], added: &[Entry]) -> Vec<Entry> {
    let owner = |e: &Entry| {
        if e.owner == 0 {
            0
        } else {
            e.owner + c.len() as u16
        }
    };
    let moved = added
        .iter()
        .map(|e| entry(e.kind, owner(e), e.name, e.number));
    c.iter().copied().chain(moved).collect()
}

fn check(pairs: &[u8], c: &[Entry], d: &[Entry]) -> Missing {
    let (answer, marks) = lacking(pairs, c, d);
    let mends = |added: &[Entry]| contained(pairs, &with(c, added), d);
    check_fewest(d, &marks, mends);
    if d.len() <= 5 {
        assert_eq!(marks, fewest_of_all_sets(d, mends));
    }
    let impossible = |d: &[Entry]| normal_under(pairs, &encode(d)).unwrap() == entries("6");
    let due = if contained(pairs, c, d) {
        Missing::NothingToAdd
    } else if impossible(&with(c, d)) {
        Missing::NothingFitsBoth
    } else {
        Missing::ToBeAdded
    };
    assert_eq!(answer, due);
    assert_eq!(answer == Missing::NothingToAdd, !marks.contains(&true));
    if answer == Missing::NothingFitsBoth {
        let without = |added: &[Entry]| impossible(&with(c, added));
        check_fewest(d, &marks, without);
    }
    answer
}

#[test]
fn all_tiny_descriptions() {
    each_tiny_pair((5, 1), |pairs, c, d| {
        check(pairs, c, d);
    });
}

#[test]
fn drawn_descriptions() {
    let mut chance = Chance::from(1401);
    let mut answers = Vec::new();
    for round in 0..300 {
        let pairs = [list(&[]), list(&[(1, 2)])][round % 2].clone();
        let size = Size {
            entries: [4, 5, 10, 20][round % 4],
            properties: 2,
            links_after: 32_766,
            links: 2,
            number: 3,
        };
        let c = description(&mut chance, size);
        answers.push(check(&pairs, &c, &weakened(&mut chance, &c)));
        answers.push(check(&pairs, &c, &description(&mut chance, size)));
    }
    for answer in [
        Missing::NothingToAdd,
        Missing::ToBeAdded,
        Missing::NothingFitsBoth,
    ] {
        assert!(answers.iter().filter(|&&found| found == answer).count() > 50);
    }
}

#[test]
fn inputs() {
    refuses_inputs(missing);
}

fn has(count: usize) -> Vec<u8> {
    encode(&vec![entry(1, 0, 1, 0); count])
}

/// More than 16 blocks together, after all checks of both and before 7.
#[test]
fn together() {
    for (c, d) in [(1, 946), (64, 883), (1008, 0), (0, 1008), (505, 505)] {
        refused(refusal(1, 2, 0), |out| missing(&[], &has(c), &has(d), out));
    }
    for (c, d) in [(1, 945), (945, 1), (504, 504), (945, 0)] {
        needs(d, |out| missing(&[], &has(c), &has(d), out));
    }
    let wrong = [has(945), blocks("8")].concat();
    refused(refusal(3, 2, 16), |out| {
        missing(&[], &has(945), &wrong, out)
    });
}

#[test]
fn outputs() {
    needs_a_byte_for_each_asked(missing);
}

#[test]
fn the_largest() {
    let each: Vec<Entry> = (1..=504).map(|n| entry(1, 0, n, 0)).collect();
    let found = lacking(&[], &[], &each);
    assert_eq!(found, (Missing::ToBeAdded, vec![true; 504]));
    let found = lacking(&[], &each, &each);
    assert_eq!(found, (Missing::NothingToAdd, vec![false; 504]));
}
