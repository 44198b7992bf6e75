//! All entries of a service's description that fail.

use reference::{encode, failing, Entry};

use crate::chance::{description, Chance, Size};
use crate::comparing::weakened;
use crate::marks::{contained, cut, each_tiny_pair};
use crate::notation::{compared_under, entries, entry, list, Answer};
use crate::wrong::{marked, needs, needs_a_byte_for_each_asked, refuses_inputs};

/// The answer and the marks, with a longer output than needed.
fn failed(pairs: &[u8], c: &[Entry], d: &[Entry]) -> (bool, Vec<bool>) {
    let (c_bytes, d_bytes) = (encode(c), encode(d));
    let call = |out: &mut [u8]| failing(pairs, &c_bytes, &d_bytes, out);
    marked(d.len() + 9, d.len(), call).unwrap()
}

#[test]
fn by_hand() {
    for (c, d, due) in [
        ("", "", &[][..]),
        ("1,1", "1,1; 1,2; 1,1; 2,3", &[0, 1, 0, 1]),
        // Owners never fail, and nor does what stands below at most 0.
        ("", "5,1 [5,2 [1,1]; 3,1,0; 4,1,2]", &[0, 0, 1, 0, 1]),
        ("4,1,0", "5,1 [5,2 [1,1]; 6]; 6", &[0, 0, 0, 0, 1]),
        ("3,1,2; 4,1,3", "3,1,2; 3,1,3; 4,1,3; 4,1,2", &[0, 1, 0, 1]),
        ("6", "6; 1,1; 2,1", &[0, 0, 0]),
        ("", "6; 6", &[1, 1]),
    ] {
        let due: Vec<bool> = due.iter().map(|&byte| byte == 1).collect();
        let answer = !due.contains(&true);
        let found = failed(&[], &entries(c), &entries(d));
        assert_eq!(found, (answer, due), "{c} / {d}");
    }
    let (c, d) = (entries("1,1"), entries("2,2; 2,1"));
    assert_eq!(failed(&[], &c, &d), (false, vec![true, true]));
    assert_eq!(failed(&list(&[(1, 2)]), &c, &d), (false, vec![false, true]));
}

/// Each byte is a single comparison, the first that is 1 is the entry that the
/// comparison answers, and there is one exactly where C is not contained.
fn check(pairs: &[u8], c: &[Entry], d: &[Entry]) -> bool {
    let (answer, marks) = failed(pairs, c, d);
    for (index, &mark) in marks.iter().enumerate() {
        let alone: Vec<bool> = (0..d.len()).map(|other| other == index).collect();
        assert_eq!(mark, !contained(pairs, c, &cut(d, &alone)), "{c:?} {d:?}");
    }
    let first = marks.iter().position(|&mark| mark);
    match compared_under(pairs, &encode(c), &encode(d)) {
        Answer::Contained => assert!(answer && first.is_none()),
        Answer::Not { entry, .. } => assert!(!answer && first == Some(entry - 1)),
        Answer::Refused(refusal) => panic!("{refusal:?}"),
    }
    answer
}

#[test]
fn all_tiny_descriptions() {
    each_tiny_pair((1, 4), |pairs, c, d| {
        check(pairs, c, d);
    });
}

#[test]
fn drawn_descriptions() {
    let mut chance = Chance::from(1301);
    let size = Size {
        entries: 12,
        properties: 2,
        links_after: 32_766,
        links: 2,
        number: 3,
    };
    let mut yes = 0;
    for round in 0..400 {
        let pairs = [list(&[]), list(&[(1, 2)])][round % 2].clone();
        let c = description(&mut chance, size);
        yes += usize::from(check(&pairs, &c, &weakened(&mut chance, &c)));
        check(&pairs, &c, &description(&mut chance, size));
    }
    assert!(yes > 50, "{yes}");
}

#[test]
fn inputs() {
    refuses_inputs(failing);
}

#[test]
fn outputs() {
    needs_a_byte_for_each_asked(failing);
    // The length of both has no limit of its own.
    let most = encode(&vec![entry(1, 0, 1, 0); 1008]);
    needs(1008, |out| failing(&[], &most, &most, out));
}

#[test]
fn the_largest() {
    let each: Vec<Entry> = (1..=1008).map(|n| entry(1, 0, n, 0)).collect();
    assert_eq!(failed(&[], &each, &each), (true, vec![false; 1008]));
    assert_eq!(failed(&[], &[], &each), (false, vec![true; 1008]));
}
