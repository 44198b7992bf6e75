//! Marked entries by their definitions, for the calls that answer marks.

use reference::{encode, Entry};

use crate::comparing::every_tiny_description;
use crate::notation::{compared_under, list, Answer};

/// Whether C is contained in D by the single comparison.
pub fn contained(pairs: &[u8], c: &[Entry], d: &[Entry]) -> bool {
    compared_under(pairs, &encode(c), &encode(d)) == Answer::Contained
}

/// Whether an entry is another or one of its owners; both are indices.
fn is_or_owns(entries: &[Entry], upper: usize, mut lower: usize) -> bool {
    loop {
        if upper == lower {
            return true;
        }
        match usize::from(entries[lower].owner) {
            0 => return false,
            owner => lower = owner - 1,
        }
    }
}

/// The marks with those of the owners.
pub fn owned(entries: &[Entry], marks: &[bool]) -> Vec<bool> {
    let all = 0..entries.len();
    let marked = |upper: usize| {
        let mut lower = all.clone().filter(|&lower| marks[lower]);
        lower.any(|lower| is_or_owns(entries, upper, lower))
    };
    all.clone().map(marked).collect()
}

/// The description cut down to the marked entries and their owners.
pub fn cut(entries: &[Entry], marks: &[bool]) -> Vec<Entry> {
    let left: Vec<usize> = (0..entries.len())
        .filter(|&index| owned(entries, marks)[index])
        .collect();
    let new_number = |owner: u16| match owner {
        0 => 0,
        owner => {
            left.iter()
                .position(|&i| i + 1 == usize::from(owner))
                .unwrap() as u16
                + 1
        }
    };
    let renumbered = left.iter().map(|&index| Entry {
        owner: new_number(entries[index].owner),
        ..entries[index]
    });
    renumbered.collect()
}

/// Checks that the marks are those of a set of entries of kinds other than 5
/// with their owners, that what is left keeps the promise, that leaving out any
/// one of the set ends that, and that it is the set that leaving out from the
/// last to the first finds.
pub fn check_fewest(entries: &[Entry], marks: &[bool], keeps: impl Fn(&[Entry]) -> bool) {
    let facts = |marks: &[bool]| -> Vec<bool> {
        let each = entries.iter().zip(marks);
        each.map(|(e, &mark)| mark && e.kind != 5).collect()
    };
    let set = facts(marks);
    assert_eq!(marks, owned(entries, &set));
    assert!(keeps(&cut(entries, &set)));
    let mut before = facts(&vec![true; entries.len()]);
    for index in (0..entries.len())
        .rev()
        .filter(|&index| entries[index].kind != 5)
    {
        let without = |marks: &[bool]| {
            let mut marks = marks.to_vec();
            marks[index] = false;
            cut(entries, &marks)
        };
        if set[index] {
            assert!(!keeps(&without(&set)));
            assert!(!keeps(&without(&before)));
        } else {
            assert!(keeps(&without(&before)));
            before[index] = false;
        }
    }
    assert_eq!(before, set);
}

/// Of all sets of entries of kinds other than 5 whose description keeps the
/// promise the one that does longest without the last entries.
pub fn fewest_of_all_sets(entries: &[Entry], keeps: impl Fn(&[Entry]) -> bool) -> Vec<bool> {
    let count = entries.len();
    let marks = |set: u32| -> Vec<bool> { (0..count).map(|index| set >> index & 1 == 1).collect() };
    let of_facts =
        |set: &u32| (0..count).all(|index| set >> index & 1 == 0 || entries[index].kind != 5);
    let mut sets = (0..1u32 << count).filter(of_facts);
    let least = sets.find(|&set| keeps(&cut(entries, &marks(set))));
    owned(entries, &marks(least.unwrap()))
}

/// Hands over tiny descriptions, of the first every so many and of the second
/// every so many, with links on both sides of 32,768, under a list of pairs.
pub fn each_tiny_pair(
    (c_step, d_step): (usize, usize),
    mut check: impl FnMut(&[u8], &[Entry], &[Entry]),
) {
    for (link, pairs) in [(1, list(&[])), (32_768, list(&[(1, 2)]))] {
        let all = every_tiny_description(link, 2);
        for c in all.iter().step_by(c_step) {
            for d in all.iter().step_by(d_step) {
                check(&pairs, c, d);
            }
        }
    }
}
