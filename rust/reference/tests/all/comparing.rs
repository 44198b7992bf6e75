//! The comparison against brute force and against the fit answer.

use reference::record::{fits, specimen_record, Record};
use reference::{encode, fit_with, Entry, Link};

use crate::chance::{
    all_records, description, exact_description, keeping, record, seen_from_item_0, Chance, Size,
};
use crate::notation::{compared, compared_under, entry, normal_under, Answer};

/// A link that may lead to several items, and one that never leads to two.
const EITHER: [u16; 2] = [1, 32_768];

/// What can be told apart by records with properties 1 and 2 and link 1.
const TINY: Size = Size {
    entries: 5,
    properties: 2,
    links_after: 0,
    links: 1,
    number: 3,
};
const SMALL: Size = Size {
    entries: 10,
    properties: 2,
    links_after: 0,
    links: 2,
    number: 3,
};
const LARGE: Size = Size {
    entries: 120,
    properties: 4,
    links_after: 0,
    links: 3,
    number: 5,
};

/// All records of up to 3 items with 2 properties and this link that keep the
/// rule, as seen from item 0.
fn every_small_record(link: u16) -> Vec<Record> {
    let of = |items| all_records(items, 2, &[Link(link)]);
    seen_from_item_0((1..=3).flat_map(of).collect())
}

/// Whether item 0 fits, record by record, 64 to a word. The records are taken
/// over all ways to number the items, so item 0 stands for each item.
pub fn fitting_records(records: &[Record], description: &[Entry]) -> Vec<u64> {
    let word = |chunk: &[Record]| {
        chunk.iter().fold(0u64, |word, record| {
            word << 1 | u64::from(fits(record, 0, description, 0))
        })
    };
    records.chunks(64).map(word).collect()
}

/// Some record has an item that fits the first and not the second.
fn counterexample(first: &[u64], second: &[u64]) -> bool {
    first.iter().zip(second).any(|(a, b)| a & !b != 0)
}

/// The specimen is one of C's and none of D's, and the list of excluding pairs
/// doesn't refuse it: a specimen is judged under the list (S13).
fn check_specimen(pairs: &[u8], c: &[Entry], d: &[Entry], specimen: &[Entry]) {
    let bytes = encode(specimen);
    let fit = |description: &[Entry]| fit_with(pairs, &[], &bytes, &encode(description));
    assert_eq!(fit(c), Ok(true), "{c:?} {d:?}");
    assert_eq!(fit(d), Ok(false), "{c:?} {d:?}");
    // No more entries than C and D together (C13).
    assert!(specimen.len() <= c.len() + d.len());
    for pair in specimen.windows(2) {
        let key = |e: &Entry| (e.owner, e.kind, e.name);
        assert!(key(&pair[0]) < key(&pair[1]));
    }
    if linked_pairs(specimen) < 2000 {
        let record = specimen_record(specimen);
        assert!(record.keeps_the_rule() && record.keeps_the_list(pairs));
        assert!(fits(&record, 0, c, 0));
        assert!(!fits(&record, 0, d, 0));
    }
}

/// The number of linked pairs in the record of a specimen.
fn linked_pairs(specimen: &[Entry]) -> u64 {
    let count = |number: u16| match usize::from(number).checked_sub(1) {
        Some(index) => u64::from(specimen[index].number) + 1,
        None => 1,
    };
    let groups = (1u16..).zip(specimen).filter(|(_, e)| e.kind == 7);
    groups
        .map(|(number, e)| count(e.owner) * count(number))
        .sum()
}

/// Up to the failing entry, D is met.
fn check_first(pairs: &[u8], c: &[Entry], d: &[Entry], failing: usize) {
    let before = compared_under(pairs, &encode(c), &encode(&d[..failing - 1]));
    assert_eq!(before, Answer::Contained);
    let with = compared_under(pairs, &encode(c), &encode(&d[..failing]));
    assert!(matches!(with, Answer::Not { entry, .. } if entry == failing));
}

/// Compares each with each under a list of excluding pairs and checks against
/// these records, which keep the list: a yes has no counterexample, and a no
/// has its specimen.
pub fn against_records(
    pairs: &[u8],
    records: &[Record],
    descriptions: &[Vec<Entry>],
) -> (usize, usize) {
    let fitting: Vec<Vec<u64>> = descriptions
        .iter()
        .map(|entries| fitting_records(records, entries))
        .collect();
    let (mut contained, mut not) = (0, 0);
    for (c, c_fitting) in descriptions.iter().zip(&fitting) {
        for (d, d_fitting) in descriptions.iter().zip(&fitting) {
            match compared_under(pairs, &encode(c), &encode(d)) {
                Answer::Contained => {
                    contained += 1;
                    assert!(!counterexample(c_fitting, d_fitting), "{c:?} {d:?}");
                }
                Answer::Not { entry, specimen } => {
                    not += 1;
                    check_specimen(pairs, c, d, &specimen);
                    check_first(pairs, c, d, entry);
                }
                Answer::Refused(refusal) => panic!("{refusal:?}"),
            }
        }
    }
    (contained, not)
}

/// All descriptions of up to two entries with this link, properties up to this
/// and few numbers.
pub fn every_tiny_description(link: u16, properties: u16) -> Vec<Vec<Entry>> {
    let mut one = vec![entry(6, 0, 0, 0), entry(5, 0, link, 0)];
    one.extend((1..=properties).map(|property| entry(1, 0, property, 0)));
    one.extend((1..=properties).map(|property| entry(2, 0, property, 0)));
    one.extend([0, 1, 2, 3].map(|n| entry(3, 0, link, n)));
    one.extend([0, 1, 2].map(|n| entry(4, 0, link, n)));
    let mut all = vec![vec![]];
    for &first in &one {
        all.push(vec![first]);
        for &second in &one {
            if first.kind == 5 {
                all.push(vec![first, Entry { owner: 1, ..second }]);
            } else if (first.kind, first.name) <= (second.kind, second.name) {
                all.push(vec![first, second]);
            }
        }
    }
    all
}

#[test]
fn all_tiny_descriptions() {
    for link in EITHER {
        let descriptions = every_tiny_description(link, 2);
        let (contained, not) = against_records(&[], &every_small_record(link), &descriptions);
        assert!(contained > 1000 && not > 1000, "{contained} {not}");
    }
}

#[test]
fn drawn_tiny_descriptions() {
    for link in EITHER {
        let mut chance = Chance::from(31);
        let size = Size {
            links_after: link - 1,
            ..TINY
        };
        let descriptions: Vec<_> = (0..100).map(|_| description(&mut chance, size)).collect();
        let (contained, not) = against_records(&[], &every_small_record(link), &descriptions);
        assert!(contained > 500 && not > 500, "{contained} {not}");
    }
}

#[test]
fn drawn_descriptions_against_drawn_records() {
    against_drawn_records(&[], SMALL);
}

/// Links 32,767 and 32,768: of one there may be several items, of the other
/// never two.
#[test]
fn drawn_descriptions_with_both_sorts_of_links() {
    against_drawn_records(
        &[],
        Size {
            links_after: 32_766,
            ..SMALL
        },
    );
}

pub fn against_drawn_records(pairs: &[u8], size: Size) {
    let mut chance = Chance::from(32);
    let records: Vec<Record> = (0..3000)
        .map(|_| {
            let items = 2 + chance.below(6);
            keeping(record(&mut chance, size, items), pairs)
        })
        .collect();
    let descriptions: Vec<_> = (0..120).map(|_| description(&mut chance, size)).collect();
    let (contained, not) = against_records(pairs, &records, &descriptions);
    assert!(contained > 500 && not > 500, "{contained} {not}");
}

/// D made from parts of C, so that long ways hold before something fails.
pub fn weakened(chance: &mut Chance, c: &[Entry]) -> Vec<Entry> {
    let strong = 1 + chance.below(30);
    c.iter()
        .map(|e| {
            let less = chance.below(2) as u16;
            match e.kind {
                _ if chance.once_in(strong * 4) => *e,
                3 => Entry {
                    number: e.number.saturating_sub(less),
                    ..*e
                },
                4 => Entry {
                    number: e.number + less,
                    ..*e
                },
                1 | 2 if chance.once_in(strong * 10) => Entry {
                    kind: 3 - e.kind,
                    ..*e
                },
                6 => entry(3, e.owner, 1, less),
                _ => *e,
            }
        })
        .collect()
}

#[test]
fn large_descriptions_by_fit() {
    for links_after in [0, 32_766] {
        large_by_fit(
            &[],
            Size {
                links_after,
                ..LARGE
            },
        );
    }
}

pub fn large_by_fit(pairs: &[u8], size: Size) {
    let mut chance = Chance::from(33);
    let (mut contained, mut not, mut deep) = (0, 0, 0);
    for _ in 0..700 {
        let c: Vec<Entry> = description(&mut chance, size)
            .into_iter()
            .map(|e| {
                if e.kind == 6 {
                    entry(4, e.owner, 2, 1)
                } else {
                    e
                }
            })
            .collect();
        let d = weakened(&mut chance, &c);
        for (c, d) in [(&c, &d), (&d, &c)] {
            match compared_under(pairs, &encode(c), &encode(d)) {
                Answer::Contained => contained += 1,
                Answer::Not { entry, specimen } => {
                    not += 1;
                    deep += usize::from(d[entry - 1].owner != 0);
                    check_specimen(pairs, c, d, &specimen);
                    check_first(pairs, c, d, entry);
                }
                Answer::Refused(refusal) => panic!("{refusal:?}"),
            }
        }
    }
    assert!(
        contained > 200 && not > 200 && deep > 100,
        "{contained} {not} {deep}"
    );
}

#[test]
fn the_largest_descriptions_by_fit() {
    let mut chance = Chance::from(34);
    let wide = Size {
        entries: 1008,
        properties: 60000,
        links_after: 0,
        links: 60000,
        number: 60000,
    };
    let c: Vec<Entry> = exact_description(&mut chance, wide, 1008)
        .into_iter()
        .filter(|e| e.owner == 0 && e.kind != 6)
        .collect();
    for _ in 0..10 {
        let d: Vec<Entry> = exact_description(&mut chance, wide, 1008);
        for (c, d) in [(&c, &d), (&d, &c)] {
            if let Answer::Not { specimen, .. } = compared(&encode(c), &encode(d)) {
                check_specimen(&[], c, d, &specimen);
            }
        }
    }
    // 1,008 groups from C and 33 from D: more blocks than C or D alone.
    let c: Vec<Entry> = (1..=1008).map(|link| entry(3, 0, link, 1)).collect();
    let mut d: Vec<Entry> = (0..32).map(|owner| entry(5, owner, 2000, 0)).collect();
    d.push(entry(4, 32, 2000, 65535));
    let Answer::Not { entry, specimen } = compared(&encode(&c), &encode(&d)) else {
        panic!("contained");
    };
    assert_eq!((entry, specimen.len()), (33, 1008 + 33));
    check_specimen(&[], &c, &d, &specimen);
    assert_eq!(compared(&encode(&d), &encode(&d)), Answer::Contained);
}

/// Two descriptions are contained in each other exactly when their normal
/// forms are equal; the normal form is contained both ways.
#[test]
fn both_ways_is_equal_normal_forms() {
    for links_after in [0, 32_767] {
        both_ways(
            &[],
            Size {
                entries: 4,
                properties: 1,
                links_after,
                links: 1,
                number: 2,
            },
        );
    }
}

pub fn both_ways(pairs: &[u8], size: Size) {
    let mut chance = Chance::from(35);
    let descriptions: Vec<_> = (0..90).map(|_| description(&mut chance, size)).collect();
    let holds = |c: &[Entry], d: &[Entry]| {
        compared_under(pairs, &encode(c), &encode(d)) == Answer::Contained
    };
    let normal = |entries: &[Entry]| normal_under(pairs, &encode(entries)).unwrap();
    let mut equal = 0;
    for c in &descriptions {
        let c_normal = normal(c);
        assert!(holds(c, &c_normal) && holds(&c_normal, c) && holds(c, c));
        for d in &descriptions {
            let both = holds(c, d) && holds(d, c);
            assert_eq!(both, normal(d) == c_normal, "{c:?} {d:?}");
            equal += usize::from(both);
        }
    }
    assert!(equal > 200, "{equal}");
}

/// If C is contained in D and D in E, then C in E.
#[test]
fn containment_passes_on() {
    let mut chance = Chance::from(36);
    let descriptions: Vec<_> = (0..50).map(|_| description(&mut chance, TINY)).collect();
    let table: Vec<Vec<bool>> = descriptions
        .iter()
        .map(|c| {
            let row = descriptions.iter();
            row.map(|d| compared(&encode(c), &encode(d)) == Answer::Contained)
                .collect()
        })
        .collect();
    for c in &table {
        for (d, _) in c.iter().enumerate().filter(|(_, &held)| held) {
            for (e, _) in table[d].iter().enumerate().filter(|(_, &held)| held) {
                assert!(c[e]);
            }
        }
    }
}
