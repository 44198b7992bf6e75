//! The normal form: order, no rule left, twice is once, same meaning.

use reference::record::fits;
use reference::{encode, Entry, Link};

use crate::chance::{description, exact_description, keeping, record, reordered, Chance, Size};
use crate::notation::{blocks, entries, entry, normal, normal_under};

const SMALL: Size = Size {
    entries: 12,
    properties: 2,
    links_after: 0,
    links: 2,
    number: 3,
};
const LARGE: Size = Size {
    entries: 150,
    properties: 6,
    links_after: 0,
    links: 4,
    number: 6,
};

fn normal_entries(description: &[Entry]) -> Vec<Entry> {
    normal(&encode(description)).unwrap()
}

fn normal_text(description: &str) -> Vec<Entry> {
    normal(&blocks(description)).unwrap()
}

/// The two entries are of one place and have the same name.
fn beside(a: &Entry, b: &Entry) -> bool {
    a.owner == b.owner && a.name == b.name
}

/// Whether the two entries name the two properties of a pair.
fn are_a_pair(pairs: &[u8], a: &Entry, b: &Entry) -> bool {
    let bytes = |a: &Entry, b: &Entry| [a.name.to_le_bytes(), b.name.to_le_bytes()].concat();
    pairs
        .chunks(4)
        .any(|pair| pair == bytes(a, b) || pair == bytes(b, a))
}

/// Checks on the entries that none of the rules applies under a list of
/// excluding pairs and that the order is right.
pub fn check_normal(pairs: &[u8], found: &[Entry]) {
    // Rule 5's outcome.
    if found == entries("6") {
        return;
    }
    for (number, a) in (1u16..).zip(found) {
        assert_ne!(a.kind, 6, "rule 2 or 5");
        assert!(a.kind != 3 || a.number > 0, "rule 8");
        let single = Link(a.name).is_single();
        assert!(a.kind != 3 || !single || a.number < 2, "rules 3 and 5");
        assert!(a.kind != 4 || !single || a.number < 1, "N12");
        assert!(
            a.kind != 5 || found.iter().any(|b| b.owner == number),
            "rule 9"
        );
    }
    for (at, a) in found.iter().enumerate() {
        for b in found[at + 1..].iter().filter(|b| beside(a, b)) {
            assert_ne!(a.kind, b.kind, "rules 1, 6, 7 and equal entries");
            assert_ne!((a.kind, b.kind), (1, 2), "rule 2");
            assert!((a.kind, b.kind) != (3, 4) || a.number <= b.number, "rule 3");
            assert!((a.kind, a.number, b.kind) != (4, 0, 5), "rule 4");
        }
    }
    for (a, b) in found.iter().flat_map(|a| found.iter().map(move |b| (a, b))) {
        if a.kind == 1 && a.owner == b.owner && are_a_pair(pairs, a, b) {
            assert_ne!(b.kind, 1, "a place with both");
            assert_ne!(b.kind, 2, "an implied lack");
        }
    }
    for pair in found.windows(2) {
        let key = |e: &Entry| (e.owner, e.kind, e.name);
        assert!(key(&pair[0]) < key(&pair[1]), "order");
    }
}

#[test]
fn of_small_descriptions() {
    for (before, after) in [
        ("", ""),
        ("6", "6"),
        ("6; 6", "6"),
        ("6; 1,1", "6"),
        ("1,2; 1,1; 1,2", "1,1; 1,2"),
        ("2,1; 1,1", "6"),
        ("2,1; 1,2", "1,2; 2,1"),
        ("3,1,0", ""),
        ("3,1,0; 4,1,0", "4,1,0"),
        ("3,1,1; 4,1,0", "6"),
        ("3,1,1; 3,1,4; 3,1,2", "3,1,4"),
        ("4,1,5; 4,1,3; 4,1,9", "4,1,3"),
        ("3,1,65535; 4,1,65534", "6"),
        ("3,1,65535; 4,1,65535", "3,1,65535; 4,1,65535"),
        ("5,1 []", ""),
        ("5,1 [5,2 [5,3 [3,4,0]]]", ""),
        ("5,1 [6]", "4,1,0"),
        ("5,1 [6]; 3,1,1", "6"),
        ("5,1 [6]; 3,1,0", "4,1,0"),
        ("5,1 [1,1]; 5,1 [2,1]", "4,1,0"),
        ("5,1 [5,2 [1,1]]; 5,1 [5,2 [2,1]]", "5,1 [4,2,0]"),
        ("5,1 [5,2 [1,1]]; 5,1 [5,2 [2,1]; 3,2,2]", "4,1,0"),
        ("5,1 [3,2,3]; 5,1 [4,2,2]; 4,1,7", "4,1,0"),
        ("4,1,0; 5,1 [1,1; 5,2 [1,1]]", "4,1,0"),
        ("4,1,0; 5,2 [1,1]", "4,1,0; 5,2 [1,1]"),
        ("4,1,3; 4,1,0; 5,1 [1,1]", "4,1,0"),
        ("5,1 [6; 5,1 [1,1]]; 5,2 [1,1]", "4,1,0; 5,2 [1,1]"),
        ("5,1 [5,1 [5,1 [6]; 3,1,1]; 3,1,1]; 3,1,1", "6"),
        ("5,1 [5,1 [5,1 [6]; 3,1,1]; 3,1,1]", "4,1,0"),
        ("5,1 [5,1 [5,1 [6]; 3,1,1]]", "5,1 [4,1,0]"),
    ] {
        assert_eq!(normal_text(before), entries(after), "{before}");
    }
    // Places of different links stay apart.
    let apart = [
        entry(5, 0, 1, 0),
        entry(5, 0, 2, 0),
        entry(1, 1, 1, 0),
        entry(2, 2, 1, 0),
    ];
    assert_eq!(normal_text("5,1 [1,1]; 5,2 [2,1]"), apart);
}

/// Entries ascend by owner, then kind, then name (E11).
#[test]
fn numbers_are_given_owner_by_owner() {
    let found = normal_text("5,9 [5,2 [1,1]; 2,3]; 5,4 [5,8 [1,2]; 5,3 [1,4]]; 2,1; 1,5");
    assert_eq!(
        found,
        [
            entry(1, 0, 5, 0),
            entry(2, 0, 1, 0),
            entry(5, 0, 4, 0),
            entry(5, 0, 9, 0),
            entry(5, 3, 3, 0),
            entry(5, 3, 8, 0),
            entry(2, 4, 3, 0),
            entry(5, 4, 2, 0),
            entry(1, 5, 4, 0),
            entry(1, 6, 2, 0),
            entry(1, 8, 1, 0),
        ]
    );
}

#[test]
fn no_rule_applies_afterwards_and_twice_is_once() {
    let mut chance = Chance::from(11);
    let mut kept = 0;
    for round in 0..1500 {
        let size = if round % 5 == 0 { LARGE } else { SMALL };
        let links_after = [0, 32_766][round % 2];
        let size = Size {
            links_after,
            ..size
        };
        let found = normal_entries(&description(&mut chance, size));
        check_normal(&[], &found);
        assert_eq!(normal_entries(&found), found);
        kept += usize::from(found.len() > 3);
    }
    assert!(kept > 200, "{kept}");
}

#[test]
fn the_order_of_the_input_does_not_matter() {
    let mut chance = Chance::from(12);
    for round in 0..400 {
        let links_after = [0, 32_766][round % 2];
        let size = Size {
            links_after,
            ..SMALL
        };
        let first = description(&mut chance, size);
        let found = normal_entries(&first);
        let mut again = first.clone();
        again.extend(found.iter().filter(|e| e.kind != 5 && e.owner == 0));
        for other in [
            reordered(&mut chance, &first),
            reordered(&mut chance, &again),
        ] {
            assert_eq!(normal_entries(&other), found);
        }
    }
}

#[test]
fn the_same_items_fit() {
    the_same_items_fit_under(&[], SMALL);
}

/// Drawn descriptions and their normal forms in drawn records that keep the
/// list of excluding pairs.
pub fn the_same_items_fit_under(pairs: &[u8], size: Size) {
    let mut chance = Chance::from(13);
    let mut fitted = 0;
    for round in 0..300 {
        let links_after = [0, 32_766][round % 2];
        let size = Size {
            links_after,
            ..size
        };
        let before = description(&mut chance, size);
        let after = normal_under(pairs, &encode(&before)).unwrap();
        check_normal(pairs, &after);
        for _ in 0..40 {
            let items = 1 + chance.below(5);
            let record = keeping(record(&mut chance, size, items), pairs);
            assert!(record.keeps_the_rule() && record.keeps_the_list(pairs));
            for item in 0..items {
                let fit = fits(&record, item, &before, 0);
                assert_eq!(fits(&record, item, &after, 0), fit);
                fitted += usize::from(fit);
            }
        }
    }
    assert!(fitted > 1000, "{fitted}");
}

#[test]
fn the_largest_descriptions() {
    let mut chance = Chance::from(14);
    let wide = Size {
        entries: 1008,
        properties: 60000,
        links_after: 0,
        links: 60000,
        number: 60000,
    };
    let narrow = Size {
        entries: 1008,
        properties: 500,
        links_after: 0,
        links: 3,
        number: 60000,
    };
    for size in [wide, narrow, LARGE, SMALL] {
        let found = normal_entries(&exact_description(&mut chance, size, 1008));
        check_normal(&[], &found);
        assert_eq!(normal_entries(&found), found);
    }
    // An impossible place at depth 32 that goes up to the top.
    let mut deep: Vec<Entry> = Vec::new();
    for depth in 0..32 {
        let owner = if depth == 0 { 0 } else { 2 * depth - 1 };
        deep.push(entry(5, owner, 1, 0));
        deep.push(entry(3, owner, 1, 1));
    }
    deep.push(entry(6, 63, 0, 0));
    assert_eq!(normal_entries(&deep), entries("6"));
    deep[1].number = 0;
    assert_eq!(normal_entries(&deep), entries("4,1,0"));
}
