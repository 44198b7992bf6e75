//! The fit answer against fitting in the expanded record.

use reference::record::{fits, specimen_record, Record};
use reference::{encode, fit, Entry, Link, Property};

use crate::chance::{description, specimen, Chance, Size};
use crate::notation::{blocks, entries, entry};

const SPECIMENS: Size = Size {
    entries: 8,
    properties: 2,
    links_after: 0,
    links: 2,
    number: 3,
};
const DESCRIPTIONS: Size = Size {
    entries: 6,
    properties: 2,
    links_after: 0,
    links: 2,
    number: 4,
};

fn fit_texts(specimen: &str, description: &str) -> bool {
    fit(&blocks(specimen), &blocks(description)).unwrap()
}

#[test]
fn all_items_fit_the_empty_description() {
    for specimen in ["", "1,1", "7,1,65535", "7,1 [7,1 [1,1]]"] {
        assert!(fit_texts(specimen, ""));
        assert!(!fit_texts(specimen, "6"));
    }
}

/// Groups of one owner and link add up (F9); a group counts as its items
/// (F9).
#[test]
fn counts() {
    for (specimen, description, answer) in [
        ("", "3,1,0", true),
        ("", "3,1,1", false),
        ("", "4,1,0", true),
        ("7,1", "3,1,1; 4,1,1", true),
        ("7,1,4", "3,1,5; 4,1,5", true),
        ("7,1,4", "4,1,4", false),
        ("7,1,4", "3,1,6", false),
        ("7,1,4; 7,1,4", "3,1,10; 4,1,10", true),
        ("7,1,4; 7,2,4", "3,1,6", false),
        ("7,1,65535", "3,1,65535", true),
        ("7,1,65535", "4,1,65535", false),
        ("7,1,65534", "4,1,65535; 3,1,65535", true),
        ("7,1,65535; 7,1,65535", "4,1,65535", false),
        ("7,1,65535; 7,1,65535", "3,1,65535", true),
        (
            "7,1,1 [7,1,1]",
            "3,1,2; 4,1,2; 5,1 [3,1,2; 4,1,2; 5,1 [4,1,0]]",
            true,
        ),
        ("7,1,1 [7,1,1]", "5,1 [3,1,3]", false),
    ] {
        assert_eq!(
            fit_texts(specimen, description),
            answer,
            "{specimen} / {description}"
        );
    }
}

#[test]
fn properties_and_every() {
    for (specimen, description, answer) in [
        ("1,7", "1,7; 2,8", true),
        ("1,7", "1,8", false),
        ("1,7", "2,7", false),
        ("1,7", "3,7,1", false),
        ("7,7", "1,7", false),
        ("7,1 [1,1]", "1,1", false),
        ("7,1 [1,1]", "5,1 [1,1]", true),
        ("7,1 [1,1]; 7,1", "5,1 [1,1]", false),
        ("7,1 [1,1]; 7,2", "5,1 [1,1]", true),
        ("7,1 [1,1]; 7,2", "5,1 [1,1]; 5,2 [2,1]; 5,3 [6]", true),
        ("7,1", "5,1 [6]", false),
        ("", "5,1 [6]", true),
        ("7,1,9 [7,2,9 [1,3]]", "5,1 [5,2 [1,3; 2,4]]", true),
        ("7,1,9 [7,2,9 [1,3]; 7,2]", "5,1 [5,2 [1,3; 2,4]]", false),
    ] {
        assert_eq!(
            fit_texts(specimen, description),
            answer,
            "{specimen} / {description}"
        );
    }
}

/// Each item of the owner is linked to each of the group (F7).
#[test]
fn an_expanded_specimen() {
    let record = specimen_record(&entries("1,5; 7,1,1 [1,6; 7,2]"));
    let mut expected = Record::of_items(4);
    expected.add_property(Property(5), 0);
    for item in [1, 2] {
        expected.add_property(Property(6), item);
        expected.add_link(Link(1), 0, item);
        expected.add_link(Link(2), item, 3);
    }
    assert_eq!(record, expected);
}

/// Records with sharing and cycles: an item linked to itself.
#[test]
fn a_cycle() {
    let mut record = Record::of_items(1);
    record.add_link(Link(1), 0, 0);
    record.add_property(Property(1), 0);
    let all = |text: &str| fits(&record, 0, &entries(text), 0);
    assert!(all("5,1 [5,1 [5,1 [1,1; 3,1,1; 4,1,1]]]"));
    assert!(!all("5,1 [5,1 [5,1 [2,1]]]"));
    assert!(!all("4,1,0"));
}

#[test]
fn fit_is_fitting_in_the_record() {
    let mut chance = Chance::from(21);
    let (mut yes, mut no) = (0, 0);
    for round in 0..1500 {
        let links_after = [0, 32_766][round % 2];
        let drawn = |size| Size {
            links_after,
            ..size
        };
        let specimen = specimen(&mut chance, drawn(SPECIMENS));
        let record = specimen_record(&specimen);
        assert!(record.keeps_the_rule());
        for _ in 0..4 {
            let description = description(&mut chance, drawn(DESCRIPTIONS));
            let answer = fit(&encode(&specimen), &encode(&description)).unwrap();
            assert_eq!(answer, fits(&record, 0, &description, 0));
            yes += usize::from(answer);
            no += usize::from(!answer);
        }
    }
    assert!(yes > 500 && no > 500, "{yes} {no}");
}

/// Entries that no accepted description or specimen has: no panic.
#[test]
fn fits_takes_any_entries() {
    let odd: Vec<Entry> = vec![
        entry(5, 1, 1, 0),
        entry(5, 3, 1, 0),
        entry(5, 2, 1, 0),
        entry(9, 0, 0, 9),
        entry(7, 9, 1, 2),
        entry(7, 5, 1, 2),
    ];
    let record = specimen_record(&odd);
    for owner in [0, 1, 2, 3, 9, 65535] {
        for item in [0, 1, 99] {
            fits(&record, item, &odd, owner);
        }
    }
    let chain: Vec<Entry> = (0..60000).map(|owner| entry(5, owner, 1, 0)).collect();
    let mut looped = Record::of_items(1);
    looped.add_link(Link(1), 0, 0);
    assert!(fits(&looped, 0, &chain, 0));
}
