//! Properties that exclude each other: each clause.

use std::collections::BTreeMap;

use reference::record::{fits, specimen_record, Record};
use reference::{
    catalogue, compare, compare_with, encode, fit, fit_with, normal_form, normal_with, Comparison,
    Entry, Link, Property, Refusal,
};

use crate::chance::{all_records, description, specimen, Chance, Size};
use crate::comparing::{
    against_drawn_records, against_records, both_ways, every_tiny_description, fitting_records,
    large_by_fit,
};
use crate::normal::{check_normal, the_same_items_fit_under};
use crate::notation::{
    blocks, compared, compared_under, entries, entry, list, normal, normal_under, Answer, FILL,
};

/// Property 1 is clay, property 2 is sand.
const ONE_PAIR: [(u16, u16); 1] = [(1, 2)];
/// Property 2 excludes two others, which don't exclude each other.
const OVERLAP: [(u16, u16); 2] = [(1, 2), (3, 2)];
/// Of three properties an item has one at most.
const ROUND: [(u16, u16); 3] = [(1, 2), (2, 3), (3, 1)];

/// What can be told apart by records with properties 1 to 3.
const THREE: Size = Size {
    entries: 7,
    properties: 3,
    links_after: 0,
    links: 1,
    number: 2,
};

fn refusal(number: u8, input: u16, place: u32) -> Refusal {
    Refusal {
        number,
        input,
        place,
    }
}

/// The refusal by every call that takes a list, whatever its inputs and its
/// output are, with the output unchanged.
pub fn refused_before_the_inputs(pairs: &[u8], dict: &[u8], due: Refusal) {
    let mut out = vec![FILL; 1024];
    let wrong = vec![FILL; 700];
    for input in [&blocks("1,1"), &blocks("8"), &wrong, &vec![]] {
        for other in [&blocks("1,1"), &wrong] {
            assert_eq!(fit_with(pairs, dict, input, other), Err(due));
            for length in [0, 511, 1024] {
                let out = &mut out[..length];
                assert_eq!(normal_with(pairs, dict, input, out), Err(due));
                assert_eq!(compare_with(pairs, dict, input, other, out), Err(due));
                assert_eq!(catalogue(pairs, dict, input, other, out), Err(due));
            }
        }
    }
    assert!(out.iter().all(|&byte| byte == FILL));
}

/// A list that 11 doesn't refuse.
fn accepted(pairs: &[u8]) {
    assert_eq!(fit_with(pairs, &[], &blocks(""), &blocks("")), Ok(true));
    assert_eq!(normal_under(pairs, &blocks("")), Ok(vec![]));
}

/// The length, at place 0 (R11).
#[test]
fn number_11_length() {
    let long = list(&[(1, 2); 100]);
    for length in 0..=long.len() {
        if length % 4 == 0 && length <= 256 {
            accepted(&long[..length]);
        } else {
            refused_before_the_inputs(&long[..length], &[], refusal(11, 0, 0));
        }
    }
    // The length comes before the pairs.
    for length in [5, 63, 255, 257, 260] {
        refused_before_the_inputs(&vec![0; length], &[], refusal(11, 0, 0));
    }
}

/// Else the lowest wrong pair, at its place (R11).
#[test]
fn number_11_pairs() {
    let wrong = [(0, 1), (1, 0), (0, 0), (1, 1), (256, 256), (65_535, 65_535)];
    for (at, wrong) in (0..64).flat_map(|at| wrong.map(|pair| (at, pair))) {
        let mut pairs = [(1, 256); 64];
        pairs[at] = wrong;
        let due = refusal(11, 0, at as u32 + 1);
        refused_before_the_inputs(&list(&pairs), &[], due);
        refused_before_the_inputs(&list(&pairs[..=at]), &[], due);
        // The lowest decides.
        pairs[63] = (7, 7);
        refused_before_the_inputs(&list(&pairs), &[], due);
    }
    // Any two numbers from 1 up, also twice and in both orders.
    accepted(&list(&[(1, 65_535), (65_535, 1), (1, 65_535), (256, 1)]));
}

/// 11 comes before all else (R25), and only then a dictionary, before the
/// inputs.
#[test]
fn number_11_before_the_dictionary() {
    for (dict, due) in [
        (vec![0], refusal(1, 100, 0)),
        (vec![FILL; 700], refusal(1, 100, 0)),
        (blocks("8"), refusal(4, 101, 1)),
    ] {
        refused_before_the_inputs(&[], &dict, due);
        refused_before_the_inputs(&list(&ONE_PAIR), &dict, due);
        refused_before_the_inputs(&[1, 0, 1, 0], &dict, refusal(11, 0, 1));
        refused_before_the_inputs(&[1], &dict, refusal(11, 0, 0));
    }
}

/// The answer on a specimen under a list: 12 at this entry, or none.
fn twelve(pairs: &[u8], specimen: &[Entry], place: Option<usize>) {
    let bytes = encode(specimen);
    let fit = |description: &[u8]| fit_with(pairs, &[], &bytes, description);
    match place {
        Some(place) => {
            let due = Err(refusal(12, 1, place as u32));
            assert_eq!(fit(&blocks("")), due, "{specimen:?}");
            // Input 1 comes in full before input 2.
            assert_eq!(fit(&blocks("8")), due);
            assert_eq!(fit(&[]), due);
        }
        None => {
            assert_eq!(fit(&blocks("")), Ok(true), "{specimen:?}");
            assert_eq!(fit(&[]), Err(refusal(1, 2, 0)));
        }
    }
}

/// An item has both properties of a pair; the place is the lowest entry that
/// completes one (R12).
#[test]
fn number_12() {
    for (text, place) in [
        ("1,1; 1,2", 2),
        ("1,2; 1,1", 2),
        ("1,1; 1,1; 1,9; 1,2; 1,2; 1,1", 4),
        ("7,1; 1,1; 7,2; 1,2", 4),
        ("7,1,65535 [1,1; 1,2]", 3),
        ("1,1; 7,1 [1,2; 7,1 [1,1; 1,5; 1,2]; 1,1]; 1,2", 7),
        ("1,2; 1,3; 1,1", 2),
    ] {
        twelve(&list(&OVERLAP), &entries(text), Some(place));
    }
    for text in [
        "",
        "1,1; 1,1; 1,4",
        "1,1; 1,3",
        // Another item: an owner, a group of the same link, one below.
        "1,1; 7,1 [1,2]",
        "7,1 [1,1]; 7,1 [1,2]",
        "7,1 [1,1; 7,1 [1,2; 7,1 [1,3]]]",
        // A link is no property.
        "1,1; 7,2",
        "7,1; 7,2",
    ] {
        twelve(&list(&OVERLAP), &entries(text), None);
    }
    twelve(&[], &entries("1,1; 1,2"), None);
    twelve(&list(&[(3, 2)]), &entries("1,1; 1,2"), None);
    // Entries of one owner that do not stand together.
    let apart = [
        entry(7, 0, 1, 0),
        entry(7, 0, 1, 0),
        entry(1, 1, 65_535, 0),
        entry(1, 2, 256, 0),
        entry(1, 1, 256, 0),
    ];
    let far = list(&[(256, 65_535)]);
    twelve(&far, &apart[..4], None);
    twelve(&far, &apart, Some(5));
    // The pair with entry 1 is completed by the very last.
    let mut full = vec![entry(1, 0, 9, 0); 2016];
    full[0] = entry(1, 0, 1, 0);
    full[2015] = entry(1, 0, 2, 0);
    twelve(&list(&ONE_PAIR), &full, Some(2016));
    twelve(&list(&ONE_PAIR), &full[..2015], None);
}

/// After the specimen's other checks (S13).
#[test]
fn number_12_is_last_in_its_input() {
    let both = entries("1,1; 1,2");
    let refused = |bytes: &[u8], number: u8, place: u32| {
        for description in [&blocks(""), &blocks("8"), &vec![]] {
            let due = Err(refusal(number, 1, place));
            assert_eq!(fit_with(&list(&ONE_PAIR), &[], bytes, description), due);
        }
    };
    for (later, number) in [
        (entry(2, 0, 1, 0), 4),
        (entry(1, 9, 1, 0), 5),
        (entry(7, 0, 32_768, 1), 9),
    ] {
        refused(&encode(&[&both[..], &[later]].concat()), number, 3);
    }
    let mut chain: Vec<Entry> = (0..33).map(|owner| entry(7, owner, 1, 0)).collect();
    chain.extend(&both);
    refused(&encode(&chain), 12, 35);
    chain.push(entry(1, 33, 1, 0));
    refused(&encode(&chain), 6, 36);
    let mut bytes = encode(&[&both[..], &[entry(1, 0, 9, 0); 100]].concat());
    refused(&bytes, 12, 2);
    bytes[1000] ^= 1;
    refused(&bytes, 2, 2);
}

/// The specimen's record, item by item, keeps the list exactly if the specimen
/// is not refused as 12, and the place is the first entry that breaks it.
#[test]
fn number_12_is_what_the_record_says() {
    let size = Size {
        entries: 12,
        properties: 5,
        links: 2,
        ..THREE
    };
    let mut chance = Chance::from(121);
    let (mut kept, mut broken) = (0, 0);
    for _ in 0..3000 {
        let pairs: Vec<u8> = [[1, 2], [2, 4], [3, 5], [1, 5]]
            .iter()
            .filter(|_| chance.once_in(2))
            .flat_map(|pair| list(&[(pair[0], pair[1])]))
            .collect();
        let specimen = specimen(&mut chance, size);
        let breaks = |count: &usize| !specimen_record(&specimen[..*count]).keeps_the_list(&pairs);
        let place = (1..=specimen.len()).find(breaks);
        twelve(&pairs, &specimen, place);
        kept += usize::from(place.is_none());
        broken += usize::from(place.is_some());
    }
    assert!(kept > 500 && broken > 500, "{kept} {broken}");
}

/// A list alters nothing in what fits.
#[test]
fn fitting_is_as_it_was() {
    for (specimen, description) in [
        ("1,1", "2,2"),
        ("1,1", "2,1"),
        ("1,1", "1,2"),
        ("", "2,1; 2,2"),
        ("", "1,1; 1,2"),
        ("7,1 [1,1]; 7,1 [1,2]", "5,1 [2,1]"),
        ("7,1 [1,3; 1,1]", "5,1 [2,2; 1,1]"),
    ] {
        let (s, d) = (blocks(specimen), blocks(description));
        let answer = fit_with(&list(&OVERLAP), &[], &s, &d);
        assert_eq!(answer, fit(&s, &d), "{specimen} / {description}");
        let record = specimen_record(&entries(specimen));
        assert_eq!(answer, Ok(fits(&record, 0, &entries(description), 0)));
    }
}

/// Both properties of a pair are impossible, and the lack that one implies
/// goes (S9) (S10).
#[test]
fn normal_forms() {
    for (before, after) in [
        ("1,1", "1,1"),
        ("2,1; 2,2", "2,1; 2,2"),
        ("1,1; 1,3", "1,1; 1,3"),
        ("1,1; 1,2", "6"),
        ("1,2; 1,9; 1,3", "6"),
        ("1,1; 2,2", "1,1"),
        ("2,2; 1,3; 2,2; 1,1", "1,1; 1,3"),
        ("1,2; 2,1; 2,3; 2,4", "1,2; 2,4"),
        ("1,1; 2,3", "1,1; 2,3"),
        ("1,1; 2,1", "6"),
        ("1,1; 1,2; 2,2", "6"),
        ("2,1; 1,2", "1,2"),
        // From the merged place.
        ("5,1 [1,1]; 5,1 [2,2]", "5,1 [1,1]"),
        ("5,1 [1,1]; 5,1 [1,2]", "4,1,0"),
        ("5,1 [5,2 [2,2]]; 5,1 [5,2 [1,3]]", "5,1 [5,2 [1,3]]"),
        // Not from another place.
        ("1,1; 5,1 [2,2]", "1,1; 5,1 [2,2]"),
        ("2,2; 5,1 [1,1]", "2,2; 5,1 [1,1]"),
        ("5,1 [1,1; 5,1 [1,2]]", "5,1 [1,1; 5,1 [1,2]]"),
        // As in rules 2 to 5: the link is shut, and that may go on.
        ("5,1 [1,1; 1,2; 5,2 [1,9]]; 1,9", "1,9; 4,1,0"),
        ("3,1,1; 5,1 [1,1; 1,2]", "6"),
        (
            "5,3 [3,1,1; 5,1 [1,2]; 5,1 [1,3]]; 5,2 [1,1]",
            "4,3,0; 5,2 [1,1]",
        ),
        ("5,32768 [1,1; 1,2]; 3,32768,1", "6"),
        ("4,1,0; 5,1 [1,1; 2,2]", "4,1,0"),
        // Links are no properties.
        ("3,1,1; 3,2,1; 1,1", "1,1; 3,1,1; 3,2,1"),
    ] {
        let found = normal_under(&list(&OVERLAP), &blocks(before)).unwrap();
        assert_eq!(found, entries(after), "{before}");
        check_normal(&list(&OVERLAP), &found);
    }
    assert_eq!(normal(&blocks("1,1; 2,2")), Ok(entries("1,1; 2,2")));
    let other = list(&[(1, 4)]);
    let text = "1,1; 1,2; 2,3";
    assert_eq!(normal_under(&other, &blocks(text)), Ok(entries(text)));
}

fn contained(pairs: &[(u16, u16)], c: &str, d: &str) {
    let found = compared_under(&list(pairs), &blocks(c), &blocks(d));
    assert_eq!(found, Answer::Contained, "{c} / {d}");
}

fn not_contained(pairs: &[(u16, u16)], c: &str, d: &str, entry: usize, specimen: &str) {
    let found = compared_under(&list(pairs), &blocks(c), &blocks(d));
    let specimen = entries(specimen);
    assert_eq!(found, Answer::Not { entry, specimen }, "{c} / {d}");
}

/// An implied lack is supported (S10).
#[test]
fn an_implied_lack_supports() {
    contained(&OVERLAP, "1,1", "2,2");
    contained(&OVERLAP, "1,2", "2,1; 2,3");
    contained(&OVERLAP, "1,1; 2,2", "2,2");
    contained(&OVERLAP, "2,2", "2,2");
    contained(&OVERLAP, "5,1 [1,1]", "5,1 [2,2]");
    contained(&OVERLAP, "5,1 [2,2]; 5,1 [1,3]", "5,1 [2,2]; 5,1 [1,3]");
    contained(&OVERLAP, "4,1,0", "5,1 [2,2]");
    contained(&OVERLAP, "3,1,2; 5,1 [1,1]", "5,1 [2,2; 1,1]; 3,1,1");
    not_contained(&OVERLAP, "1,1", "2,2; 2,3", 2, "1,1; 1,3");
    not_contained(&OVERLAP, "1,1", "2,1", 1, "1,1");
    not_contained(&OVERLAP, "2,2", "1,1", 1, "");
    not_contained(&OVERLAP, "2,1", "2,2", 1, "1,2");
    not_contained(&OVERLAP, "", "2,2; 2,1", 1, "1,2");
    // Not at another place, nor for a link of that number.
    not_contained(&OVERLAP, "1,1", "5,1 [2,2]", 2, "1,1; 7,1 [1,2]");
    not_contained(&OVERLAP, "5,1 [1,1]", "2,2", 1, "1,2");
    not_contained(&OVERLAP, "5,1 [1,1]", "5,2 [2,2]", 2, "7,2 [1,2]");
    not_contained(&OVERLAP, "1,1", "4,2,0", 1, "1,1; 7,2");
    not_contained(&[], "1,1", "2,2", 1, "1,1; 1,2");
    not_contained(&[(1, 3)], "1,1", "2,2", 1, "1,1; 1,2");
}

#[test]
fn an_impossible_place_in_a_comparison() {
    for d in ["", "6", "1,9", "2,1", "3,1,5", "4,1,0", "5,1 [6]"] {
        contained(&OVERLAP, "1,1; 1,2", d);
    }
    contained(&OVERLAP, "1,1; 1,2", "1,2; 1,3");
    contained(&OVERLAP, "5,1 [1,1; 1,2]", "4,1,0");
    contained(&OVERLAP, "4,1,0", "5,1 [1,1; 1,2]");
    contained(&OVERLAP, "5,1 [5,2 [1,3; 1,2]; 3,2,1]", "5,1 [6]");
    not_contained(&OVERLAP, "5,1 [1,1]", "5,1 [1,1; 1,2]", 3, "7,1 [1,1]");
    not_contained(&OVERLAP, "1,1", "1,1; 1,2", 2, "1,1");
    not_contained(&OVERLAP, "", "1,1; 1,2", 1, "");
}

/// All these records that keep the list and the rule on links that never lead
/// to two items.
fn every_record(pairs: &[u8], items: usize, properties: usize, links: &[u16]) -> Vec<Record> {
    let links: Vec<Link> = links.iter().copied().map(Link).collect();
    let mut records = all_records(items, properties, &links);
    records.retain(|record| record.keeps_the_list(pairs));
    records
}

/// An item has 6 of the 8 sets of three properties under one pair, 5 under
/// two, 4 under three.
#[test]
fn all_records_that_keep_the_list_are_tried() {
    for (pairs, sets) in [(&[][..], 8), (&ONE_PAIR, 6), (&OVERLAP, 5), (&ROUND, 4)] {
        let records = every_record(&list(pairs), 2, 3, &[32_768]);
        assert_eq!(records.len(), sets * sets * 9);
    }
    let mut record = Record::of_items(2);
    record.add_property(Property(1), 0);
    record.add_property(Property(2), 1);
    assert!(record.keeps_the_list(&list(&ROUND)));
    record.add_property(Property(3), 1);
    assert!(!record.keeps_the_list(&list(&ROUND)));
    assert!(record.keeps_the_list(&list(&ONE_PAIR)));
}

/// Answers are about the records that keep the list (S12): all descriptions
/// of up to two entries against all records of up to two items.
#[test]
fn all_tiny_descriptions() {
    for pairs in [&ONE_PAIR[..], &OVERLAP, &ROUND] {
        let pairs = list(pairs);
        let mut records = every_record(&pairs, 2, 3, &[1]);
        records.extend(every_record(&pairs, 1, 3, &[1]));
        let descriptions = every_tiny_description(1, 3);
        let (contained, not) = against_records(&pairs, &records, &descriptions);
        assert!(contained > 1000 && not > 1000, "{contained} {not}");
    }
}

/// Drawn descriptions against all records of two items, three properties and
/// two links of both sorts, and of three items, two properties and one link.
#[test]
fn drawn_tiny_descriptions() {
    let mut chance = Chance::from(71);
    let two_items = Size {
        links_after: 32_766,
        links: 2,
        ..THREE
    };
    let three_items = Size {
        properties: 2,
        ..THREE
    };
    for (pairs, size, items, links) in [
        (&OVERLAP[..], two_items, 2, &[32_767, 32_768][..]),
        (&ROUND, two_items, 2, &[32_767, 32_768]),
        (&ONE_PAIR, three_items, 3, &[1]),
    ] {
        let pairs = list(pairs);
        let records = every_record(&pairs, items, size.properties, links);
        let descriptions: Vec<_> = (0..60).map(|_| description(&mut chance, size)).collect();
        let (contained, not) = against_records(&pairs, &records, &descriptions);
        assert!(contained > 300 && not > 300, "{contained} {not}");
    }
}

/// All descriptions of up to this many entries that follow these: has, lacks
/// and every, with three properties and link 1.
fn every_description(before: &[Entry], more: usize) -> Vec<Vec<Entry>> {
    let mut all = vec![before.to_vec()];
    if more == 0 {
        return all;
    }
    let owners = (1..).zip(before).filter(|(_, e)| e.kind == 5);
    let owners: Vec<u16> = owners.map(|(number, _)| number).chain([0]).collect();
    for &owner in &owners {
        let has = (1..=3).map(|property| entry(1, owner, property, 0));
        let lacks = (1..=3).map(|property| entry(2, owner, property, 0));
        for next in has.chain(lacks).chain([entry(5, owner, 1, 0)]) {
            all.extend(every_description(&[before, &[next]].concat(), more - 1));
        }
    }
    all
}

/// Under each list: a description and its normal form fit the same items of
/// all records of two items, and two normal forms that differ do not.
#[test]
fn normal_forms_are_equal_where_the_same_items_fit() {
    for pairs in [&[][..], &ONE_PAIR, &OVERLAP, &ROUND] {
        let pairs = list(pairs);
        let records = every_record(&pairs, 2, 3, &[1]);
        let mut forms: BTreeMap<Vec<u64>, Vec<Entry>> = BTreeMap::new();
        for description in every_description(&[], 3) {
            let found = normal_under(&pairs, &encode(&description)).unwrap();
            check_normal(&pairs, &found);
            let fitting = fitting_records(&records, &description);
            assert_eq!(
                fitting_records(&records, &found),
                fitting,
                "{description:?}"
            );
            let first = forms.entry(fitting).or_insert_with(|| found.clone());
            assert_eq!(*first, found, "{description:?}");
        }
        assert!(forms.len() > 50, "{}", forms.len());
    }
}

#[test]
fn drawn_descriptions_under_lists() {
    let both_sorts = Size {
        links_after: 32_766,
        links: 2,
        ..THREE
    };
    against_drawn_records(&list(&OVERLAP), both_sorts);
    for pairs in [&OVERLAP[..], &ROUND] {
        the_same_items_fit_under(&list(pairs), THREE);
        both_ways(&list(pairs), THREE);
    }
}

#[test]
fn large_descriptions_by_fit() {
    let size = Size {
        entries: 120,
        properties: 40,
        links_after: 0,
        links: 3,
        number: 5,
    };
    large_by_fit(&list(&[(1, 2), (3, 9), (20, 30), (5, 20), (20, 31)]), size);
}

/// Which of a pair comes first, the order of the pairs and pairs given twice
/// make no odds; nor do pairs of properties that nobody names.
#[test]
fn a_list_is_a_set_of_unordered_pairs() {
    let mut chance = Chance::from(72);
    let first = list(&[(1, 2), (2, 3)]);
    let swapped = list(&[(2, 1), (3, 2)]);
    let others = list(&[(4, 5), (3, 2), (2, 3), (1, 4), (1, 2), (1, 2), (9, 2)]);
    let far = list(&[(1, 4), (7, 8), (65_535, 3)]);
    for _ in 0..600 {
        let [c, d] = [(); 2].map(|()| encode(&description(&mut chance, THREE)));
        for other in [&swapped, &others] {
            assert_eq!(normal_under(other, &c), normal_under(&first, &c));
            assert_eq!(
                compared_under(other, &c, &d),
                compared_under(&first, &c, &d)
            );
        }
        assert_eq!(normal_under(&far, &c), normal(&c));
        assert_eq!(compared_under(&far, &c, &d), compared(&c, &d));
    }
}

/// 64 pairs that all count, and full descriptions.
#[test]
fn the_largest_lists_and_descriptions() {
    let star: Vec<(u16, u16)> = (1..=64).map(|other| (1000, other)).collect();
    let pairs = list(&star);
    let mut full: Vec<Entry> = (1..=1007)
        .map(|property| entry(2, 0, property, 0))
        .collect();
    full.remove(999);
    full.push(entry(1, 0, 1000, 0));
    let found = normal_under(&pairs, &encode(&full)).unwrap();
    assert_eq!(found.len(), 1007 - 64);
    assert_eq!(found[0], entry(1, 0, 1000, 0));
    assert!(found[1..].iter().all(|e| e.kind == 2 && e.name > 64));
    check_normal(&pairs, &found);
    // Each of the 64 lacks holds, and the next is the first that doesn't.
    let c = encode(&[entry(1, 0, 1000, 0)]);
    let due = Answer::Not {
        entry: 65,
        specimen: entries("1,65; 1,1000"),
    };
    assert_eq!(compared_under(&pairs, &c, &encode(&full)), due);
    let had: Vec<Entry> = (1..=1008)
        .map(|property| entry(1, 0, property, 0))
        .collect();
    assert_eq!(normal_under(&pairs, &encode(&had)), Ok(entries("6")));
    let had: Vec<Entry> = (1..=999).map(|property| entry(1, 0, property, 0)).collect();
    assert_eq!(normal_under(&pairs, &encode(&had)), Ok(had));
}

/// The output is measured as it was.
#[test]
fn number_7_under_a_list() {
    let pairs = list(&ONE_PAIR);
    let seven = refusal(7, 0, 0);
    let two = encode(&[vec![entry(2, 0, 2, 0); 63], entries("1,1")].concat());
    let one = blocks("2,2");
    let mut out = vec![FILL; 1536];
    assert_eq!(normal_with(&pairs, &[], &two, &mut out[..1023]), Err(seven));
    let short = compare_with(&pairs, &[], &two, &one, &mut out[..1535]);
    assert_eq!(short, Err(seven));
    let long = compare_with(&pairs, &[], &two, &one, &mut out);
    assert_eq!(long, Ok(Comparison::Contained));
    assert!(out.iter().all(|&byte| byte == FILL));
    assert_eq!(normal_with(&pairs, &[], &two, &mut out[..1024]), Ok(1));
    assert_eq!(out[..512], blocks("1,1"));
    assert!(out[512..].iter().all(|&byte| byte == FILL));
}

/// The calls without a list are those with an empty one.
#[test]
fn an_empty_list_is_no_list() {
    let (s, c, d) = (blocks("1,1; 1,2"), blocks("1,1; 2,2"), blocks("2,2; 1,3"));
    assert_eq!(fit_with(&[], &[], &s, &d), fit(&s, &d));
    let (mut one, mut other) = (vec![FILL; 1024], vec![FILL; 1024]);
    assert_eq!(
        normal_with(&[], &[], &c, &mut one),
        normal_form(&c, &mut other)
    );
    assert_eq!(one, other);
    assert_eq!(
        compare_with(&[], &[], &c, &d, &mut one),
        compare(&c, &d, &mut other)
    );
    assert_eq!(one, other);
}
