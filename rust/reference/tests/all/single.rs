//! Links that lead to one item only: each clause.
//!
//! Links from 32,768 up are single (S1). 32,767 is the last that may lead to
//! several items.

use reference::record::{fits, specimen_record, Record};
use reference::{
    encode, fit, normal_form, read_description, read_specimen, run_program, Entry, Link, Refusal,
};

use crate::chance::{all_records, specimen, Chance, Size};
use crate::notation::{blocks, compared_texts, entries, entry, normal, Answer, FILL};

fn contained(c: &str, d: &str) {
    assert_eq!(compared_texts(c, d), Answer::Contained, "{c} / {d}");
}

/// 'not contained', this entry, with the specimen written in this text, which
/// is accepted and shows it.
fn not_contained(c: &str, d: &str, entry: usize, specimen: &str) {
    let specimen = entries(specimen);
    let bytes = encode(&specimen);
    assert_eq!(read_specimen(&bytes), Ok(specimen.len()), "{c} / {d}");
    assert_eq!(fit(&bytes, &blocks(c)), Ok(true), "{c} / {d}");
    assert_eq!(fit(&bytes, &blocks(d)), Ok(false), "{c} / {d}");
    assert!(specimen_record(&specimen).keeps_the_rule());
    let due = Answer::Not { entry, specimen };
    assert_eq!(compared_texts(c, d), due, "{c} / {d}");
}

fn normal_text(description: &str) -> Vec<Entry> {
    normal(&blocks(description)).unwrap()
}

/// Which links these are.
#[test]
fn from_32768_up() {
    for link in [1, 2, 255, 256, 16_384, 32_766, 32_767] {
        assert!(!Link(link).is_single(), "{link}");
    }
    for link in [32_768, 32_769, 40_000, 65_534, 65_535] {
        assert!(Link(link).is_single(), "{link}");
    }
}

/// Lead to one item at most (S1): from one item. Several items may lead to
/// the same one, and to themselves, and properties have nothing to do with
/// it.
#[test]
fn which_records_keep_the_rule() {
    let mut record = Record::of_items(4);
    for item in 0..4 {
        record.add_link(Link(32_768), item, 2);
        record.add_link(Link(65_535), item, (item + 1) % 4);
        record.add_link(Link(32_767), 0, item);
    }
    assert!(record.keeps_the_rule());
    let mut two = record.clone();
    two.add_link(Link(32_768), 3, 0);
    assert!(!two.keeps_the_rule());
    let mut two = record.clone();
    two.add_link(Link(65_535), 0, 3);
    assert!(!two.keeps_the_rule());
    assert!(Record::of_items(0).keeps_the_rule());
}

/// Of the 16 ways to link two items, 9 keep the rule.
#[test]
fn all_records_that_keep_the_rule_are_tried() {
    assert_eq!(all_records(2, 0, &[Link(32_767)]).len(), 16);
    assert_eq!(all_records(2, 0, &[Link(32_768)]).len(), 9);
    assert_eq!(all_records(2, 0, &[Link(1), Link(32_768)]).len(), 16 * 9);
    assert_eq!(all_records(3, 1, &[Link(65_535)]).len(), 8 * 64);
}

/// At least 2 of a single link (S2): rules 2, 3 and 5 go on from there, and
/// the gained at most 0 of the owner's link too.
#[test]
fn at_least_2_is_impossible() {
    for (before, after) in [
        ("3,32768,1", "3,32768,1"),
        ("3,32768,2", "6"),
        ("3,32768,65535", "6"),
        ("3,65535,2", "6"),
        ("3,32767,2", "3,32767,2"),
        ("3,32768,1; 3,32768,2", "6"),
        ("1,7; 3,40000,2; 5,1 [1,1]", "6"),
        // The reader does not refuse it, also with an at most.
        ("3,32768,2; 4,32768,5", "6"),
        ("3,32768,2; 4,32768,1", "6"),
        ("3,32768,1; 4,32768,1", "3,32768,1"),
        ("3,32768,1; 4,32768,0", "6"),
        // Rule 3 below a link, single or not.
        ("5,1 [3,32768,2]", "4,1,0"),
        ("5,32768 [3,32768,2]", "4,32768,0"),
        ("5,32768 [3,1,2; 4,1,1]", "4,32768,0"),
        ("5,1 [3,32768,2; 1,7; 5,2 [1,7]]; 1,8", "1,8; 4,1,0"),
        ("5,1 [3,32768,1]; 5,1 [3,32768,2]", "4,1,0"),
        // The gained at most 0 meets an at least, and so on to the top.
        ("3,1,1; 5,1 [3,32768,2]", "6"),
        ("3,32768,1; 5,32768 [3,32769,2]", "6"),
        ("3,32768,1; 5,32768 [6]", "6"),
        ("5,1 [3,32768,1; 5,32768 [3,2,1; 5,2 [3,65535,2]]]", "4,1,0"),
        ("5,1 [5,32768 [3,2,1; 5,2 [3,65535,2]]]", "5,1 [4,32768,0]"),
        // The gained at most 0 removes the other 'every' of its link.
        ("5,32768 [3,32768,2]; 5,32768 [1,7]", "4,32768,0"),
        // At least 0 goes as ever.
        ("3,32768,0", ""),
        ("3,32768,0; 4,32768,0", "4,32768,0"),
    ] {
        assert_eq!(read_description(&blocks(before)), Ok(entries(before).len()));
        assert_eq!(normal_text(before), entries(after), "{before}");
    }
}

/// At most 1 or more of a single link goes (S3) (N12), and then its 'every'
/// may own nothing.
#[test]
fn at_most_1_or_more_is_dropped() {
    for (before, after) in [
        ("4,32768,1", ""),
        ("4,65535,65535", ""),
        ("4,32768,0", "4,32768,0"),
        ("4,32767,1", "4,32767,1"),
        // After the smallest is taken.
        ("4,32768,1; 4,32768,0", "4,32768,0"),
        ("4,32768,7; 4,32768,3", ""),
        ("4,32768,1; 4,32768,1", ""),
        ("4,32768,3; 3,32768,1", "3,32768,1"),
        // Rule 9, once and again and again.
        ("5,1 [4,32768,1]", ""),
        ("5,32768 [4,32768,1]", ""),
        ("5,1 [5,2 [5,3 [4,40000,9]]]", ""),
        ("5,1 [4,32768,1]; 5,1 [1,7]", "5,1 [1,7]"),
        ("5,1 [5,2 [4,32768,2]; 4,32767,2]", "5,1 [4,32767,2]"),
        // Rule 4 is about at most 0 alone.
        ("4,32768,1; 5,32768 [1,7]", "5,32768 [1,7]"),
        ("4,32768,0; 5,32768 [1,7]", "4,32768,0"),
        ("4,32768,1; 4,32768,0; 5,32768 [1,7]", "4,32768,0"),
        ("4,32768,3; 5,32768 [6]", "4,32768,0"),
    ] {
        assert_eq!(normal_text(before), entries(after), "{before}");
    }
}

/// Twice is once, and blocks of such entries alone become the empty block.
#[test]
fn a_full_description_of_entries_that_are_dropped() {
    let full: Vec<Entry> = (0..1008).map(|n| entry(4, 0, 32_768 + n, 1 + n)).collect();
    assert_eq!(normal(&encode(&full)).unwrap(), []);
    let mut kept = full.clone();
    kept[1000] = entry(4, 0, 32_767, 1);
    assert_eq!(normal(&encode(&kept)).unwrap(), entries("4,32767,1"));
}

/// It holds in every comparison (S3), also where N has no place W.
#[test]
fn at_most_1_or_more_holds() {
    for c in ["", "1,7", "6", "3,32768,1", "4,32768,0", "5,1 [1,7]"] {
        for d in [
            "4,32768,1",
            "4,65535,65535",
            "4,32768,1; 4,40000,2",
            "5,1 [4,32768,1]",
            "5,32768 [5,32768 [4,32768,1]]",
            "5,9 [5,8 [5,7 [4,32769,3]]]",
        ] {
            contained(c, d);
        }
    }
    contained("4,32768,3", "");
    contained("4,32768,3", "4,32768,1");
    not_contained("", "4,32768,0", 1, "7,32768");
    not_contained("4,32768,1", "4,32768,0", 1, "7,32768");
    not_contained("3,32768,1", "4,32768,0", 1, "7,32768");
    contained("4,32768,0", "4,32768,0; 4,32768,9");
    not_contained("", "4,32767,1", 1, "7,32767,1");
    not_contained("4,32768,1", "4,32768,1; 4,32767,65535", 2, "7,32767,65535");
}

/// An impossible place shuts its link, as by rule 3.
#[test]
fn at_least_2_in_a_comparison() {
    for d in ["", "6", "1,1; 2,1", "3,32768,9", "4,32768,0", "5,1 [6]"] {
        contained("3,32768,2", d);
    }
    contained("5,1 [3,32768,2]", "4,1,0");
    contained("4,1,0", "5,1 [3,32768,2]");
    contained("3,32768,5", "3,65535,2");
    contained("5,1 [3,32768,2]", "5,1 [6]; 5,1 [5,2 [6]]");
    not_contained("3,32768,1", "3,32768,2", 1, "7,32768");
    not_contained("", "3,32768,2", 1, "");
    not_contained("", "5,1 [3,32768,2]", 2, "7,1");
    contained("3,32767,2", "3,32767,2");
}

/// At least 1 and at most 0 of such a link say something and stay.
#[test]
fn what_says_something_stays() {
    for text in [
        "3,32768,1",
        "4,32768,0",
        "5,32768 [1,7]",
        "3,32768,1; 5,32768 [1,7]",
        "5,32768 [3,32768,1]",
        "5,32768 [4,32768,0]",
    ] {
        assert_eq!(normal_text(text), entries(text));
        contained(text, text);
    }
    not_contained("", "3,32768,1", 1, "");
    not_contained("", "5,32768 [1,7]", 2, "7,32768");
    not_contained("3,32768,1", "5,32768 [1,7]", 2, "7,32768");
    not_contained(
        "3,32768,1; 5,32768 [3,32768,1]",
        "5,32768 [4,32768,0]",
        2,
        "7,32768 [7,32768]",
    );
    // The way goes by such a link, and N has one item of it already.
    not_contained(
        "3,32768,1; 5,32768 [3,2,4; 1,7]",
        "5,32768 [2,8]",
        2,
        "7,32768 [1,7; 1,8; 7,2,3]",
    );
    not_contained(
        "5,32768 [3,65535,1]",
        "5,32768 [5,65535 [4,65535,0]]",
        3,
        "7,32768 [7,65535 [7,65535]]",
    );
}

/// The refusal of a specimen by both calls that take one; 'nothing' if it is
/// accepted.
fn nine(entries: &[Entry], place: Option<u32>) {
    let bytes = encode(entries);
    let (number, input) = (9, 1);
    match place {
        Some(place) => {
            let refusal = Refusal {
                number,
                input,
                place,
            };
            assert_eq!(read_specimen(&bytes), Err(refusal), "{entries:?}");
            assert_eq!(fit(&bytes, &blocks("")), Err(refusal));
            // Input 1 comes in full before input 2.
            assert_eq!(fit(&bytes, &blocks("9")), Err(refusal));
            assert_eq!(fit(&bytes, &[]), Err(refusal));
        }
        None => {
            assert_eq!(read_specimen(&bytes), Ok(entries.len()), "{entries:?}");
            assert_eq!(fit(&bytes, &blocks("")), Ok(true));
        }
    }
}

fn nine_text(text: &str, place: u32) {
    nine(&entries(text), Some(place));
}

fn accepted_text(text: &str) {
    nine(&entries(text), None);
}

/// A group that brings its owner a second item by a single link (R9).
#[test]
fn number_9() {
    // One group of two items or more is one at once.
    nine_text("7,32768,1", 1);
    nine_text("7,65535,65535", 1);
    nine_text("1,7; 7,40000,1", 2);
    // Two groups of one owner and link, next to each other or not.
    nine_text("7,32768; 7,32768", 2);
    nine_text("7,32768; 1,7; 7,1,9; 7,32769; 7,32768", 5);
    nine_text("7,32768 [1,7]; 7,32768 [1,8]", 3);
    nine_text("7,1,3 [7,32768; 7,32768]", 3);
    nine_text("7,32768 [7,32768 [7,32768]; 7,32768]", 4);
    // Several after the first: the lowest decides.
    nine_text("7,32768; 7,32768; 7,32768,5; 7,1,5", 2);
    nine_text("7,32768; 7,32769,1; 7,32768", 2);
    // None: another link, another owner, a link that may lead to several.
    accepted_text("7,32768");
    accepted_text("7,32768; 7,32769; 7,65535");
    accepted_text("7,32767,65535; 7,32767,65535");
    accepted_text("7,32768 [7,32768 [7,32768]]");
    accepted_text("7,1 [7,32768]; 7,1 [7,32768]");
    accepted_text("1,32768; 1,32768; 1,65535");
    // A sum and no product: each of four items is linked to the same one.
    accepted_text("7,1,3 [7,32768]");
    accepted_text("7,1,65535 [7,32768 [7,2,9 [7,32768]]]");
    // Entries of one owner that do not stand together.
    let apart = [
        entry(7, 0, 1, 0),
        entry(7, 0, 2, 0),
        entry(7, 1, 32_768, 0),
        entry(7, 2, 32_768, 0),
        entry(7, 1, 32_768, 0),
    ];
    nine(&apart[..4], None);
    nine(&apart, Some(5));
}

/// A description may have what a specimen may not.
#[test]
fn no_description_is_refused_as_9() {
    for text in [
        "3,32768,2",
        "5,32768 [1,7]; 5,32768 [1,8]",
        "4,65535,65535; 3,65535,65535",
    ] {
        assert_eq!(read_description(&blocks(text)), Ok(entries(text).len()));
    }
    // A group is no entry of a description, whatever its link.
    let four = Refusal {
        number: 4,
        input: 1,
        place: 1,
    };
    assert_eq!(read_description(&blocks("7,32768,1")), Err(four));
}

/// After 6 at its entry (R24); the lowest entry decides.
#[test]
fn number_9_after_4_5_and_6() {
    let refused = |entries: &[Entry], number: u8, place: u32| {
        let input = 1;
        let refusal = Refusal {
            number,
            input,
            place,
        };
        assert_eq!(read_specimen(&encode(entries)), Err(refusal));
        assert_eq!(fit(&encode(entries), &blocks("")), Err(refusal));
    };
    // At one entry: a wrong zero byte, an owner that cannot own, depth 33.
    let wrong = Entry {
        zero: 1,
        ..entry(7, 0, 32_768, 1)
    };
    refused(&[wrong], 4, 1);
    refused(&[entry(7, 1, 32_768, 1)], 5, 1);
    refused(&[entry(1, 0, 7, 0), entry(7, 1, 32_768, 1)], 5, 2);
    let mut chain: Vec<Entry> = (0..33).map(|owner| entry(7, owner, 32_768, 0)).collect();
    nine(&chain, None);
    chain.push(entry(7, 33, 32_768, 1));
    refused(&chain, 6, 34);
    // At depth 32 it is 9.
    chain[33] = entry(7, 32, 32_768, 0);
    refused(&chain, 9, 34);
    // The lowest entry decides, whatever the number.
    let two = [entry(7, 0, 32_768, 0); 2];
    for later in [entry(9, 0, 1, 0), entry(1, 9, 1, 0), entry(7, 0, 65_535, 1)] {
        refused(&[&two[..], &[later]].concat(), 9, 2);
    }
    refused(&[&[entry(9, 0, 1, 0)], &two[..]].concat(), 4, 1);
    refused(&[&[entry(1, 1, 1, 0)], &two[..]].concat(), 5, 1);
    // A wrong block comes before any entry.
    let many: Vec<Entry> = [&two[..], &[entry(1, 0, 1, 0); 100]].concat();
    let mut bytes = encode(&many);
    refused(&many, 9, 2);
    bytes[1000] ^= 1;
    let two = Refusal {
        number: 2,
        input: 1,
        place: 2,
    };
    assert_eq!(read_specimen(&bytes), Err(two));
}

/// A tree of 2,016 groups by one such link: each owner has one item of it, so
/// there is one chain of them below each group by another link.
#[test]
fn number_9_at_the_limit() {
    let mut all = Vec::new();
    while all.len() + 33 <= 2016 {
        let first = all.len() as u16;
        all.push(entry(7, 0, 1, 0));
        all.extend((1..=32).map(|step| entry(7, first + step, 32_768, 0)));
    }
    all.resize(2015, entry(1, 0, 7, 0));
    let mut last = all.clone();
    last.push(entry(7, 0, 32_768, 0));
    nine(&last, None);
    last[2015] = entry(7, 1, 32_768, 0);
    nine(&last, Some(2016));
    last[2015] = entry(7, 0, 32_768, 1);
    nine(&last, Some(2016));
}

/// The specimen's record, item by item, keeps the rule exactly if the specimen
/// is not refused as 9, and the place is the first entry that breaks it.
#[test]
fn number_9_is_what_the_record_says() {
    let size = Size {
        entries: 9,
        properties: 2,
        links_after: 32_766,
        links: 2,
        number: 2,
    };
    let mut chance = Chance::from(91);
    let (mut kept, mut broken) = (0, 0);
    for _ in 0..3000 {
        let mut entries = specimen(&mut chance, size);
        for _ in 0..chance.below(9) {
            let Some(at) = entries.len().checked_sub(1) else {
                break;
            };
            let mut again = entries[chance.below(at + 1)];
            again.number = if again.kind == 7 && chance.once_in(3) {
                1
            } else {
                0
            };
            entries.push(again);
        }
        let breaks = |count: &usize| !specimen_record(&entries[..*count]).keeps_the_rule();
        let place = (1..=entries.len()).find(breaks);
        nine(&entries, place.map(|place| place as u32));
        kept += usize::from(place.is_none());
        broken += usize::from(place.is_some());
    }
    assert!(kept > 500 && broken > 500, "{kept} {broken}");
}

/// What fits is as without the rule (F14): at least 2 and at most 1 are
/// counted, not foreseen.
#[test]
fn fitting_is_as_it_was() {
    for (specimen, description, answer) in [
        ("", "3,32768,1", false),
        ("", "4,32768,0", true),
        ("7,32768", "3,32768,1; 4,32768,1", true),
        ("7,32768", "3,32768,2", false),
        ("7,32768", "4,32768,0", false),
        ("7,32768", "4,32768,65535", true),
        ("7,32768 [1,7]", "5,32768 [1,7]", true),
        ("7,32768", "5,32768 [1,7]", false),
        (
            "7,1,2 [7,32768 [1,7]]",
            "5,1 [3,32768,1; 5,32768 [1,7]]",
            true,
        ),
        ("7,1,2 [7,32768]", "5,1 [4,32768,0]", false),
    ] {
        let found = fit(&blocks(specimen), &blocks(description));
        assert_eq!(found, Ok(answer), "{specimen} / {description}");
        let record = specimen_record(&entries(specimen));
        assert_eq!(fits(&record, 0, &entries(description), 0), answer);
    }
}

/// The outputs of calls that such entries meet: the whole output or nothing.
#[test]
fn outputs_around_the_length() {
    let d = encode(&[entry(4, 0, 32_768, 1); 64]);
    let mut out = vec![FILL; 1025];
    let seven = Refusal {
        number: 7,
        input: 0,
        place: 0,
    };
    assert_eq!(normal_form(&d, &mut out[..1023]), Err(seven));
    assert!(out.iter().all(|&byte| byte == FILL));
    assert_eq!(normal_form(&d, &mut out), Ok(0));
    assert_eq!(out[..512], blocks(""));
    assert!(out[512..].iter().all(|&byte| byte == FILL));
}

#[test]
fn the_program() {
    let printed = |c: &str, d: &str| run_program(&[blocks(c), blocks(d)].concat());
    assert_eq!(printed("", "4,32768,1"), "contained\n");
    assert_eq!(printed("3,32768,2", "6"), "contained\n");
    let group = "not contained 1\ngroup 1 owner 0 link 65535 count 1\n";
    assert_eq!(printed("", "4,65535,0"), group);
}
