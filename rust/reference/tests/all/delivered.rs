//! Delivered records: items that are shared and links that go round.

use reference::record::{fits, Record};
use reference::{encode, fit_all, Entry, Link, Property, Refusal};

use crate::chance::{all_records, description, keeping, record, Chance, Size};
use crate::comparing::every_tiny_description;
use crate::naming::{drawn, drawn_dictionary, refusal};
use crate::notation::{blocks, entry, laid_end_to_end, list, unfolded, FILL};
use crate::refusals::with_checks;
use crate::wrong::{marked, needs, refused, wrong_descriptions};

/// An entry that gives the item a property.
fn has(item: u16, property: u16) -> Entry {
    entry(1, item, property, 0)
}

/// An entry that links an item to an item.
fn linked(from: u16, link: u16, to: u16) -> Entry {
    entry(8, from, link, to)
}

/// The entries of a record, whose items are counted from 0.
fn entries_of(record: &Record) -> Vec<Entry> {
    let number = |item: usize| item as u16 + 1;
    let mut entries = Vec::new();
    for (&Property(property), items) in &record.properties {
        entries.extend(items.iter().map(|&item| has(number(item), property)));
    }
    for (&Link(link), pairs) in &record.links {
        let each = pairs.iter();
        entries.extend(each.map(|&(from, to)| linked(number(from), link, number(to))));
    }
    entries
}

/// The call with a longer output than needed; the marks of the items.
fn fitting(pairs: &[u8], total: usize, record: &[Entry], d: &[Entry]) -> Vec<bool> {
    let (record, d) = (encode(record), encode(d));
    let call = |out: &mut [u8]| fit_all(pairs, &[], total, &record, &d, out);
    let (count, marks) = marked(300, total, call).unwrap();
    assert_eq!(count, total);
    marks
}

#[test]
fn by_hand() {
    // 1 to 2 and 3, both to 4, which is linked to itself and to 1.
    let record = [
        linked(1, 1, 2),
        linked(1, 1, 3),
        linked(2, 1, 4),
        linked(3, 1, 4),
        linked(4, 1, 4),
        linked(4, 1, 1),
        linked(1, 1, 2),
        has(4, 7),
        has(2, 1),
        has(4, 7),
    ];
    for (text, due) in [
        ("", [1, 1, 1, 1]),
        ("6", [0, 0, 0, 0]),
        ("1,7", [0, 0, 0, 1]),
        ("2,7", [1, 1, 1, 0]),
        ("3,1,2", [1, 0, 0, 1]),
        // A pair given twice counts once.
        ("4,1,2; 3,1,2", [1, 0, 0, 1]),
        ("3,1,3", [0, 0, 0, 0]),
        ("5,1 [1,7]", [0, 1, 1, 0]),
        ("5,1 [5,1 [1,7]]", [1, 0, 0, 0]),
        ("5,1 [2,7; 4,1,1]", [1, 0, 0, 0]),
        ("5,2 [6]; 4,2,0", [1, 1, 1, 1]),
        ("5,1 [6]", [0, 0, 0, 0]),
    ] {
        let found = fitting(&[], 4, &record, &reference::notation::entries(text));
        assert_eq!(found, due.map(|byte| byte == 1), "{text}");
    }
    // Items without an entry of their own.
    let d = reference::notation::entries("4,1,0; 2,1");
    assert_eq!(fitting(&[], 256, &[], &d), [true; 256]);
}

/// Each item of a record against the meaning, item by item.
fn check(pairs: &[u8], record: &Record, d: &[Entry]) -> usize {
    let found = fitting(pairs, record.items, &entries_of(record), d);
    let due: Vec<bool> = (0..record.items)
        .map(|item| fits(record, item, d, 0))
        .collect();
    assert_eq!(found, due, "{record:?} {d:?}");
    due.into_iter().filter(|&fits| fits).count()
}

/// All records of up to two items, and of three items those with one property.
#[test]
fn all_small_records() {
    for link in [1, 32_768] {
        let all = every_tiny_description(link, 2);
        let mut records = all_records(1, 2, &[Link(link)]);
        records.extend(all_records(2, 2, &[Link(link)]));
        for record in &records {
            for d in &all {
                check(&[], record, d);
            }
        }
        let few: Vec<_> = all.iter().step_by(17).collect();
        for record in all_records(3, 1, &[Link(link)]) {
            for d in &few {
                check(&[], &record, d);
            }
        }
    }
}

const SMALL: Size = Size {
    entries: 12,
    properties: 2,
    links_after: 32_766,
    links: 2,
    number: 3,
};

#[test]
fn drawn_records() {
    let mut chance = Chance::from(601);
    let pairs = list(&[(1, 2)]);
    let (mut yes, mut all) = (0, 0);
    for round in 0..1500 {
        let items = 1 + chance.below(8);
        let pairs = if round % 2 == 0 { &[][..] } else { &pairs };
        let record = keeping(record(&mut chance, SMALL, items), pairs);
        for _ in 0..4 {
            yes += check(pairs, &record, &description(&mut chance, SMALL));
            all += items;
        }
    }
    assert!(yes > 1000 && all - yes > 1000, "{yes} of {all}");
}

#[test]
fn named_descriptions() {
    let mut chance = Chance::from(602);
    for round in 0..200 {
        let size = Size {
            entries: 4,
            ..SMALL
        };
        let named = drawn_dictionary(&mut chance, size, 1 + round % 3);
        let dict = laid_end_to_end(&named);
        let d = encode(&drawn(&mut chance, size, named.len()));
        let record = record(&mut chance, size, 1 + round % 5);
        let sent = encode(&entries_of(&record));
        let call = |out: &mut [u8]| fit_all(&[], &dict, record.items, &sent, &d, out);
        let (_, marks) = marked(9, record.items, call).unwrap();
        let plain = unfolded(&dict, &d).unwrap();
        assert_eq!(
            marks,
            fitting(&[], record.items, &entries_of(&record), &plain)
        );
    }
}

/// The record is refused like this, whatever the description is.
fn record_refused(pairs: &[u8], total: usize, record: &[u8], due: Refusal) {
    for d in [&blocks(""), &blocks("8"), &vec![]] {
        refused(due, |out| fit_all(pairs, &[], total, record, d, out));
    }
}

#[test]
fn totals() {
    for total in [0, 257, 512, 65_536, 65_537, usize::MAX] {
        // Before the length, and after the dictionary.
        for record in [&[][..], &[FILL; 700], &blocks("")] {
            record_refused(&[], total, record, refusal(10, 1, 0));
        }
        let (wrong, good) = (blocks("8"), blocks(""));
        refused(refusal(4, 101, 1), |out| {
            fit_all(&[], &wrong, total, &good, &good, out)
        });
        refused(refusal(11, 0, 0), |out| {
            fit_all(&[1], &wrong, total, &good, &good, out)
        });
    }
    for total in [1, 2, 255, 256] {
        needs(total, |out| {
            fit_all(&[], &[], total, &blocks(""), &blocks(""), out)
        });
    }
}

/// Lengths and frames are those of specimens, up to 32 blocks.
#[test]
fn blocks_of_a_record() {
    for length in [0, 1, 511, 513, 33 * 512] {
        record_refused(&[], 3, &vec![FILL; length], refusal(1, 1, 0));
    }
    let full = encode(&vec![has(1, 1); 2016]);
    assert_eq!(full.len(), 32 * 512);
    needs(3, |out| fit_all(&[], &[], 3, &full, &blocks("1,1"), out));
    let mut wrong = full.clone();
    wrong[31 * 512 + 7] ^= 1;
    record_refused(&[], 3, &wrong, refusal(2, 1, 32));
    let mut wrong = full;
    wrong[31 * 512] = 31;
    record_refused(&[], 3, &with_checks(wrong), refusal(3, 1, 32));
}

/// A link that never leads to two items.
const S: u16 = 32_768;

/// Entries that no record of three items has after a link by S from item 1 to
/// item 2, each with the number that refuses it: 4, then 10, then 9.
fn wrong_entries() -> [(Entry, u8); 20] {
    let mut zero = has(1, 1);
    zero.zero = 1;
    [
        (entry(0, 1, 1, 0), 4),
        (entry(2, 1, 1, 0), 4),
        (entry(5, 1, 1, 0), 4),
        (entry(7, 1, 1, 0), 4),
        (entry(9, 1, 1, 0), 4),
        (has(1, 0), 4),
        (entry(1, 1, 1, 1), 4),
        (linked(1, 0, 1), 4),
        (zero, 4),
        (entry(9, 0, 1, 0), 4),
        (entry(1, 0, 1, 1), 4),
        (has(0, 1), 10),
        (has(4, 1), 10),
        (linked(0, 1, 1), 10),
        (linked(1, 1, 0), 10),
        (linked(4, 1, 1), 10),
        (linked(1, 1, 4), 10),
        (linked(1, S, 4), 10),
        (linked(1, S, 3), 9),
        (linked(1, S, 1), 9),
    ]
}

/// The first entry that is wrong decides.
#[test]
fn entries_of_a_record() {
    let good = [
        linked(1, S, 2),
        has(3, S),
        linked(1, S - 1, 2),
        linked(2, S, 3),
    ];
    for (last, number) in wrong_entries() {
        let entries = [&good[..], &[last], &[entry(0, 0, 0, 0)]].concat();
        record_refused(&[], 3, &encode(&entries), refusal(number, 1, 5));
    }
}

/// Another link, another item, the same pair again, a link to many.
#[test]
fn links_that_keep_the_rule() {
    let good = [
        linked(1, S, 2),
        linked(1, S, 2),
        linked(1, S + 1, 3),
        linked(2, S, 3),
        linked(3, S, 3),
        linked(1, S - 1, 1),
        linked(1, S - 1, 3),
        has(1, S),
        has(3, 65_535),
    ];
    assert_eq!(fitting(&[], 3, &good, &[]), [true; 3]);
}

/// An item with both of a pair, after all other checks of the record.
#[test]
fn both_of_a_pair() {
    let pairs = list(&[(1, 2)]);
    let apart = [has(1, 1), has(2, 2), has(3, 1), linked(1, 1, 2)];
    assert_eq!(fitting(&pairs, 3, &apart, &[]), [true; 3]);
    let both = [&apart[..], &[has(3, 2), has(1, 2)]].concat();
    record_refused(&pairs, 3, &encode(&both), refusal(12, 1, 5));
    assert_eq!(fitting(&[], 3, &both, &[]), [true; 3]);
    let later = [&both[..], &[has(4, 1)]].concat();
    record_refused(&pairs, 3, &encode(&later), refusal(10, 1, 7));
}

#[test]
fn the_description_and_the_output() {
    let record = encode(&[has(1, 1)]);
    for wrong in wrong_descriptions() {
        let call = |out: &mut [u8]| fit_all(&[], &[], 3, &record, &wrong.bytes, out);
        refused(wrong.as_input(2), call);
    }
    let named = blocks("1,1; 9,1");
    refused(refusal(13, 2, 2), |out| {
        fit_all(&[], &[], 3, &record, &named, out)
    });
    let (large, twice) = (encode(&vec![has(0, 1); 1008]), blocks("9,1; 9,1"));
    refused(refusal(14, 2, 0), |out| {
        fit_all(&[], &large, 3, &record, &twice, out)
    });
    needs(3, |out| {
        fit_all(&[], &large, 3, &record, &blocks("9,1"), out)
    });
}

/// Deep descriptions and links that all go round: as fast as others.
#[test]
fn the_largest() {
    let round: Vec<Entry> = (1..=256)
        .flat_map(|from| (0..7).map(move |step| linked(from, 1, (from + step) % 256 + 1)))
        .collect();
    let mut d: Vec<Entry> = (0..32).map(|owner| entry(5, owner, 1, 0)).collect();
    d.extend((1..=488).map(|n| entry(3, 32, 1, n % 8)));
    d.extend((1..=488).map(|property| entry(2, 31, property, 0)));
    assert_eq!(fitting(&[], 256, &round, &d), [true; 256]);
    d[1007] = entry(4, 32, 1, 6);
    assert_eq!(fitting(&[], 256, &round, &d), [false; 256]);
}
