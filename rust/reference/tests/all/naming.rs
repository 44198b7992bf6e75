//! Named descriptions: each clause.

use reference::record::{fits, fits_named, Record};
use reference::{
    catalogue, compare, compare_with, decode, encode, fit, fit_with, normal_form, normal_with,
    read_description, read_specimen, run_program, unfold, Comparison, Entry, Link, Property,
    Refusal,
};

use crate::chance::{all_records, description, record, specimen, Chance, Size};
use crate::comparing::every_tiny_description;
use crate::excluding::refused_before_the_inputs;
use crate::notation::{blocks, dictionary, entries, entry, laid_end_to_end, list, unfolded, FILL};
use crate::refusals::with_checks;

const SMALL: Size = Size {
    entries: 6,
    properties: 2,
    links_after: 0,
    links: 2,
    number: 2,
};

pub fn refusal(number: u8, input: u16, place: u32) -> Refusal {
    Refusal {
        number,
        input,
        place,
    }
}

/// A named entry.
pub fn named(owner: u16, name: u16) -> Entry {
    entry(9, owner, name, 0)
}

/// An 'every' of link 1 below another, so many: entry k has depth k - 1.
pub fn chain(length: u16) -> Vec<Entry> {
    (0..length).map(|owner| entry(5, owner, 1, 0)).collect()
}

/// The refusal of a dictionary by every call that takes one, whatever the
/// inputs and the output are.
fn dictionary_refused(dict: &[u8], due: Refusal) {
    refused_before_the_inputs(&[], dict, due);
    let mut out = vec![FILL; 1024];
    for input in [&blocks("1,1"), &blocks("8"), &vec![FILL; 700], &vec![]] {
        for length in [0, 511, 1024] {
            assert_eq!(unfold(dict, input, &mut out[..length]), Err(due));
        }
    }
    assert!(out.iter().all(|&byte| byte == FILL));
}

/// The refusal of a description by every call that takes a dictionary, in each
/// position, whatever comes after it.
fn refused(dict: &[u8], bytes: &[u8], number: u8, place: u32) {
    let due = |input| Err(refusal(number, input, place));
    let good = blocks("1,1");
    let mut out = vec![FILL; 40 * 512];
    for length in [0, 512, 40 * 512] {
        let out = &mut out[..length];
        assert_eq!(unfold(dict, bytes, out), due(1).map(|()| 0));
        assert_eq!(normal_with(&[], dict, bytes, out), due(1).map(|()| 0));
        for other in [&good[..], bytes, &[]] {
            let answer = compare_with(&[], dict, bytes, other, out);
            assert_eq!(answer, due(1).map(|()| Comparison::Contained));
        }
        let answer = compare_with(&[], dict, &good, bytes, out);
        assert_eq!(answer, due(2).map(|()| Comparison::Contained));
        assert_eq!(catalogue(&[], dict, bytes, &good, out), due(1).map(|()| 0));
        assert_eq!(catalogue(&[], dict, &good, bytes, out), due(2).map(|()| 0));
    }
    assert_eq!(fit_with(&[], dict, &good, bytes), due(2).map(|()| true));
    assert!(out.iter().all(|&byte| byte == FILL));
}

/// As `refused`, and as the last description of the dictionary itself, which
/// may name the same ones: all before it.
fn refused_everywhere(dict: &[u8], count: u16, bytes: &[u8], number: u8, place: u32) {
    refused(dict, bytes, number, place);
    let longer = [dict, bytes].concat();
    dictionary_refused(&longer, refusal(number, 101 + count, place));
    // One after it, the last of 64 at most, is not looked at before.
    if count < 63 {
        let longer = [dict, bytes, &blocks("8")].concat();
        dictionary_refused(&longer, refusal(number, 101 + count, place));
    }
}

/// A dictionary that is not refused.
fn accepted(dict: &[u8]) {
    let good = blocks("1,1");
    let mut out = vec![FILL; 1024];
    assert_eq!(fit_with(&[], dict, &good, &good), Ok(true));
    assert_eq!(unfolded(dict, &good), Ok(entries("1,1")));
    assert_eq!(normal_with(&[], dict, &good, &mut out), Ok(1));
    let answer = compare_with(&[], dict, &good, &good, &mut out);
    assert_eq!(answer, Ok(Comparison::Contained));
}

/// A list of descriptions, or of length 0 (D1): 1 for a length that is no
/// multiple of 512.
#[test]
fn number_1_of_the_dictionary() {
    accepted(&[]);
    let long = vec![FILL; 512 * 100 + 1];
    for length in [
        1,
        2,
        511,
        513,
        1023,
        512 * 16 + 1,
        512 * 64 - 1,
        512 * 100 + 1,
    ] {
        dictionary_refused(&long[..length], refusal(1, 100, 0));
    }
    // Before 8: more than 64 and a part of a block.
    let part = [vec![blocks(""); 65].concat(), vec![1]].concat();
    dictionary_refused(&part, refusal(1, 100, 0));
    // Of one description: its limit is that of any, by its length as sent.
    let full = encode(&vec![entry(1, 0, 1, 0); 1008]);
    let over = encode(&vec![entry(1, 0, 1, 0); 1009]);
    accepted(&[&full[..], &full, &full].concat());
    dictionary_refused(&over, refusal(1, 101, 0));
    dictionary_refused(&[&full[..], &over].concat(), refusal(1, 102, 0));
    dictionary_refused(&[&over[..], &full].concat(), refusal(1, 101, 0));
}

/// 8 for more than 64 (R8), before the descriptions' own checks.
#[test]
fn number_8() {
    for count in [1, 2, 63, 64] {
        accepted(&vec![blocks("1,1"); count].concat());
        accepted(&vec![blocks(""); count].concat());
    }
    for count in [65, 66, 129] {
        dictionary_refused(&vec![blocks("1,1"); count].concat(), refusal(8, 100, 0));
        dictionary_refused(&vec![blocks("8"); count].concat(), refusal(8, 100, 0));
        // The stored number decides, whatever the checks are.
        let mut wrong = vec![0; 512];
        wrong[0] = 1;
        dictionary_refused(&vec![wrong; count].concat(), refusal(8, 100, 0));
    }
    // 64 descriptions of 16 blocks are 1,024 blocks, 65 of them are 64.
    let full = encode(&vec![entry(1, 0, 1, 0); 1008]);
    accepted(&vec![full.clone(); 64].concat());
    dictionary_refused(&vec![full; 65].concat(), refusal(8, 100, 0));
}

/// Each block numbered 1 begins a description (L1), before any check.
#[test]
fn where_descriptions_begin() {
    let renumbered = |number: u16| {
        let mut block = blocks("1,1");
        block[..2].copy_from_slice(&number.to_le_bytes());
        with_checks(block)
    };
    // A first block of another number begins the first description.
    for number in [0, 2, 257, 65_535] {
        let first = renumbered(number);
        dictionary_refused(&first, refusal(3, 101, 1));
        dictionary_refused(&[first, blocks("8")].concat(), refusal(3, 101, 1));
    }
    // A later block of another number belongs to the description before it.
    for number in [0, 3, 256, 257, 65_535] {
        let dict = [encode(&[entry(1, 0, 1, 0); 63]), renumbered(number)].concat();
        dictionary_refused(&dict, refusal(3, 101, 2));
        let dict = [blocks(""), dict, blocks("1,1")].concat();
        dictionary_refused(&dict, refusal(3, 102, 2));
    }
    let right = [encode(&[entry(1, 0, 1, 0); 63]), renumbered(2)].concat();
    accepted(&right);
    accepted(&[&right[..], &right].concat());
    // One numbered 1 begins another: the one before it may be cut short.
    let dict = [
        encode(&[entry(1, 0, 1, 0); 63]),
        renumbered(1),
        renumbered(2),
    ]
    .concat();
    dictionary_refused(&dict, refusal(3, 102, 1));
}

/// The n-th description is input 100 + n (D2), each in full before the next.
#[test]
fn the_dictionarys_own_checks() {
    let two_blocks = encode(&[entry(1, 0, 1, 0); 70]);
    for before in [0, 1, 2, 63] {
        let dict = vec![blocks("1,7; 5,1 [1,8]"); before].concat();
        let input = 101 + before as u16;
        let mut wrong = two_blocks.clone();
        wrong[1000] ^= 1;
        for (bytes, number, place) in [
            (wrong.clone(), 2, 2),
            (with_checks(wrong), 3, 2),
            (blocks("1,1; 8"), 4, 2),
            (blocks("1,1; 7,1"), 4, 2),
            (encode(&[entry(1, 0, 1, 0), entry(1, 2, 1, 0)]), 5, 2),
            (
                encode(&[chain(33), vec![entry(1, 33, 1, 0)]].concat()),
                6,
                34,
            ),
            (encode(&[entry(1, 0, 1, 0), named(0, input - 100)]), 13, 2),
        ] {
            let due = refusal(number, input, place);
            dictionary_refused(&[&dict[..], &bytes].concat(), due);
            if before < 63 {
                dictionary_refused(&[&dict[..], &bytes, &blocks("8")].concat(), due);
            }
        }
    }
}

/// A named entry has any name and number 0 (D3) (E5): other numbers are 4,
/// and so is a wrong zero byte.
#[test]
fn number_4() {
    let dict = dictionary(&["1,7", "1,8"]);
    for name in [0, 1, 2, 3, 65_535] {
        for number in [1, 256, 65_535] {
            refused_everywhere(&dict, 2, &encode(&[entry(9, 0, name, number)]), 4, 1);
        }
        let zero = Entry {
            zero: 1,
            ..named(0, name)
        };
        refused_everywhere(&dict, 2, &encode(&[entry(1, 0, 1, 0), zero]), 4, 2);
    }
    // The other kinds are as they were.
    for kind in [0, 7, 8, 10, 255] {
        refused_everywhere(&dict, 2, &encode(&[entry(kind, 0, 1, 0)]), 4, 1);
    }
}

/// 13, a name that may not be given, after 4 at its entry (R13) (R24).
#[test]
fn number_13() {
    for count in [0u16, 1, 2, 40, 63] {
        let dict = vec![blocks("1,7"); usize::from(count)].concat();
        for name in [0, count + 1, count + 2, 64, 256, 257, 65_535] {
            if name != 0 && name <= count {
                continue;
            }
            for before in [0, 1, 62, 63, 100] {
                let mut all = vec![entry(1, 0, 1, 0); before];
                all.push(named(0, name));
                all.push(named(0, 0));
                refused_everywhere(&dict, count, &encode(&all), 13, before as u32 + 1);
            }
        }
        for name in 1..=count {
            assert_eq!(
                unfolded(&dict, &encode(&[named(0, name)])),
                Ok(entries("1,7"))
            );
        }
    }
    // In the dictionary: itself or a later one, also if there is a later one.
    for own in 1..=4u16 {
        for name in 0..=5 {
            let mut texts = vec!["1,7"; 4];
            let text = format!("1,8; 9,{name}");
            texts[usize::from(own) - 1] = &text;
            let dict = dictionary(&texts);
            if (1..own).contains(&name) {
                accepted(&dict);
            } else {
                dictionary_refused(&dict, refusal(13, 100 + own, 2));
            }
        }
    }
}

/// 13 at its entry, after 4 (R24), then 5 and 6; the lowest entry decides.
#[test]
fn number_13_and_the_others() {
    let dict = dictionary(&["1,7"]);
    let everywhere = |entries: &[Entry], number: u8, place: u32| {
        refused_everywhere(&dict, 1, &encode(entries), number, place);
    };
    // At one entry.
    everywhere(&[entry(9, 9, 9, 9)], 4, 1);
    everywhere(&[named(9, 9)], 13, 1);
    everywhere(&[named(9, 1)], 5, 1);
    everywhere(&[&chain(33)[..], &[named(33, 9)]].concat(), 13, 34);
    everywhere(&[&chain(33)[..], &[named(33, 1)]].concat(), 6, 34);
    // Over entries.
    let wrong = [
        (entry(8, 0, 1, 0), 4),
        (named(0, 2), 13),
        (entry(1, 60, 1, 0), 5),
        (entry(1, 33, 1, 0), 6),
    ];
    for (one, number) in wrong {
        for (other, _) in wrong {
            everywhere(&[&chain(33)[..], &[one, other]].concat(), number, 34);
        }
    }
    // A wrong block comes before any entry.
    let mut bytes = encode(&[vec![named(0, 0)], vec![entry(1, 0, 1, 0); 100]].concat());
    refused_everywhere(&dict, 1, &bytes, 13, 1);
    bytes[1000] ^= 1;
    refused_everywhere(&dict, 1, &bytes, 2, 2);
    refused_everywhere(&dict, 1, &with_checks(bytes), 3, 2);
}

/// The owner is not earlier, or may not own (R5): a named entry owns nothing,
/// whatever it stands for.
#[test]
fn number_5_below_a_named_entry() {
    let dict = dictionary(&["", "5,1 []", "5,1 [1,7]"]);
    for name in 1..=3 {
        for kind in [1, 2, 3, 4, 5] {
            let all = [named(0, name), entry(kind, 1, 1, 0)];
            refused_everywhere(&dict, 3, &encode(&all), 5, 2);
        }
        refused_everywhere(&dict, 3, &encode(&[named(0, name), named(1, 1)]), 5, 2);
        let below = [entry(5, 0, 1, 0), named(1, name), entry(6, 2, 0, 0)];
        refused_everywhere(&dict, 3, &encode(&below), 5, 3);
    }
}

/// The depth of a named entry is that of any entry: at 33 it is 6, even if it
/// stands for nothing.
#[test]
fn number_6_of_a_named_entry() {
    let dict = dictionary(&["", "1,7", "5,1 []"]);
    for name in 1..=3 {
        let all = [&chain(33)[..], &[named(33, name)]].concat();
        refused_everywhere(&dict, 3, &encode(&all), 6, 34);
    }
    // At 32 flat contents pass.
    let flat = unfolded(&dict, &encode(&[&chain(32)[..], &[named(32, 2)]].concat()));
    assert_eq!(flat, Ok([&chain(32)[..], &[entry(1, 32, 7, 0)]].concat()));
    let every = unfolded(&dict, &encode(&[&chain(32)[..], &[named(32, 3)]].concat()));
    assert_eq!(every, Ok(chain(33)));
    let none = unfolded(&dict, &encode(&[&chain(32)[..], &[named(32, 1)]].concat()));
    assert_eq!(none, Ok(chain(32)));
}

/// 14, too many entries once unfolded (R14).
#[test]
fn number_14_entries() {
    let sizes = [0, 1, 2, 504, 505, 1007, 1008];
    let of_size = |size: usize| vec![entry(1, 0, 7, 0); size];
    let dict = laid_end_to_end(&sizes.map(of_size));
    let has = |count: usize| vec![entry(1, 0, 1, 0); count];
    let names = |name: u16, count: usize| vec![named(0, name); count];
    for (all, size) in [
        (names(2, 1008), 1008),
        ([names(2, 1007), names(3, 1)].concat(), 1009),
        ([names(3, 1), names(2, 1006)].concat(), 1008),
        (names(3, 504), 1008),
        ([names(3, 504), has(1)].concat(), 1009),
        ([names(3, 504), names(1, 504)].concat(), 1008),
        (names(4, 2), 1008),
        ([names(4, 1), names(5, 1)].concat(), 1009),
        (names(7, 1), 1008),
        ([names(7, 1), names(1, 1007)].concat(), 1008),
        ([has(1), names(7, 1)].concat(), 1009),
        ([names(6, 1), has(1)].concat(), 1008),
        (names(7, 1008), 1008 * 1008),
        (names(1, 1008), 0),
    ] {
        let bytes = encode(&all);
        if size <= 1008 {
            assert_eq!(unfolded(&dict, &bytes).map(|plain| plain.len()), Ok(size));
            accepted(&[&dict[..], &bytes].concat());
        } else {
            refused_everywhere(&dict, 7, &bytes, 14, 0);
        }
    }
}

/// Depth above 32 once unfolded (R14); how many owners an entry has above it
/// (E9).
#[test]
fn number_14_depth() {
    // Description k is a chain of which the deepest entry has depth k - 1, and
    // number 34 is the empty one.
    let chains: Vec<Vec<Entry>> = (1..=33).chain([0]).map(chain).collect();
    let dict = laid_end_to_end(&chains);
    for owner in 0..=32u16 {
        for name in 1..=33u16 {
            // The named entry has depth `owner`.
            let bytes = encode(&[&chain(owner)[..], &[named(owner, name)]].concat());
            if owner + name - 1 <= 32 {
                assert_eq!(unfolded(&dict, &bytes), Ok(chain(owner + name)));
            } else {
                refused(&dict, &bytes, 14, 0);
                let longer = [&dict[..], &bytes].concat();
                assert_eq!(unfolded(&longer, &blocks("")), Err(refusal(14, 135, 0)));
            }
        }
        let none = encode(&[&chain(owner)[..], &[named(owner, 34)]].concat());
        assert_eq!(unfolded(&dict, &none), Ok(chain(owner)));
    }
    // Not only the deepest named entry counts, nor the last.
    let all = [&chain(31)[..], &[named(31, 3), named(31, 1), named(0, 33)]].concat();
    refused_everywhere(&dict, 34, &encode(&all), 14, 0);
    let all = [&chain(31)[..], &[named(31, 2), named(31, 1), named(0, 33)]].concat();
    assert!(unfolded(&dict, &encode(&all)).is_ok());
}

/// Place 0, after the input's other checks (R24), and before the next input.
#[test]
fn number_14_is_last_in_its_input() {
    let dict = laid_end_to_end(&[vec![entry(1, 0, 7, 0); 1008]]);
    let two = vec![named(0, 1); 2];
    refused_everywhere(&dict, 1, &encode(&two), 14, 0);
    for (later, number) in [
        (entry(8, 0, 1, 0), 4),
        (entry(9, 0, 1, 1), 4),
        (named(0, 2), 13),
        (entry(1, 1, 1, 0), 5),
        (entry(1, 9, 1, 0), 5),
    ] {
        let all = [&two[..], &[later]].concat();
        refused_everywhere(&dict, 1, &encode(&all), number, 3);
    }
    let deep = [chain(33), two.clone(), vec![entry(1, 33, 1, 0)]].concat();
    refused_everywhere(&dict, 1, &encode(&deep), 6, 36);
    let mut bytes = encode(&[two, vec![entry(1, 0, 1, 0); 100]].concat());
    refused_everywhere(&dict, 1, &bytes, 14, 0);
    bytes[1000] ^= 1;
    refused_everywhere(&dict, 1, &bytes, 2, 2);
    // The specimen comes before the description.
    let over = encode(&[named(0, 1), named(0, 1)]);
    for (s, due) in [
        ("1,1; 1,2", refusal(12, 1, 2)),
        ("7,32768,1", refusal(9, 1, 1)),
        ("2,1", refusal(4, 1, 1)),
        ("1,1", refusal(14, 2, 0)),
    ] {
        assert_eq!(
            fit_with(&list(&[(1, 2)]), &dict, &blocks(s), &over),
            Err(due)
        );
    }
}

/// A dictionary description is checked whether anything names it or not.
#[test]
fn number_14_in_the_dictionary() {
    let full = vec![entry(1, 0, 7, 0); 1008];
    let over = vec![named(0, 1), named(0, 1)];
    dictionary_refused(
        &laid_end_to_end(&[full.clone(), over.clone()]),
        refusal(14, 102, 0),
    );
    // The lowest description decides, in full.
    let later = [full.clone(), entries("1,1"), over.clone(), entries("8")];
    dictionary_refused(&laid_end_to_end(&later), refusal(14, 103, 0));
    let earlier = [full, entries("8"), over];
    dictionary_refused(&laid_end_to_end(&earlier), refusal(4, 102, 1));
}

/// Twice the one before: 1,024 entries at the eleventh. An 'every' around the
/// one before: depth 33 after 33 of them.
#[test]
fn number_14_step_by_step() {
    let twice: Vec<Vec<Entry>> = (0..64)
        .map(|before| match before {
            0 => entries("1,7"),
            _ => vec![named(0, before), named(0, before)],
        })
        .collect();
    accepted(&laid_end_to_end(&twice[..10]));
    let tenth = unfolded(&laid_end_to_end(&twice[..10]), &encode(&[named(0, 10)]));
    assert_eq!(tenth, Ok(vec![entry(1, 0, 7, 0); 512]));
    for count in [11, 12, 64] {
        dictionary_refused(&laid_end_to_end(&twice[..count]), refusal(14, 111, 0));
    }
    let around = |first: Vec<Entry>| -> Vec<Vec<Entry>> {
        let later = (1..64).map(|before| vec![entry(5, 0, 1, 0), named(1, before)]);
        [first].into_iter().chain(later).collect()
    };
    let flat = around(entries("1,7"));
    accepted(&laid_end_to_end(&flat[..33]));
    dictionary_refused(&laid_end_to_end(&flat), refusal(14, 134, 0));
    // A name that stands for nothing adds no depth (D9): one more fits.
    let none = around(vec![]);
    accepted(&laid_end_to_end(&none[..34]));
    dictionary_refused(&laid_end_to_end(&none), refusal(14, 135, 0));
}

/// Each description is 1,008 times the one before, which is nothing in the end:
/// 1,008 to the 63rd steps if each were looked up anew.
#[test]
fn many_names_of_nothing() {
    let empty: Vec<Vec<Entry>> = (0..64)
        .map(|before| match before {
            0 => vec![],
            _ => vec![named(0, before); 1008],
        })
        .collect();
    let dict = laid_end_to_end(&empty);
    accepted(&dict);
    assert_eq!(
        unfolded(&dict, &encode(&vec![named(0, 64); 1008])),
        Ok(vec![])
    );
    let mut some = vec![named(0, 64); 1008];
    some[500] = entry(5, 0, 1, 0);
    some[1000] = named(501, 63);
    assert_eq!(unfolded(&dict, &encode(&some)), Ok(entries("5,1 []")));
}

/// The contents of a name stand where it stood, in their order (D6).
#[test]
fn unfolding_by_hand() {
    let dict = dictionary(&[
        "1,7; 5,2 [1,8; 3,1,4]; 2,9",
        "",
        "5,1 [9,1; 9,2]; 9,1",
        "9,2; 9,2",
    ]);
    let first = "1,7; 5,2 [1,8; 3,1,4]; 2,9";
    let third = format!("5,1 [{first}]; {first}");
    for (before, after) in [
        ("", String::new()),
        ("9,1", first.into()),
        ("9,2", String::new()),
        ("9,4; 9,2; 9,4", String::new()),
        ("9,3", third.clone()),
        ("9,1; 9,1", format!("{first}; {first}")),
        ("1,1; 9,1; 1,2", format!("1,1; {first}; 1,2")),
        ("5,4 [9,1]; 5,5 [1,1]", format!("5,4 [{first}]; 5,5 [1,1]")),
        ("5,4 [9,4]; 5,5 [1,1]", "5,4 []; 5,5 [1,1]".into()),
        (
            "9,4; 5,4 [9,2; 5,5 [9,1; 4,3,2; 9,3]; 6]; 9,1",
            format!("5,4 [5,5 [{first}; 4,3,2; {third}]; 6]; {first}"),
        ),
        (
            "3,1,65535; 4,65535; 5,1 [6]",
            "3,1,65535; 4,65535; 5,1 [6]".into(),
        ),
    ] {
        assert_eq!(
            unfolded(&dict, &blocks(before)),
            Ok(entries(&after)),
            "{before}"
        );
    }
    // What an entry owns need not follow it: later numbers are counted on.
    let apart = [
        entry(5, 0, 1, 0),
        entry(5, 0, 2, 0),
        named(2, 1),
        named(0, 2),
        entry(5, 1, 3, 0),
        entry(1, 2, 1, 0),
        named(5, 1),
        entry(2, 5, 2, 0),
    ];
    let plain = [
        entry(5, 0, 1, 0),
        entry(5, 0, 2, 0),
        entry(1, 2, 7, 0),
        entry(5, 2, 2, 0),
        entry(1, 4, 8, 0),
        entry(3, 4, 1, 4),
        entry(2, 2, 9, 0),
        entry(5, 1, 3, 0),
        entry(1, 2, 1, 0),
        entry(1, 8, 7, 0),
        entry(5, 8, 2, 0),
        entry(1, 11, 8, 0),
        entry(3, 11, 1, 4),
        entry(2, 8, 9, 0),
        entry(2, 8, 2, 0),
    ];
    assert_eq!(unfolded(&dict, &encode(&apart)), Ok(plain.to_vec()));
    // The contents keep their order where what is owned stands apart.
    let odd = [
        entry(5, 0, 1, 0),
        entry(5, 0, 2, 0),
        entry(1, 2, 4, 0),
        entry(1, 1, 3, 0),
        entry(2, 0, 5, 0),
    ];
    let dict = laid_end_to_end(&[odd.to_vec()]);
    let found = unfolded(&dict, &blocks("1,1; 5,9 [9,1]; 9,1"));
    let moved = |owner: u16, before: u16| {
        odd.map(|e| Entry {
            owner: if e.owner == 0 {
                owner
            } else {
                e.owner + before
            },
            ..e
        })
    };
    let due = [&entries("1,1; 5,9 []")[..], &moved(2, 2), &moved(0, 7)].concat();
    assert_eq!(found, Ok(due));
}

/// Unfolding in another way: the first named entry is replaced by the contents
/// as they stand in the dictionary, again and again, until there is none.
fn one_by_one(named: &[Vec<Entry>], entries: &[Entry]) -> Vec<Entry> {
    let mut entries = entries.to_vec();
    while let Some(at) = entries.iter().position(|e| e.kind == 9) {
        let stands = entries[at];
        let contents = &named[usize::from(stands.name) - 1];
        // The named entry is number at + 1; entry k of the contents becomes
        // number at + k; what was number at + 2 comes after these.
        let put_in = contents.iter().map(|e| Entry {
            owner: if e.owner == 0 {
                stands.owner
            } else {
                e.owner + at as u16
            },
            ..*e
        });
        let later = entries[at + 1..].iter().map(|e| Entry {
            owner: if usize::from(e.owner) > at + 1 {
                e.owner - 1 + contents.len() as u16
            } else {
                e.owner
            },
            ..*e
        });
        entries = entries[..at]
            .iter()
            .copied()
            .chain(put_in)
            .chain(later)
            .collect();
    }
    entries
}

/// The number of entries in the chain of owners of this entry.
fn depth(entries: &[Entry], e: &Entry) -> usize {
    match usize::from(e.owner).checked_sub(1) {
        Some(index) => 1 + depth(entries, &entries[index]),
        None => 0,
    }
}

/// Draws a description in which some entries name one of this many.
pub fn drawn(chance: &mut Chance, size: Size, names: usize) -> Vec<Entry> {
    let mut entries = description(chance, size);
    for e in &mut entries {
        if names > 0 && e.kind != 5 && chance.once_in(3) {
            *e = named(e.owner, chance.name(names));
        }
    }
    entries
}

/// Draws the descriptions of a dictionary.
pub fn drawn_dictionary(chance: &mut Chance, size: Size, count: usize) -> Vec<Vec<Entry>> {
    (0..count)
        .map(|before| drawn(chance, size, before))
        .collect()
}

#[test]
fn unfolding_is_replacing_one_by_one() {
    let mut chance = Chance::from(81);
    let (mut longer, mut shorter) = (0, 0);
    for _ in 0..1500 {
        let count = chance.below(6);
        let named = drawn_dictionary(&mut chance, SMALL, count);
        let before = drawn(
            &mut chance,
            Size {
                entries: 15,
                ..SMALL
            },
            count,
        );
        let after = one_by_one(&named, &before);
        assert_eq!(
            unfolded(&laid_end_to_end(&named), &encode(&before)),
            Ok(after.clone())
        );
        longer += usize::from(after.len() > before.len());
        shorter += usize::from(after.len() < before.len());
        // What is written is plain, and unfolding it alters nothing.
        let plain = encode(&after);
        assert_eq!(read_description(&plain), Ok(after.len()));
        assert_eq!(unfolded(&[], &plain), Ok(after.clone()));
        assert_eq!(unfolded(&laid_end_to_end(&named), &plain), Ok(after));
    }
    assert!(longer > 500 && shorter > 100, "{longer} {shorter}");
}

/// Larger ones: 14 exactly where the plain list breaks a limit.
#[test]
fn number_14_is_what_replacing_says() {
    let wide = Size {
        entries: 90,
        ..SMALL
    };
    let (mut accepted, mut over, mut deep) = (0, 0, 0);
    let mut chance = Chance::from(82);
    for round in 0..500 {
        let named = match round % 2 {
            0 => drawn_dictionary(&mut chance, wide, 1),
            // Long chains, of which one ends deep down.
            _ => {
                let length = 10 + chance.below(16) as u16;
                vec![[chain(length), entries("1,7")].concat()]
            }
        };
        let dict = laid_end_to_end(&named);
        let before = match round % 2 {
            0 => drawn(&mut chance, wide, 1),
            _ => {
                let length = chance.below(20) as u16;
                let below = drawn(&mut chance, SMALL, 1);
                let moved = below.iter().map(|e| Entry {
                    owner: e.owner + length,
                    ..*e
                });
                chain(length).into_iter().chain(moved).collect()
            }
        };
        let after = one_by_one(&named, &before);
        let too_deep = after.iter().any(|e| depth(&after, e) > 32);
        if after.len() > 1008 || too_deep {
            over += usize::from(after.len() > 1008);
            deep += usize::from(too_deep);
            refused_everywhere(&dict, 1, &encode(&before), 14, 0);
        } else {
            accepted += 1;
            assert_eq!(unfolded(&dict, &encode(&before)), Ok(after));
        }
    }
    assert!(
        accepted > 50 && over > 30 && deep > 20,
        "{accepted} {over} {deep}"
    );
}

/// 7 exactly where the output is shorter than what is written; later bytes stay
/// (D12).
#[test]
fn number_7_of_the_unfolding() {
    let dict = laid_end_to_end(&[vec![], vec![entry(1, 0, 7, 0); 64]]);
    for (before, length) in [
        (vec![], 512),
        (vec![named(0, 1); 200], 512),
        (vec![named(0, 2)], 1024),
        (vec![named(0, 2), named(0, 2)], 1536),
        (vec![entry(1, 0, 7, 0); 64], 1024),
        (
            [vec![named(0, 2); 15], vec![entry(1, 0, 7, 0); 48]].concat(),
            16 * 512,
        ),
    ] {
        let bytes = encode(&before);
        let mut out = vec![FILL; length + 600];
        for short in [0, 1, 511, length - 512, length - 1] {
            let answer = unfold(&dict, &bytes, &mut out[..short]);
            assert_eq!(answer, Err(refusal(7, 0, 0)));
        }
        assert!(out.iter().all(|&byte| byte == FILL));
        for longer in [length, length + 1, length + 600] {
            out.fill(FILL);
            let count = unfold(&dict, &bytes, &mut out[..longer]).unwrap();
            assert_eq!(decode(&out[..length]).len(), count);
            assert_eq!(out[..length], encode(&vec![entry(1, 0, 7, 0); count]));
            assert!(out[length..].iter().all(|&byte| byte == FILL));
        }
    }
}

/// The output is measured (D8) by the unfolded ones; the limit of blocks is
/// on what is sent (D9).
#[test]
fn number_7_by_the_unfolded_ones() {
    let dict = laid_end_to_end(&[vec![], vec![entry(1, 0, 7, 0); 64]]);
    let seven = Err(refusal(7, 0, 0));
    let short = encode(&[named(0, 2)]);
    let long = encode(&vec![named(0, 1); 64]);
    for (c, length) in [(&short, 1024), (&long, 512)] {
        let mut out = vec![FILL; length];
        let answer = normal_with(&[], &dict, c, &mut out[..length - 1]);
        assert_eq!(answer, seven.map(|()| 0));
        assert!(out.iter().all(|&byte| byte == FILL));
        assert!(normal_with(&[], &dict, c, &mut out).is_ok());
        for (d, other) in [(&short, 1024), (&long, 512)] {
            let mut out = vec![FILL; length + other];
            let less = length + other - 1;
            let answer = compare_with(&[], &dict, c, d, &mut out[..less]);
            assert_eq!(answer, seven.map(|()| Comparison::Contained));
            assert!(out.iter().all(|&byte| byte == FILL));
            assert!(compare_with(&[], &dict, c, d, &mut out).is_ok());
        }
    }
    // 17 blocks that stand for nothing.
    refused_everywhere(&dict, 2, &encode(&vec![named(0, 1); 1009]), 1, 0);
    assert_eq!(
        unfolded(&dict, &encode(&vec![named(0, 1); 1008])),
        Ok(vec![])
    );
}

/// What a call answers and what its output holds afterwards.
type Outcome<T> = (Result<T, Refusal>, Vec<u8>);

fn outcome<T>(length: usize, call: impl Fn(&mut [u8]) -> Result<T, Refusal>) -> Outcome<T> {
    let mut out = vec![FILL; length];
    let answer = call(&mut out);
    (answer, out)
}

/// All answers and written bytes are those for the unfolded descriptions
/// (D8).
fn the_same(pairs: &[u8], dict: &[u8], s: &[u8], c: &[u8], d: &[u8]) {
    let [plain_c, plain_d] = [c, d].map(|bytes| encode(&unfolded(dict, bytes).unwrap()));
    let (one, both) = (plain_c.len(), plain_c.len() + plain_d.len());
    for length in [0, one - 1, one, both - 1, both, both + 700] {
        assert_eq!(
            outcome(length, |out| normal_with(pairs, dict, c, out)),
            outcome(length, |out| normal_with(pairs, &[], &plain_c, out))
        );
        assert_eq!(
            outcome(length, |out| compare_with(pairs, dict, c, d, out)),
            outcome(length, |out| compare_with(
                pairs,
                &[],
                &plain_c,
                &plain_d,
                out
            ))
        );
    }
    assert_eq!(
        fit_with(pairs, dict, s, d),
        fit_with(pairs, &[], s, &plain_d)
    );
}

#[test]
fn all_calls_equal_those_for_the_unfolded_ones() {
    let mut chance = Chance::from(83);
    let (mut contained, mut later) = (0, 0);
    for round in 0..800 {
        let size = Size {
            links_after: [0, 32_766][round % 2],
            entries: [4, 12][round / 2 % 2],
            ..SMALL
        };
        let pairs = list(&[(1, 2)][..round / 4 % 2]);
        let count = 1 + chance.below(4);
        let dict = laid_end_to_end(&drawn_dictionary(&mut chance, size, count));
        let [c, d] = [(); 2].map(|()| encode(&drawn(&mut chance, size, count)));
        let s = encode(&specimen(&mut chance, size));
        the_same(&pairs, &dict, &s, &c, &d);
        let mut out = vec![0; 40 * 512];
        match compare_with(&pairs, &dict, &c, &d, &mut out).unwrap() {
            Comparison::Contained => contained += 1,
            Comparison::NotContained { entry, .. } => later += usize::from(entry > 1),
        }
        // A description and what it unfolds to are contained in each other.
        let plain = encode(&unfolded(&dict, &c).unwrap());
        for (c, d) in [(&c, &plain), (&plain, &c)] {
            let answer = compare_with(&pairs, &dict, c, d, &mut out);
            assert_eq!(answer, Ok(Comparison::Contained));
        }
    }
    assert!(contained > 100 && later > 100, "{contained} {later}");
}

/// The numbers in an answer are those of the unfolded description.
#[test]
fn numbers_in_answers() {
    let dict = dictionary(&["1,7; 5,1 [1,8]", "", "9,1; 4,2,3"]);
    let compared = |c: &str, d: &str| {
        let mut out = vec![FILL; 4096];
        let answer = compare_with(&[], &dict, &blocks(c), &blocks(d), &mut out);
        (answer.unwrap(), out)
    };
    for (c, d, number, specimen) in [
        ("9,1", "9,3", 4, "1,7; 7,2,3"),
        ("9,1", "9,2; 9,2; 9,1; 1,9", 4, "1,7"),
        ("9,2", "9,1", 1, ""),
        ("1,7", "9,1; 1,9", 3, "1,7; 7,1"),
        ("9,3", "5,3 [9,2; 9,3]", 2, "1,7; 7,3"),
    ] {
        let (answer, out) = compared(c, d);
        let specimen = entries(specimen);
        let (entry, entries) = (number, specimen.len());
        assert_eq!(
            answer,
            Comparison::NotContained { entry, entries },
            "{c} / {d}"
        );
        assert_eq!(out[..512], encode(&specimen));
        assert!(out[512..].iter().all(|&byte| byte == FILL));
    }
    assert_eq!(compared("9,3", "9,1; 9,2; 9,3").0, Comparison::Contained);
    let mut out = vec![FILL; 512];
    let normal = normal_with(&[], &dict, &blocks("9,3; 5,1 [2,8]; 9,1"), &mut out);
    assert_eq!(normal, Ok(3));
    assert_eq!(out, blocks("1,7; 4,1,0; 4,2,3"));
}

/// An item meets a named entry where it fits what it stands for (D5), by
/// hand.
#[test]
fn what_a_name_means() {
    let mut record = Record::of_items(3);
    record.add_property(Property(7), 0);
    record.add_property(Property(7), 1);
    record.add_link(Link(1), 0, 1);
    record.add_link(Link(1), 1, 2);
    let named = ["1,7", "5,1 [9,1]", "", "6", "9,1; 9,2"].map(entries);
    let fitting = |text: &str| {
        let entries = entries(text);
        [0, 1, 2].map(|item| fits_named(&record, item, &named, &entries, 0))
    };
    assert_eq!(fitting("9,1"), [true, true, false]);
    assert_eq!(fitting("9,2"), [true, false, true]);
    assert_eq!(fitting("9,3"), [true, true, true]);
    assert_eq!(fitting("9,4"), [false, false, false]);
    assert_eq!(fitting("9,5"), [true, false, false]);
    assert_eq!(fitting("5,1 [9,2]"), [false, true, true]);
    assert_eq!(fitting("5,1 [9,4]"), [false, false, true]);
    assert_eq!(fitting("3,1,1; 9,3"), [true, true, false]);
    // A name that is not there, or not earlier in the dictionary.
    assert_eq!(fitting("9,0"), [false; 3]);
    assert_eq!(fitting("9,6"), [false; 3]);
    let round = ["9,2", "9,1", "9,3"].map(entries);
    for text in ["9,1", "9,2", "9,3"] {
        assert!(!fits_named(&record, 0, &round, &entries(text), 0));
    }
}

/// The unfolded description means the same (D7): the same items fit, in each
/// of these records.
fn same_meaning(records: &[Record], named: &[Vec<Entry>], before: &[Entry]) -> usize {
    let after = unfolded(&laid_end_to_end(named), &encode(before)).unwrap();
    let mut fitted = 0;
    for record in records {
        for item in 0..record.items {
            let fit = fits_named(record, item, named, before, 0);
            assert_eq!(fits(record, item, &after, 0), fit, "{named:?} {before:?}");
            fitted += usize::from(fit);
        }
    }
    fitted
}

/// Each description of up to two entries as the one named, in all records of
/// two items, one property and one link.
#[test]
fn the_meaning_in_all_small_records() {
    let records = all_records(2, 1, &[Link(1)]);
    let mut fitted = 0;
    for named in every_tiny_description(1, 1) {
        for text in [
            "9,1",
            "5,1 [9,1]",
            "9,1; 9,1",
            "2,1; 9,1; 3,1,1",
            "5,1 [5,1 [9,1]; 9,1; 1,1]; 9,1",
        ] {
            fitted += same_meaning(&records, std::slice::from_ref(&named), &entries(text));
        }
        for second in ["9,1; 5,1 [9,1]", "5,1 [3,1,1; 5,1 [9,1]]"] {
            let both = [named.clone(), entries(second)];
            fitted += same_meaning(&records, &both, &entries("9,2; 5,1 [9,2; 9,1]"));
        }
    }
    assert!(fitted > 1000, "{fitted}");
}

#[test]
fn the_meaning_of_drawn_descriptions() {
    let mut chance = Chance::from(84);
    let mut fitted = 0;
    for round in 0..400 {
        let size = Size {
            links_after: [0, 32_766][round % 2],
            ..SMALL
        };
        let count = 1 + chance.below(4);
        let named = drawn_dictionary(&mut chance, size, count);
        let before = drawn(&mut chance, size, count);
        let records: Vec<Record> = (0..15)
            .map(|_| {
                let items = 1 + chance.below(4);
                record(&mut chance, size, items)
            })
            .collect();
        fitted += same_meaning(&records, &named, &before);
    }
    assert!(fitted > 1000, "{fitted}");
}

/// The fit answer is the meaning, in the specimen's record.
#[test]
fn the_fit_answer_is_the_meaning() {
    let mut chance = Chance::from(85);
    let (mut yes, mut no) = (0, 0);
    for _ in 0..1500 {
        let count = 1 + chance.below(3);
        let named = drawn_dictionary(
            &mut chance,
            Size {
                entries: 3,
                ..SMALL
            },
            count,
        );
        let description = drawn(
            &mut chance,
            Size {
                entries: 3,
                ..SMALL
            },
            count,
        );
        let specimen = specimen(&mut chance, SMALL);
        let record = reference::record::specimen_record(&specimen);
        let dict = laid_end_to_end(&named);
        let answer = fit_with(&[], &dict, &encode(&specimen), &encode(&description));
        let answer = answer.unwrap();
        assert_eq!(answer, fits_named(&record, 0, &named, &description, 0));
        yes += usize::from(answer);
        no += usize::from(!answer);
    }
    assert!(yes > 300 && no > 300, "{yes} {no}");
}

/// The program passes no pairs and a dictionary of length 0 (D10): in the
/// calls with no dictionary each name is above the count, and what is wrong
/// otherwise is 4.
#[test]
fn the_calls_with_no_dictionary() {
    let (good, mut out) = (blocks("1,1"), vec![FILL; 2048]);
    for (e, number) in [
        (named(0, 0), 13),
        (named(0, 1), 13),
        (named(0, 65_535), 13),
        (named(7, 1), 13),
        (entry(9, 0, 1, 1), 4),
    ] {
        let bytes = encode(&[entry(1, 0, 1, 0), e]);
        let due = |input| Err(refusal(number, input, 2));
        assert_eq!(fit(&good, &bytes), due(2).map(|()| true));
        assert_eq!(normal_form(&bytes, &mut out), due(1).map(|()| 0));
        let answer = compare(&bytes, &good, &mut out);
        assert_eq!(answer, due(1).map(|()| Comparison::Contained));
        let answer = compare(&good, &bytes, &mut out);
        assert_eq!(answer, due(2).map(|()| Comparison::Contained));
        refused_everywhere(&[], 0, &bytes, number, 2);
        let printed = |input: &[&[u8]]| run_program(&input.concat());
        let first = printed(&[&bytes, &good]);
        assert_eq!(first, format!("refused {number} input 1 place 2\n"));
        let second = printed(&[&good, &bytes]);
        assert_eq!(second, format!("refused {number} input 2 place 2\n"));
    }
    assert!(out.iter().all(|&byte| byte == FILL));
}

/// The readers take no dictionary at all, not even one of length 0: kind 9 is
/// a kind that may not stand there (R4) there.
#[test]
fn the_readers() {
    for e in [named(0, 0), named(0, 1), named(9, 1), entry(9, 0, 1, 1)] {
        let bytes = encode(&[entry(1, 0, 1, 0), e]);
        assert_eq!(read_description(&bytes), Err(refusal(4, 1, 2)));
        assert_eq!(read_specimen(&bytes), Err(refusal(4, 1, 2)));
    }
}

/// Kinds 1 to 6 in descriptions, 1 and 7 in specimens (E4): kind 9 in a
/// specimen is 4, with any dictionary.
#[test]
fn specimens_name_nothing() {
    for dict in [vec![], blocks("1,7"), dictionary(&["1,7", "9,1"])] {
        for e in [named(0, 1), named(0, 0), named(9, 2), entry(9, 0, 1, 1)] {
            let bytes = encode(&[entry(1, 0, 1, 0), e]);
            let answer = fit_with(&[], &dict, &bytes, &blocks("8"));
            assert_eq!(answer, Err(refusal(4, 1, 2)));
        }
    }
}

/// A dictionary that nothing names alters no answer.
#[test]
fn a_dictionary_that_nothing_names() {
    let mut chance = Chance::from(86);
    for _ in 0..200 {
        let dict = laid_end_to_end(&drawn_dictionary(&mut chance, SMALL, 3));
        let [c, d] = [(); 2].map(|()| encode(&description(&mut chance, SMALL)));
        let s = encode(&specimen(&mut chance, SMALL));
        let length = c.len() + d.len();
        assert_eq!(fit_with(&[], &dict, &s, &d), fit(&s, &d));
        assert_eq!(
            outcome(length, |out| normal_with(&[], &dict, &c, out)),
            outcome(length, |out| normal_form(&c, out))
        );
        assert_eq!(
            outcome(length, |out| compare_with(&[], &dict, &c, &d, out)),
            outcome(length, |out| compare(&c, &d, out))
        );
    }
}

/// The blocks with a few bytes changed, and the checks put right or not.
pub fn spoilt(chance: &mut Chance, mut bytes: Vec<u8>) -> Vec<u8> {
    for _ in 0..chance.below(3) {
        let at = match chance.below(3) {
            0 => chance.below(bytes.len().max(1)),
            _ => 512 * chance.below(bytes.len() / 512 + 1) + chance.below(40),
        };
        if let Some(byte) = bytes.get_mut(at) {
            *byte = chance.one_of(&[0, 1, 2, 3, 5, 9, 9, 64, 255]);
        }
    }
    if chance.once_in(12) {
        bytes.truncate(chance.below(bytes.len() + 1));
    }
    if chance.once_in(6) {
        return bytes;
    }
    with_checks(bytes)
}

/// Inputs and dictionaries with a few bytes changed: no call panics, refusals
/// agree and come in order, and outputs of refused calls stay.
#[test]
fn any_bytes_at_all() {
    let mut chance = Chance::from(87);
    let mut numbers = std::collections::BTreeSet::new();
    for _ in 0..4000 {
        let count = chance.below(5);
        let dict = laid_end_to_end(&drawn_dictionary(&mut chance, SMALL, count));
        let dict = spoilt(&mut chance, dict);
        let [c, d] = [(); 2].map(|()| {
            let bytes = encode(&drawn(&mut chance, SMALL, count));
            spoilt(&mut chance, bytes)
        });
        let of_dict = unfolded(&dict, &blocks("")).err();
        let of_c = unfolded(&dict, &c).err();
        let of_d = unfolded(&dict, &d).err();
        assert!(of_dict.is_none() || (of_c == of_dict && of_d == of_dict));
        let second = |refusal: Refusal| match of_dict {
            Some(_) => refusal,
            None => Refusal {
                input: 2,
                ..refusal
            },
        };
        let due = of_c.or(of_d.map(second));
        let length = 512 * 40;
        let (answer, out) = outcome(length, |out| compare_with(&[], &dict, &c, &d, out));
        assert_eq!(answer.err(), due);
        assert!(answer.is_ok() || out.iter().all(|&byte| byte == FILL));
        let (answer, out) = outcome(length, |out| normal_with(&[], &dict, &c, out));
        assert_eq!(answer.err(), of_c);
        assert!(answer.is_ok() || out.iter().all(|&byte| byte == FILL));
        let answer = fit_with(&[], &dict, &blocks("1,1"), &d);
        assert_eq!(answer.err(), of_d.map(second));
        numbers.extend(due.map(|refusal| refusal.number));
    }
    for number in [1, 2, 3, 4, 5, 13] {
        assert!(numbers.contains(&number), "{number}");
    }
}
