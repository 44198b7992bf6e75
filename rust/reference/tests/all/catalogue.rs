//! All services in one call: each clause.

use std::collections::BTreeSet;

use reference::{catalogue, compare_with, encode, Comparison, Entry, Refusal};

use crate::chance::{exact_description, Chance, Size};
use crate::naming::{chain, drawn, drawn_dictionary, named, refusal, spoilt};
use crate::notation::{blocks, entry, laid_end_to_end, list, unfolded, FILL};
use crate::refusals::with_checks;

const SMALL: Size = Size {
    entries: 5,
    properties: 2,
    links_after: 0,
    links: 2,
    number: 2,
};

/// The bytes of a list of services.
fn services(texts: &[&str]) -> Vec<u8> {
    texts.iter().flat_map(|text| blocks(text)).collect()
}

/// Calls the catalogue with an output longer than needed, checks the number
/// answered and the bytes that stay, and gives the bytes filled.
fn filled(pairs: &[u8], dict: &[u8], c: &[u8], list: &[u8]) -> Result<Vec<u8>, Refusal> {
    let mut out = vec![FILL; 100];
    let answer = catalogue(pairs, dict, c, list, &mut out);
    let count = answer.unwrap_or(0);
    assert!(out[..count].iter().all(|&byte| byte <= 1));
    assert!(out[count..].iter().all(|&byte| byte == FILL));
    answer.map(|count| out[..count].to_vec())
}

/// The refusal of a list, at all lengths of the output, which stays; the
/// supplier and the dictionary are right.
fn refused(pairs: &[u8], dict: &[u8], list: &[u8], due: Refusal) {
    let mut out = vec![FILL; 700];
    for length in [0, 1, 63, 64, 65, 700] {
        for c in ["", "1,1", "6"] {
            let answer = catalogue(pairs, dict, &blocks(c), list, &mut out[..length]);
            assert_eq!(answer, Err(due));
        }
    }
    assert!(out.iter().all(|&byte| byte == FILL));
}

/// A byte for each service: 1 for contained, 0 for not (L3).
#[test]
fn by_hand() {
    for (c, texts, due) in [
        ("", &[""][..], &[1][..]),
        ("", &["6"], &[0]),
        ("1,7", &["1,7", "1,8", "", "2,8"], &[1, 0, 1, 0]),
        ("3,1,2; 4,1,2", &["3,1,2", "3,1,3", "4,1,2"], &[1, 0, 1]),
        ("3,1,3; 4,1,2", &["6", "1,1; 2,1", "5,1 [6]"], &[1, 1, 1]),
        ("5,1 [6]", &["4,1,0", "4,1,1", "4,2,0"], &[1, 1, 0]),
        (
            "4,1,0",
            &["5,1 [6]", "5,1 [5,2 [6]]", "5,2 [6]"],
            &[1, 1, 0],
        ),
        ("1,1", &["4,32768,1", "4,32767,1"], &[1, 0]),
        // The same service again, and the supplier itself.
        (
            "1,7",
            &["1,7", "1,7", "1,8", "1,8", "1,7"],
            &[1, 1, 0, 0, 1],
        ),
    ] {
        let found = filled(&[], &[], &blocks(c), &services(texts));
        assert_eq!(found, Ok(due.to_vec()), "{c} / {texts:?}");
    }
}

/// The desk examples that compare one C with one D, as lists.
#[test]
fn the_desk_examples() {
    for (c, d, due) in [
        ("", "", 1),
        ("1,7", "1,7", 1),
        ("5,1 [3,2,1]", "5,1 [3,2,1; 4,2,1]", 0),
        ("5,1 [5,2 [6]; 3,2,1]", "5,1 [1,9]", 1),
        ("", "5,3 [3,1,0]", 1),
        ("", "5,1 []", 1),
        ("3,1,2; 4,1,2", "3,1,2", 1),
        ("3,1,2; 4,1,2", "3,1,3", 0),
        ("", "4,1,65535", 0),
        ("1,7", "2,8", 0),
        ("4,1,0", "5,1 [6]", 1),
        ("5,1 [6]", "4,1,0", 1),
        ("", "6", 0),
    ] {
        for count in [1, 2, 64] {
            let list = services(&vec![d; count]);
            let found = filled(&[], &[], &blocks(c), &list);
            assert_eq!(found, Ok(vec![due; count]), "{c} / {d}");
        }
    }
}

/// The byte of the single comparison, with an output that is long enough.
fn single(pairs: &[u8], dict: &[u8], c: &[u8], d: &[u8]) -> u8 {
    let mut out = vec![0; 32 * 512];
    let answer = compare_with(pairs, dict, c, d, &mut out);
    u8::from(answer.unwrap() == Comparison::Contained)
}

/// Each byte is the single comparison's (L4), under lists of pairs and with
/// dictionaries, and equals that of the unfolded ones with none.
#[test]
fn each_byte_is_the_single_comparison() {
    let mut chance = Chance::from(101);
    let mut bytes = [0, 0];
    for round in 0..400 {
        let size = Size {
            links_after: [0, 32_766][round % 2],
            entries: [3, 5, 12][round % 3],
            ..SMALL
        };
        let pairs = list(&[(1, 2)][..round / 4 % 2]);
        let names = chance.below(4);
        let dict = laid_end_to_end(&drawn_dictionary(&mut chance, size, names));
        let c = encode(&drawn(&mut chance, size, names));
        let count = 1 + chance.below(12);
        let all: Vec<Vec<u8>> = (0..count)
            .map(|_| encode(&drawn(&mut chance, size, names)))
            .collect();
        let found = filled(&pairs, &dict, &c, &all.concat()).unwrap();
        let due: Vec<u8> = all.iter().map(|d| single(&pairs, &dict, &c, d)).collect();
        assert_eq!(found, due);
        let plain = |bytes: &Vec<u8>| encode(&unfolded(&dict, bytes).unwrap());
        let all_plain: Vec<Vec<u8>> = all.iter().map(plain).collect();
        assert_eq!(
            filled(&pairs, &[], &plain(&c), &all_plain.concat()),
            Ok(found.clone())
        );
        for byte in found {
            bytes[usize::from(byte)] += 1;
        }
    }
    assert!(bytes[0] > 500 && bytes[1] > 500, "{bytes:?}");
}

/// A list of excluding pairs counts: the catalogue takes a list (S14).
#[test]
fn under_a_list_of_pairs() {
    let texts = services(&["2,2", "2,1", "1,1; 2,2", "5,1 [2,2]", "6"]);
    let under = |pairs: &[(u16, u16)], c: &str| filled(&list(pairs), &[], &blocks(c), &texts);
    assert_eq!(under(&[], "1,1"), Ok(vec![0, 0, 0, 0, 0]));
    assert_eq!(under(&[(1, 2)], "1,1"), Ok(vec![1, 0, 1, 0, 0]));
    assert_eq!(under(&[(2, 1)], "1,1; 5,1 [1,1]"), Ok(vec![1, 0, 1, 1, 0]));
    assert_eq!(under(&[(1, 2)], "1,1; 1,2"), Ok(vec![1, 1, 1, 1, 1]));
    assert_eq!(under(&[], "1,1; 1,2"), Ok(vec![0, 0, 0, 0, 0]));
}

/// So does a dictionary.
#[test]
fn with_a_dictionary() {
    let dict = services(&["1,7; 5,1 [1,8]", "", "9,1; 4,2,3"]);
    let texts = services(&["9,1", "9,2", "9,3", "1,7; 9,1", "5,1 [9,1]", "9,3; 4,2,4"]);
    let with = |c: &str| filled(&[], &dict, &blocks(c), &texts);
    assert_eq!(with("9,1"), Ok(vec![1, 1, 0, 1, 0, 0]));
    assert_eq!(with("9,2; 9,2"), Ok(vec![0, 1, 0, 0, 0, 0]));
    assert_eq!(with("9,3"), Ok(vec![1, 1, 1, 1, 0, 1]));
    assert_eq!(with("4,1,0; 9,3"), Ok(vec![1, 1, 1, 1, 1, 1]));
    // With one of length 0 each name is above the count.
    let answer = filled(&[], &[], &blocks("1,7"), &texts);
    assert_eq!(answer, Err(refusal(13, 2, 1)));
}

/// 1 for a list of length 0 or no multiple of 512 (L6), before 8.
#[test]
fn number_1_of_the_list() {
    refused(&[], &[], &[], refusal(1, 2, 0));
    let long = vec![FILL; 512 * 70 + 1];
    for length in [
        1,
        2,
        511,
        513,
        1023,
        512 * 64 - 1,
        512 * 64 + 1,
        512 * 70 + 1,
    ] {
        refused(&[], &[], &long[..length], refusal(1, 2, 0));
    }
    let part = [vec![blocks(""); 65].concat(), vec![1]].concat();
    refused(&[], &[], &part, refusal(1, 2, 0));
    refused(&[], &[], &part[..part.len() - 2], refusal(1, 2, 0));
}

/// 8 for more than 64 services, before their own checks (L6).
#[test]
fn number_8() {
    let good = blocks("1,1");
    for count in [1, 2, 63, 64] {
        let list = vec![blocks("1,1"); count].concat();
        assert_eq!(filled(&[], &[], &good, &list), Ok(vec![1; count]));
    }
    for count in [65, 66, 129, 1000] {
        for text in ["1,1", "8", "9,1"] {
            refused(
                &[],
                &[],
                &vec![blocks(text); count].concat(),
                refusal(8, 2, 0),
            );
        }
        // The stored number decides, whatever the checks are.
        let mut wrong = vec![0; 512];
        wrong[0] = 1;
        refused(&[], &[], &vec![wrong; count].concat(), refusal(8, 2, 0));
    }
}

/// Each block numbered 1 begins a description (L1).
#[test]
fn where_services_begin() {
    let renumbered = |number: u16| {
        let mut block = blocks("1,1");
        block[..2].copy_from_slice(&number.to_le_bytes());
        with_checks(block)
    };
    let full = encode(&[entry(1, 0, 1, 0); 63]);
    // A first block of another number begins the first service.
    for number in [0, 2, 257, 65_535] {
        refused(&[], &[], &renumbered(number), refusal(3, 2, 1));
        let two = [renumbered(number), blocks("8")].concat();
        refused(&[], &[], &two, refusal(3, 2, 1));
    }
    // A later block of another number belongs to the service before it.
    for number in [0, 3, 256, 257, 65_535] {
        let list = [blocks(""), full.clone(), renumbered(number), blocks("")].concat();
        refused(&[], &[], &list, refusal(3, 3, 2));
    }
    // One service of two blocks; two services of one; three with one between.
    let good = blocks("1,1");
    let found = |list: &[&[u8]]| filled(&[], &[], &good, &list.concat());
    let second = renumbered(2);
    assert_eq!(found(&[&full, &second]), Ok(vec![1]));
    assert_eq!(found(&[&full, &renumbered(1)]), Ok(vec![1, 1]));
    let three = found(&[&blocks("1,2"), &full, &second, &blocks("6")]);
    assert_eq!(three, Ok(vec![0, 1, 0]));
    // One that is cut short by a block numbered 1.
    let list = [full, renumbered(1), second].concat();
    refused(&[], &[], &list, refusal(3, 3, 1));
}

/// The n-th service is input 1 + n (L5), each service in full, its 14
/// included, before the next.
#[test]
fn the_services_own_checks() {
    let full = vec![entry(1, 0, 7, 0); 1008];
    let dict = laid_end_to_end(&[full, vec![]]);
    let mut wrong = encode(&[entry(1, 0, 1, 0); 70]);
    wrong[1000] ^= 1;
    for (bytes, number, place) in [
        (encode(&vec![entry(1, 0, 1, 0); 1009]), 1, 0),
        (encode(&vec![named(0, 2); 1009]), 1, 0),
        (wrong.clone(), 2, 2),
        (with_checks(wrong), 3, 2),
        (blocks("1,1; 8"), 4, 2),
        (blocks("1,1; 7,1"), 4, 2),
        (blocks("9,1,1"), 4, 1),
        (blocks("1,1; 9,3"), 13, 2),
        (blocks("9"), 13, 1),
        (encode(&[named(0, 1), entry(1, 1, 1, 0)]), 5, 2),
        (encode(&[chain(33), vec![named(33, 2)]].concat()), 6, 34),
        (encode(&[named(0, 1), entry(1, 0, 1, 0)]), 14, 0),
        (encode(&[named(0, 1), named(0, 1), named(0, 3)]), 13, 3),
    ] {
        for before in [0, 1, 2, 30, 63] {
            let due = refusal(number, 2 + before as u16, place);
            let first = vec![blocks("9,2; 1,1"); before].concat();
            refused(&[], &dict, &[&first[..], &bytes].concat(), due);
            if before < 63 {
                let after = [&first[..], &bytes, &blocks("8")].concat();
                refused(&[], &dict, &after, due);
            }
        }
    }
}

/// 11; the dictionary; the supplier in full; 1 and 8 of the list; the services;
/// 7: each with all that comes later wrong too.
#[test]
fn the_order() {
    let over = laid_end_to_end(&[vec![entry(1, 0, 7, 0); 1008]]);
    let good = blocks("1,1");
    let too_many = vec![blocks("8"); 65].concat();
    let twice = blocks("9,1; 9,1");
    let lists = [
        vec![],
        vec![1],
        too_many,
        blocks("8"),
        vec![good.clone(); 3].concat(),
    ];
    for list in &lists {
        for c in [&good, &blocks("8"), &vec![]] {
            let mut out = [FILL; 2];
            let eleven = catalogue(&[1], &[1], c, list, &mut out);
            assert_eq!(eleven, Err(refusal(11, 0, 0)));
            let eleven = catalogue(&[1, 0, 1, 0], &blocks("8"), c, list, &mut out);
            assert_eq!(eleven, Err(refusal(11, 0, 1)));
            let dict = [&over[..], &twice].concat();
            let fourteen = catalogue(&[], &dict, c, list, &mut out);
            assert_eq!(fourteen, Err(refusal(14, 102, 0)));
            assert_eq!(out, [FILL; 2]);
        }
        for (c, number, place) in [
            (vec![], 1, 0),
            (vec![1; 512], 2, 1),
            (blocks("1,1; 8"), 4, 2),
            (blocks("1,1; 9,2"), 13, 2),
            (encode(&[entry(1, 1, 1, 0)]), 5, 1),
            (twice.clone(), 14, 0),
        ] {
            let mut out = [FILL; 2];
            let answer = catalogue(&[], &over, &c, list, &mut out);
            assert_eq!(answer, Err(refusal(number, 1, place)));
            assert_eq!(out, [FILL; 2]);
        }
    }
    let due = [
        refusal(1, 2, 0),
        refusal(1, 2, 0),
        refusal(8, 2, 0),
        refusal(4, 2, 1),
        refusal(7, 0, 0),
    ];
    for (list, due) in lists.iter().zip(due) {
        let mut out = [FILL; 2];
        assert_eq!(catalogue(&[], &over, &good, list, &mut out), Err(due));
        assert_eq!(out, [FILL; 2]);
    }
}

/// 7 last, for fewer bytes than services (L7); later bytes stay.
#[test]
fn number_7() {
    for count in [1, 2, 3, 63, 64] {
        for text in ["1,1", "1,2"] {
            let list = vec![blocks(text); count].concat();
            let due = u8::from(text == "1,1");
            for length in [0, 1, count - 1, count, count + 1, 64, 65, 1000] {
                let mut out = vec![FILL; length];
                let answer = catalogue(&[], &[], &blocks("1,1"), &list, &mut out);
                let kept = if length < count {
                    assert_eq!(answer, Err(refusal(7, 0, 0)));
                    0
                } else {
                    assert_eq!(answer, Ok(count));
                    count
                };
                assert!(out[..kept].iter().all(|&byte| byte == due));
                assert!(out[kept..].iter().all(|&byte| byte == FILL));
            }
        }
    }
    // Long descriptions need no more.
    let long = encode(&vec![entry(1, 0, 1, 0); 1008]);
    let mut out = [FILL; 2];
    let list = [&long[..], &long].concat();
    assert_eq!(catalogue(&[], &[], &long, &list, &mut out), Ok(2));
    assert_eq!(out, [1, 1]);
}

/// 64 services of 1,008 entries against a supplier of 1,008 entries.
#[test]
fn the_largest_lists() {
    let mut chance = Chance::from(102);
    let wide = Size {
        entries: 1008,
        properties: 60_000,
        links_after: 0,
        links: 30_000,
        number: 60_000,
    };
    let possible = |entries: Vec<Entry>| -> Vec<Entry> {
        let other = |e: Entry| match e.kind {
            6 => entry(5, e.owner, 1, 0),
            _ => e,
        };
        entries.into_iter().map(other).collect()
    };
    let c = possible(exact_description(&mut chance, wide, 1008));
    let all: Vec<Vec<u8>> = (0..64)
        .map(|at: usize| {
            let mut d = c.clone();
            if at % 2 == 1 {
                let last = d.len() - 1;
                d[last] = entry(1, 0, 60_001, 0);
            }
            encode(&d)
        })
        .collect();
    let found = filled(&[], &[], &encode(&c), &all.concat()).unwrap();
    assert_eq!(found, [1, 0].repeat(32));
    for (d, byte) in all.iter().zip(found).take(4) {
        assert_eq!(single(&[], &[], &encode(&c), d), byte);
    }
}

/// Inputs, lists and dictionaries with a few bytes changed: no panic, the
/// refusal is the one that single comparisons give first, and a refused call
/// leaves every byte.
#[test]
fn any_bytes_at_all() {
    let mut chance = Chance::from(103);
    let mut seen = BTreeSet::new();
    for _ in 0..4000 {
        let names = chance.below(4);
        let dict = laid_end_to_end(&drawn_dictionary(&mut chance, SMALL, names));
        let dict = if chance.once_in(4) {
            spoilt(&mut chance, dict)
        } else {
            dict
        };
        let c = encode(&drawn(&mut chance, SMALL, names));
        let c = if chance.once_in(4) {
            spoilt(&mut chance, c)
        } else {
            c
        };
        let all: Vec<Vec<Entry>> = (0..1 + chance.below(4))
            .map(|_| drawn(&mut chance, SMALL, names))
            .collect();
        let list = spoilt(&mut chance, laid_end_to_end(&all));
        let length = chance.below(6);
        let mut out = vec![FILL; length];
        let answer = catalogue(&[], &dict, &c, &list, &mut out);
        let due = one_by_one(&dict, &c, &list, length);
        match due {
            Ok(bytes) => {
                assert_eq!(answer, Ok(bytes.len()));
                assert_eq!(out[..bytes.len()], bytes);
                assert!(out[bytes.len()..].iter().all(|&byte| byte == FILL));
            }
            Err(refusal) => {
                assert_eq!(answer, Err(refusal));
                assert!(out.iter().all(|&byte| byte == FILL));
                seen.insert((refusal.number, refusal.input));
            }
        }
    }
    for number in [1, 2, 3, 4, 5, 13] {
        for input in [1, 2] {
            assert!(seen.contains(&(number, input)), "{number} {input}");
        }
    }
    for (number, input) in [(7, 0), (4, 3), (4, 4), (13, 3), (4, 101), (13, 102)] {
        assert!(seen.contains(&(number, input)), "{number} {input}");
    }
}

/// The catalogue by single comparisons, for lists of at most 64 services.
fn one_by_one(dict: &[u8], c: &[u8], list: &[u8], length: usize) -> Result<Vec<u8>, Refusal> {
    // The dictionary and the supplier.
    unfolded(dict, c)?;
    if list.is_empty() || !list.len().is_multiple_of(512) {
        return Err(refusal(1, 2, 0));
    }
    let mut services: Vec<Vec<u8>> = Vec::new();
    for block in list.chunks(512) {
        match services.last_mut() {
            Some(service) if block[..2] != [1, 0] => service.extend(block),
            _ => services.push(block.to_vec()),
        }
    }
    let mut bytes = Vec::new();
    for (input, service) in (2..).zip(&services) {
        let own = |refusal: Refusal| Refusal { input, ..refusal };
        unfolded(dict, service).map_err(own)?;
        bytes.push(single(&[], dict, c, service));
    }
    if length < bytes.len() {
        return Err(refusal(7, 0, 0));
    }
    Ok(bytes)
}
