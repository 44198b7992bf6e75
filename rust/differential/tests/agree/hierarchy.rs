//! The catalogue as a hierarchy: drawn families, and sweeps over counts, lengths, numbers of blocks and the order of refusals.

use super::sweeps::{self, each_byte, four_services, laid};
use super::*;
use differential::catalogue::MOST_SERVICES;
use goltximen::hierarchy_bytes;
use reference::notation::blocks;

/// The answer of both to this list, with an output of this length.
fn hierarchy(pairs: &[u8], list: &[u8], length: usize) -> Answer {
    let chance = &mut Chance::from_seed(37);
    agreed(agree::hierarchy(chance, pairs, list, length))
}

/// The number, input and place of a refusal.
fn refused(pairs: &[u8], list: &[u8], length: usize) -> Option<(u8, u16, u16)> {
    hierarchy(pairs, list, length);
    let refusal = goltximen::hierarchy(pairs, list, &mut vec![0; length]).err()?;
    Some((refusal.reason.number(), refusal.input, refusal.place))
}

#[test]
fn families() {
    let run = made(200, Rounds::hierarchies);
    assert!(run.tally.count("hierarchy", "count") > 400);
    assert!(run.tally.count("hierarchy", "refused 7 input 0") > 300);
    assert!(run.tally.count("hierarchy", "refused 8 input 2") > 20);
    assert!(run.tally.count_listed("hierarchy", "count") > 100);
}

#[test]
fn lists_that_are_wrong() {
    let run = made(200, Rounds::wrong_hierarchies);
    for number in [2, 3, 4, 5] {
        for input in ["2", "2 + n"] {
            let answer = format!("refused {number} input {input}");
            assert!(run.tally.count("hierarchy", &answer) > 5, "{answer}");
        }
    }
    assert!(run.tally.count("hierarchy", "refused 6 input 2 + n") > 5);
    for answer in [
        "count",
        "refused 1 input 2",
        "refused 7 input 0",
        "refused 8 input 2",
        "refused 11 input 0",
    ] {
        assert!(run.tally.count("hierarchy", answer) > 20, "{answer}");
    }
}

/// One to 65 services of a chain with doubles, with outputs of all that is needed, a byte less, none and more bytes.
#[test]
fn each_count_and_length() {
    for count in [1, 2, 5, 12, 63, MOST_SERVICES, MOST_SERVICES + 1] {
        let service = |n: usize| encode(&vec![entry(3, 0, 7, (n / 2 * 3 % 65) as u16); 1 + n % 2]);
        let list: Vec<u8> = (0..count).flat_map(service).collect();
        let needed = hierarchy_bytes(count);
        for length in [needed, needed - 1, 0, needed + 1, 2 * needed] {
            let due = match (count > MOST_SERVICES, length < needed) {
                (true, _) => Answer::Refused(8, 2),
                (_, true) => Answer::Refused(7, 0),
                _ => Answer::Count(needed),
            };
            assert_eq!(hierarchy(&[], &list, length), due);
        }
    }
}

/// Each length of the output for three services.
#[test]
fn each_length_of_the_output() {
    let list = laid(&["1,7", "", "1,7; 1,8"]);
    for length in 0..30 {
        let due = match length {
            0..21 => Answer::Refused(7, 0),
            _ => Answer::Count(21),
        };
        assert_eq!(hierarchy(&[], &list, length), due);
    }
}

/// Each block of a list with each number that could begin, end or move a service.
#[test]
fn each_number_of_each_block() {
    sweeps::each_number_of_each_block(&four_services(), |list| {
        hierarchy(&[], list, hierarchy_bytes(6));
    });
}

/// Each byte of a list changed, with right checks and without.
#[test]
fn each_byte_of_a_list() {
    let list = laid(&["1,7; 5,1 [2,8]", "5,1 [1,7; 2,8]; 4,1,3", "1,7"]);
    each_byte(&list, |list| {
        hierarchy(&[7, 0, 8, 0], list, 22);
    });
}

/// Each length of a list, and each length of the last service.
#[test]
fn each_length_of_a_list() {
    sweeps::each_length_of_a_list(|list| hierarchy(&[], list, 21), hierarchy_bytes);
}

/// 16 blocks pass, 17 are 1 of that service; a name of any sort is 4; far longer lists.
#[test]
fn long_services_and_names() {
    let full = encode(&mixed(1008));
    let over = encode(&[entry(1, 0, 7, 0); 1009]);
    let named = encode(&[entry(1, 0, 7, 0), entry(9, 0, 1, 0)]);
    for before in [0, 1, 63] {
        let first = blocks("1,7").repeat(before);
        let with = |last: &[u8]| [&first[..], last].concat();
        let needed = hierarchy_bytes(before + 1);
        assert_eq!(hierarchy(&[], &with(&full), needed), Answer::Count(needed));
        let input = 2 + before as u16;
        assert_eq!(refused(&[], &with(&over), needed), Some((1, input, 0)));
        assert_eq!(refused(&[], &with(&named), needed), Some((4, input, 2)));
    }
    assert_eq!(refused(&[], &vec![0; 2000 * BLOCK], 64), Some((1, 2, 0)));
    let many = blocks("1,7").repeat(2000);
    assert_eq!(refused(&[], &many, 64), Some((8, 2, 0)));
}

/// 11; 1 and 8 of the list; the services; 7: each with each that comes later.
#[test]
fn the_order_of_refusals() {
    let (good, bad) = (blocks("1,7"), blocks("1,7; 8"));
    let lists = [
        (Vec::new(), Some((1, 2, 0))),
        (vec![1; 100], Some((1, 2, 0))),
        (bad.repeat(65), Some((8, 2, 0))),
        ([&good[..], &good, &bad].concat(), Some((4, 4, 2))),
        (good.repeat(3), None),
    ];
    for (pairs, of_pairs) in [(&[7, 0, 7, 0][..], Some((11, 0, 1))), (&[7, 0, 8, 0], None)] {
        for ((list, of_list), length) in lists.iter().flat_map(|l| [(l, 20), (l, 21)]) {
            let short = (length < 21).then_some((7, 0, 0));
            let due = of_pairs.or(*of_list).or(short);
            assert_eq!(refused(pairs, list, length), due);
        }
    }
}
