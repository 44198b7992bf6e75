//! All services in one call: drawn lists, and sweeps over counts, lengths, numbers of blocks and the order of refusals.

use super::sweeps::{self, each_byte, four_services, laid};
use super::*;
use differential::catalogue::{cut, MOST_SERVICES};
use differential::naming::named;
use differential::MOST_DESCRIPTION;
use reference::notation::blocks;

/// The answer of both to this list, with an output of this length.
fn catalogue(under: Under, c: &[u8], list: &[u8], length: usize) -> Answer {
    let chance = &mut Chance::from_seed(31);
    agreed(agree::catalogue(chance, under, c, list, length))
}

/// The number, input and place of a refusal.
fn refused(under: Under, c: &[u8], list: &[u8], length: usize) -> Option<(u8, u16, u16)> {
    catalogue(under, c, list, length);
    let refusal = under.catalogue(c, list, &mut vec![0; length]).err()?;
    Some((refusal.reason.number(), refusal.input, refusal.place))
}

#[test]
fn lists_drawn_for_a_description() {
    let run = made(300, Rounds::catalogues);
    assert!(run.tally.count("catalogue", "count") > 500);
    assert!(run.tally.count("catalogue", "refused 7 input 0") > 300);
    assert!(run.tally.count("catalogue", "refused 8 input 2") > 80);
    assert!(run.tally.count_named("catalogue", "count") > 100);
    assert!(run.tally.count_listed("catalogue", "count") > 200);
}

#[test]
fn lists_that_are_wrong() {
    let run = made(300, Rounds::wrong_lists_of_services);
    for number in [2, 3, 4, 5, 13] {
        for input in ["1", "2", "2 + n"] {
            let answer = format!("refused {number} input {input}");
            assert!(run.tally.count("catalogue", &answer) > 5, "{answer}");
        }
    }
    for answer in [
        "count",
        "refused 1 input 2",
        "refused 1 input 2 + n",
        "refused 6 input 2 + n",
        "refused 7 input 0",
        "refused 8 input 2",
    ] {
        assert!(run.tally.count("catalogue", answer) > 20, "{answer}");
    }
}

/// The supplier and a service that come to too much once unfolded.
#[test]
fn too_many_names() {
    let run = made(200, Rounds::unfolds);
    for answer in ["count", "refused 14 input 1", "refused 14 input 2 + n"] {
        assert!(run.tally.count_named("catalogue", answer) > 20, "{answer}");
    }
}

/// One to 65 services of which every third is contained, with outputs of n, n - 1, 0 and more bytes.
#[test]
fn each_count_and_length() {
    let under = Under::default();
    let c = blocks("1,7; 3,1,2");
    let texts = ["1,7", "1,8", "3,1,3"];
    for count in [1, 2, 5, 63, MOST_SERVICES, MOST_SERVICES + 1] {
        let services: Vec<&str> = texts.iter().cycle().take(count).copied().collect();
        let list = laid(&services);
        for length in [count, count - 1, 0, count + 1, 200] {
            let due = match (count > MOST_SERVICES, length < count) {
                (true, _) => Answer::Refused(8, 2),
                (_, true) => Answer::Refused(7, 0),
                _ => Answer::Count(count),
            };
            assert_eq!(catalogue(under, &c, &list, length), due);
        }
        let mut out = vec![9; count];
        if under.catalogue(&c, &list, &mut out).is_ok() {
            let due = [1, 0, 0].into_iter().cycle().take(count);
            assert!(out.into_iter().eq(due));
        }
    }
}

/// Each block of a list with each number that could begin, end or move a service.
#[test]
fn each_number_of_each_block() {
    let (c, list) = (encode(&mixed(70)), four_services());
    assert_eq!(cut(&list).len(), 4);
    sweeps::each_number_of_each_block(&list, |list| {
        catalogue(Under::default(), &c, list, 8);
    });
}

/// Each byte of a list changed, with right checks and without.
#[test]
fn each_byte_of_a_list() {
    let dictionary = blocks("1,7; 2,8");
    let under = Under {
        pairs: &[7, 0, 8, 0],
        dictionary: &dictionary,
    };
    let c = blocks("9,1; 5,1 [1,7]");
    let list = laid(&["9,1; 5,1 [2,8]", "5,1 [9,1]; 4,1,3"]);
    each_byte(&list, |list| {
        catalogue(under, &c, list, 3);
    });
}

/// Each length of a list, and each length of the last service.
#[test]
fn each_length_of_a_list() {
    let c = blocks("1,7");
    let call = |list: &[u8]| catalogue(Under::default(), &c, list, 3);
    sweeps::each_length_of_a_list(call, |services| services);
}

/// 16 blocks pass, 17 are 1 of that service; the longest list, and far longer ones.
#[test]
fn long_services_and_lists() {
    let under = Under::default();
    let c = encode(&mixed(MOST_DESCRIPTION));
    let over = encode(&vec![entry(1, 0, 7, 0); MOST_DESCRIPTION + 1]);
    for before in [0, 1, 63] {
        let first = blocks("1,7").repeat(before);
        let (right, long) = ([&first[..], &c].concat(), [&first[..], &over].concat());
        assert_eq!(catalogue(under, &c, &right, 64), Answer::Count(before + 1));
        let due = Some((1, 2 + before as u16, 0));
        assert_eq!(refused(under, &c, &long, 64), due);
    }
    let mut services = vec![c.clone(); 3];
    services.push(encode(&mixed(MOST_DESCRIPTION - 1)));
    assert_eq!(
        catalogue(under, &c, &services.concat(), 4),
        Answer::Count(4)
    );
    // 2,000 blocks of one service, and of 2,000.
    assert_eq!(
        refused(under, &c, &vec![0; 2000 * BLOCK], 64),
        Some((1, 2, 0))
    );
    let many = blocks("1,7").repeat(2000);
    assert_eq!(refused(under, &c, &many, 64), Some((8, 2, 0)));
}

/// 11; the dictionary; the supplier; 1 and 8 of the list; the services; 7: each with each that comes later.
#[test]
fn the_order_of_refusals() {
    let (good, bad) = (blocks("1,7"), blocks("1,7; 8"));
    let too_much = [named(0, 1); 1008];
    let full = encode(&[entry(1, 0, 7, 0); 2]);
    let suppliers = [
        (encode(&too_much), Some((14, 1, 0))),
        (bad.clone(), Some((4, 1, 2))),
        (good.clone(), None),
    ];
    let lists = [
        (Vec::new(), Some((1, 2, 0))),
        (vec![1; 100], Some((1, 2, 0))),
        (bad.repeat(65), Some((8, 2, 0))),
        (
            [&good[..], &encode(&too_much), &bad].concat(),
            Some((14, 3, 0)),
        ),
        ([&good[..], &good, &bad].concat(), Some((4, 4, 2))),
        (good.repeat(3), None),
    ];
    for (pairs, of_pairs) in [(&[7, 0, 7, 0][..], Some((11, 0, 1))), (&[7, 0, 8, 0], None)] {
        for (dictionary, of_dictionary) in [(&bad, Some((4, 101, 2))), (&full, None)] {
            let under = Under { pairs, dictionary };
            for (c, of_supplier) in &suppliers {
                for ((list, of_list), length) in lists.iter().flat_map(|l| [(l, 2), (l, 3)]) {
                    let short = (length < 3).then_some((7, 0, 0));
                    let first = of_pairs.or(of_dictionary).or(*of_supplier);
                    let due = first.or(*of_list).or(short);
                    assert_eq!(refused(under, c, list, length), due);
                }
            }
        }
    }
}
