//! Properties that exclude each other: lists, the calls under them, and all small cases against all records that keep the list.

use super::*;
use differential::excluding::{list, star, MOST_PAIRS};
use differential::small::tiny_items;
use reference::notation::blocks;

/// The answers of the three calls that take a list, under these pairs and this dictionary, on inputs that are refused as 1.
fn on_no_inputs(pairs: &[u8], dictionary: &[u8]) -> [Result<(), goltximen::Refusal>; 3] {
    let under = Under { pairs, dictionary };
    let chance = &mut Chance::from_seed(1);
    agreed(agree::fit(under, &[], &[]));
    agreed(agree::normal_form(chance, under, &[], 0));
    agreed(agree::compare(chance, under, &[], &[], 0));
    [
        under.fit(&[], &[]).map(|_| ()),
        under.normal_form(&[], &mut []).map(|_| ()),
        under.compare(&[], &[], &mut []).map(|_| ()),
    ]
}

/// Each of the three calls is refused with this number, input and place.
fn all_refused(pairs: &[u8], dictionary: &[u8], expected: (u8, u16, u16)) {
    for answer in on_no_inputs(pairs, dictionary) {
        let refusal = answer.unwrap_err();
        let found = (refusal.reason.number(), refusal.input, refusal.place);
        assert_eq!(found, expected, "{pairs:?}");
    }
}

/// So many pairs, each of other properties.
fn pairs(count: usize) -> Vec<(u16, u16)> {
    let firsts = (1..=count as u16).map(|n| 2 * n);
    firsts.map(|one| (one, one + 1)).collect()
}

/// A multiple of 4, and at most 64 pairs.
#[test]
fn each_length_of_a_list() {
    for length in 0..=300 {
        let bytes: Vec<u8> = list(&pairs(80))[..length].to_vec();
        if length % 4 == 0 && length <= 4 * MOST_PAIRS {
            // The list passes, and what is refused is input 1.
            all_refused(&bytes, &[], (1, 1, 0));
        } else {
            all_refused(&bytes, &[], (11, 0, 0));
        }
    }
}

/// A 0 or two equal numbers at each place, alone and before another.
#[test]
fn each_pair_of_a_list() {
    for count in [1, 2, MOST_PAIRS] {
        for at in 0..count {
            for bad in [(0, 7), (7, 0), (0, 0), (7, 7), (65_535, 65_535)] {
                let mut wrong = pairs(count);
                wrong[at] = bad;
                all_refused(&list(&wrong), &[], (11, 0, at as u16 + 1));
                wrong[count - 1] = (9, 9);
                all_refused(&list(&wrong), &[], (11, 0, at as u16 + 1));
            }
        }
    }
}

/// A dictionary comes after the list and before the inputs, whatever it is.
#[test]
fn the_list_before_the_dictionary() {
    for (dictionary, due) in [
        (vec![0; 1], (1, 100, 0)),
        (vec![0; 513], (1, 100, 0)),
        (blocks("1,7").repeat(65), (8, 100, 0)),
        (blocks("9,1"), (13, 101, 1)),
        (blocks("1,7"), (1, 1, 0)),
        (vec![], (1, 1, 0)),
    ] {
        all_refused(&[], &dictionary, due);
        all_refused(&list(&[(7, 8)]), &dictionary, due);
        all_refused(&list(&[(7, 7)]), &dictionary, (11, 0, 1));
        all_refused(&[7], &dictionary, (11, 0, 0));
    }
}

#[test]
fn wrong_lists() {
    let run = made(1500, Rounds::lists);
    for call in ["fit", "normal form", "compare"] {
        assert!(run.tally.count(call, "refused 11 input 0") > 5000, "{call}");
        assert!(run.tally.count(call, "refused 1 input 100") > 100, "{call}");
    }
}

/// The drawn rounds come to the answers under lists often enough.
#[test]
fn answers_under_lists() {
    let run = made(2000, Rounds::pair);
    assert!(run.tally.count_listed("compare", "contained") > 1500);
    assert!(run.tally.count_listed("compare", "not contained") > 1500);
    let run = made(2000, Rounds::fits);
    assert!(run.tally.count_listed("fit", "yes") > 500);
    assert!(run.tally.count_listed("fit", "no") > 500);
    assert!(run.tally.count_listed("fit", "refused 12 input 1") > 500);
    let run = made(300, Rounds::small);
    assert!(run.tally.count_listed("compare", "contained") > 100);
    assert!(run.tally.count_listed("compare", "not contained") > 100);
    assert!(run.tally.count_listed("fit", "refused 12 input 1") > 50);
}

/// All pairs of descriptions of at most two entries over two properties that exclude each other and one link, against all records of
/// at most three items that keep the list: an item has one of the two, the other or neither.
#[test]
fn all_tiny_pairs_under_a_pair() {
    let given = Given::pairs(&[(1, 2)]);
    let count = all_tiny_pairs(&given, Names::Low, (2, 1), 3);
    assert_eq!(count, (169, 3 * 2 + 9 * 16 + 27 * 512));
}

/// The same over three properties, of which the second excludes the others, in either order and once again: an item has the second
/// alone, or any of the others.
#[test]
fn all_tiny_pairs_under_a_list_that_overlaps() {
    let given = Given::pairs(&[(1, 2), (2, 3), (2, 1)]);
    let count = all_tiny_pairs(&given, Names::Low, (3, 1), 2);
    assert_eq!(count, (225, 5 * 2 + 25 * 16));
}

/// The same for link 32,768, against all records that also keep the rule.
#[test]
fn all_tiny_pairs_of_a_single_link_under_a_list() {
    let given = Given::pairs(&[(32_767, 32_768)]);
    let count = all_tiny_pairs(&given, Names::Middle, (2, 1), 2);
    assert_eq!(count, (169, 3 * 2 + 9 * 9));
}

/// All specimens of at most four properties and groups: refused as 12 at the first entry whose record, item by item, breaks the list,
/// and else accepted.
#[test]
fn all_tiny_specimens_in_their_records() {
    let given = Given::pairs(&[(1, 2), (3, 2)]);
    let (mut refused, mut accepted) = (0, 0);
    for entries in 0..=4 {
        for s in tiny_items(entries) {
            let bytes = encode(&s);
            let answer = agreed(agree::fit(given.under(), &bytes, &encode(&[])));
            let keeps = |record: &Record| record.keeps_the_list(&given.pairs);
            let Some(place) = first_that_breaks(&s, keeps) else {
                assert_eq!(answer, Answer::Yes);
                accepted += 1;
                continue;
            };
            // Before input 2, whatever that is.
            let refusal = given.under().fit(&bytes, &[]).unwrap_err();
            assert_eq!(answer, Answer::Refused(12, 1));
            assert_eq!(usize::from(refusal.place), place);
            refused += 1;
        }
    }
    assert!(refused > 300 && accepted > 600, "{refused} {accepted}");
}

/// The most places, each with a property that excludes 64 others, and each asked for one of them; then one that is excluded by none.
#[test]
fn a_star_asked_at_every_place() {
    let (pairs, c, mut d) = star(504);
    let under = Under {
        pairs: &pairs,
        dictionary: &[],
    };
    let chance = &mut Chance::from_seed(4);
    let mut compared = |d: &[Entry]| {
        let (c, d) = (encode(&c), encode(d));
        let longer = c.len() + d.len() + 9;
        agreed(agree::compare(chance, under, &c, &d, longer))
    };
    assert_eq!(compared(&d), Answer::Contained);
    d[1007].name = 99;
    assert_eq!(compared(&d), Answer::NotContained(1008, 3));
}

/// A place with the one property of a pair and the lacks of all others in turn: the ones that are implied go.
#[test]
fn implied_lacks_at_the_limit() {
    let (pairs, ..) = star(1);
    let mut d: Vec<Entry> = (100..1107).rev().map(|name| entry(2, 0, name, 0)).collect();
    d.push(entry(1, 0, 7, 0));
    let bytes = encode(&d);
    let under = Under {
        pairs: &pairs,
        dictionary: &[],
    };
    let chance = &mut Chance::from_seed(6);
    let answer = agree::normal_form(chance, under, &bytes, bytes.len());
    assert_eq!(agreed(answer), Answer::Count(1008 - MOST_PAIRS));
}

/// The desk's example, with a list that changes the answer, one that does not, and none.
#[test]
fn clay_and_sand() {
    let (c, d) = (blocks("1,7"), blocks("2,8"));
    let mut chance = Chance::from_seed(9);
    for (pairs, expected) in [
        (vec![(7, 8)], Answer::Contained),
        (vec![(8, 7)], Answer::Contained),
        (vec![(7, 9), (8, 9)], Answer::NotContained(1, 2)),
        (vec![], Answer::NotContained(1, 2)),
    ] {
        let given = Given::pairs(&pairs);
        let answer = agree::compare(&mut chance, given.under(), &c, &d, 1024);
        assert_eq!(agreed(answer), expected);
    }
}
