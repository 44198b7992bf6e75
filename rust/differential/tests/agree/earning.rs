//! The entries that earn a yes: drawn pairs, small ones against all that is smaller still, and sweeps over lengths, bytes and the order of
//! refusals.

use super::sweeps::each_byte;
use super::*;
use differential::excluding::list;
use reference::notation::blocks;

/// The answer of both to these inputs, with an output of this length.
fn earning(pairs: &[u8], c: &[u8], d: &[u8], length: usize) -> Answer {
    let chance = &mut Chance::from_seed(41);
    agreed(agree::earning(chance, pairs, c, d, length))
}

/// The number, input and place of a refusal.
fn refused(pairs: &[u8], c: &[u8], d: &[u8], length: usize) -> Option<(u8, u16, u16)> {
    earning(pairs, c, d, length);
    let refusal = goltximen::earning(pairs, c, d, &mut vec![0; length]).err()?;
    Some((refusal.reason.number(), refusal.input, refusal.place))
}

#[test]
fn drawn() {
    let run = made(150, Rounds::earnings);
    assert!(run.tally.count("earning", "contained") > 300);
    assert!(run.tally.count("earning", "not contained") > 150);
    assert!(run.tally.count("earning", "refused 7 input 0") > 500);
    assert!(run.tally.count_listed("earning", "contained") > 150);
    assert!(run.tally.count_listed("earning", "not contained") > 50);
}

#[test]
fn at_the_limit_with_marks() {
    let run = made(2, Rounds::full_earnings);
    assert!(run.tally.count("earning", "contained") > 2);
}

#[test]
fn what_is_wrong() {
    let run = made(600, Rounds::wrong_earnings);
    for number in 1..=6 {
        for input in 1..=2 {
            let answer = format!("refused {number} input {input}");
            assert!(run.tally.count("earning", &answer) > 20, "{answer}");
        }
    }
    assert!(run.tally.count("earning", "refused 11 input 0") > 1000);
}

/// All pairs of descriptions of at most two entries over one property and one link, of links on both sides of 32,768.
#[test]
fn all_tiny_pairs_with_marks() {
    for (names, pairs) in [
        (Names::Low, list(&[])),
        (Names::Middle, list(&[(32_768, 1)])),
    ] {
        let all = tiny_descriptions(names, 1, 1);
        let each: Vec<(Vec<u8>, usize)> = all.iter().map(|d| (encode(d), d.len())).collect();
        let mut contained = 0;
        for (c, entries) in &each {
            for (d, _) in &each {
                let answer = earning(&pairs, c, d, *entries);
                contained += usize::from(answer == Answer::Contained);
            }
        }
        assert!(contained > all.len(), "{contained}");
    }
}

/// Each length of the output for no entry, for as many as a block has, and for one more, contained and not.
#[test]
fn each_length_of_the_output() {
    for entries in [0, 1, 63, 64] {
        let c = encode(&mixed(entries));
        for d in [&c, &blocks("6")] {
            for length in 0..entries + 3 {
                let answer = earning(&[], &c, d, length);
                let short = answer == Answer::Refused(7, 0);
                assert_eq!(short, length < entries, "{entries} {length}");
            }
        }
    }
}

/// Each byte of either input changed, with right checks and without.
#[test]
fn each_byte_of_an_input() {
    let (c, d) = (
        blocks("1,7; 5,1 [2,8; 3,2,4]; 1,9"),
        blocks("5,1 [3,2,3]; 2,8"),
    );
    let pairs = [7, 0, 8, 0];
    each_byte(&c, |c| {
        earning(&pairs, c, &d, 5);
    });
    each_byte(&d, |d| {
        earning(&pairs, &c, d, 5);
    });
}

/// Each length of either input.
#[test]
fn each_length_of_an_input() {
    let whole = encode(&mixed(100));
    for length in 0..=whole.len() {
        let due = |input| match length {
            _ if length == whole.len() => None,
            0 => Some((1, input, 0)),
            _ if length % BLOCK != 0 => Some((1, input, 0)),
            // The first block alone uses all 63, so it is a description by itself.
            _ => None,
        };
        assert_eq!(refused(&[], &whole[..length], &whole, 100), due(1));
        assert_eq!(refused(&[], &whole, &whole[..length], 100), due(2));
    }
}

/// 16 blocks pass and 17 are 1, as either input.
#[test]
fn long_inputs() {
    let full = encode(&mixed(1008));
    let over = encode(&[entry(1, 0, 7, 0); 1009]);
    let good = blocks("1,7");
    assert_eq!(refused(&[], &full, &good, 1008), None);
    assert_eq!(refused(&[], &good, &full, 1), None);
    assert_eq!(refused(&[], &over, &good, 1009), Some((1, 1, 0)));
    assert_eq!(refused(&[], &good, &over, 1), Some((1, 2, 0)));
}

/// 11; input 1; input 2; 7: each with each that comes later.
#[test]
fn the_order_of_refusals() {
    let (good, bad, short) = (blocks("1,7"), blocks("1,7; 9,1"), vec![1; 100]);
    let inputs = |input| {
        [
            (short.clone(), Some((1, input, 0))),
            (bad.clone(), Some((4, input, 2))),
            (good.clone(), None),
        ]
    };
    for (pairs, of_pairs) in [(&[7, 0, 7, 0][..], Some((11, 0, 1))), (&[7, 0, 8, 0], None)] {
        for (c, of_c) in inputs(1) {
            for (d, of_d) in inputs(2) {
                for (length, of_length) in [(0, Some((7, 0, 0))), (1, None)] {
                    let due = of_pairs.or(of_c).or(of_d).or(of_length);
                    assert_eq!(refused(pairs, &c, &d, length), due);
                }
            }
        }
    }
}
