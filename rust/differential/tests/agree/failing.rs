//! The entries that fail: drawn ones, each small one, each size, and every length of output.

use super::*;

#[test]
fn drawn_failings() {
    let run = made(400, Rounds::failings);
    assert!(run.tally.count("failing", "contained") > 400);
    assert!(run.tally.count("failing", "not contained") > 400);
    assert!(run.tally.count("failing", "refused 7 input 0") > 400);
    assert!(run.tally.count_listed("failing", "not contained") > 100);
}

#[test]
fn refused_failings() {
    let run = made(300, Rounds::wrong_failings);
    for (number, input) in [
        (1, 1),
        (2, 1),
        (3, 1),
        (4, 1),
        (2, 2),
        (3, 2),
        (4, 2),
        (11, 0),
    ] {
        let answer = format!("refused {number} input {input}");
        assert!(run.tally.count("failing", &answer) > 5, "{answer}");
    }
}

/// What both answer, with an output of this length.
fn failing(c: &[Entry], d: &[Entry], length: usize) -> Answer {
    let mut chance = Chance::from_seed(3);
    agreed(agree::failing(
        &mut chance,
        &[],
        &encode(c),
        &encode(d),
        length,
    ))
}

#[test]
fn each_size_and_length() {
    for size in [0, 1, 62, 63, 64, 252, 253, 1007, 1008] {
        let d = mixed(size);
        let needed = d.len();
        for c in [&[][..], &[entry(6, 0, 0, 0)], &d] {
            failing(c, &d, needed);
            failing(c, &d, needed + 9);
            if needed > 0 {
                assert_eq!(failing(c, &d, needed - 1), Answer::Refused(7, 0));
                assert_eq!(failing(c, &d, 0), Answer::Refused(7, 0));
            }
        }
    }
}
