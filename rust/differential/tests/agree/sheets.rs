//! Field sheets: drawn ones, and sweeps over each kind, number, depth and size, and over the order of refusals.

use super::*;
use reference::notation::blocks;

/// The answer of both to these bytes.
fn sheet(bytes: &[u8]) -> Answer {
    agreed(agree::read_sheet(bytes))
}

/// The place of the entry outside the profile.
fn outside(bytes: &[u8]) -> Option<u16> {
    assert_eq!(sheet(bytes), Answer::Refused(19, 1));
    goltximen::read_sheet(bytes).err().map(|r| r.place)
}

#[test]
fn drawn_sheets() {
    let run = made(1500, Rounds::sheets);
    assert!(run.tally.count("read sheet", "count") > 1500);
    assert!(run.tally.count("read sheet", "refused 19 input 1") > 1500);
    for number in [4, 5] {
        let answer = format!("refused {number} input 1");
        assert!(run.tally.count("read sheet", &answer) > 20, "{answer}");
    }
}

#[test]
fn damaged_sheets() {
    let run = made(300, Rounds::damage);
    for number in [1, 2, 3, 4, 5, 19] {
        let answer = format!("refused {number} input 1");
        assert!(run.tally.count("read sheet", &answer) > 5, "{answer}");
    }
}

/// Each kind with each number around the borders, at each depth up to 5.
#[test]
fn kinds_numbers_depths() {
    let mut accepted = 0;
    for kind in 0..=11 {
        for number in [0, 1, 98, 99, 100, 101, 255, 256, 355, 65_535] {
            for depth in 0..6 {
                let mut entries: Vec<Entry> =
                    (0..depth).map(|owner| entry(5, owner, 1, 0)).collect();
                entries.push(entry(kind, depth, 7, number));
                let answer = sheet(&encode(&entries));
                accepted += u32::from(matches!(answer, Answer::Count(_)));
            }
        }
    }
    // Has and 'every' with number 0, at least and at most with four numbers, each at four depths.
    assert_eq!(accepted, 4 * (2 + 2 * 4));
}

/// Two entries, each right, outside the profile, of a wrong form, with a wrong owner: the lower decides.
#[test]
fn the_lower_of_two() {
    let each = [
        entry(1, 0, 7, 0),
        entry(2, 0, 7, 0),
        entry(3, 0, 7, 100),
        entry(1, 0, 0, 0),
        entry(1, 9, 7, 0),
        entry(2, 9, 7, 0),
    ];
    for one in each {
        for other in each {
            sheet(&encode(&[one, other]));
        }
    }
}

#[test]
fn each_size() {
    for size in [0, 1, 62, 63, 64, 126, 127, 252, 253, 1007, 1008] {
        let has: Vec<Entry> = (0..size).map(|n| entry(1, 0, n + 1, 0)).collect();
        assert_eq!(sheet(&encode(&has)), Answer::Count(has.len()));
        let mut lacks = has;
        lacks.push(entry(2, 0, 1, 0));
        match size {
            1008 => assert_eq!(sheet(&encode(&lacks)), Answer::Refused(1, 1)),
            _ => assert_eq!(outside(&encode(&lacks)), Some(size + 1)),
        }
    }
}

/// Each byte of two blocks changed, with the checks as they were and made right again.
#[test]
fn each_byte() {
    let entries: Vec<Entry> = (1..=70).map(|n| entry(3, 0, 900 * n, 99)).collect();
    let bytes = encode(&entries);
    for at in 0..bytes.len() {
        for change in [1, 2, 0x80] {
            let mut changed = bytes.clone();
            changed[at] ^= change;
            sheet(&changed);
            seal(&mut changed[at / BLOCK * BLOCK..][..BLOCK]);
            sheet(&changed);
        }
    }
}

/// A chain of 'every' of each length: the fifth stands four links deep, and what would be too deep for any description is later.
#[test]
fn chains() {
    for length in 1..40 {
        let chain: Vec<Entry> = (0..length).map(|owner| entry(5, owner, 1, 0)).collect();
        match length {
            0..=4 => assert_eq!(sheet(&encode(&chain)), Answer::Count(chain.len())),
            _ => assert_eq!(outside(&encode(&chain)), Some(5)),
        }
    }
    assert_eq!(outside(&blocks("5,1 [2,1]; 1,1")), Some(2));
}
