//! Delivered records: drawn ones, and sweeps over totals, lengths and the order of refusals.

use super::*;
use goltximen::MOST_ITEMS;
use reference::notation::blocks;

/// The answer of both, with an output of this length.
fn fit_all(total: usize, record: &[Entry], d: &str, length: usize) -> Answer {
    let chance = &mut Chance::from_seed(41);
    let under = Under::default();
    agreed(agree::fit_all(
        chance,
        under,
        total,
        &encode(record),
        &blocks(d),
        length,
    ))
}

/// Which items fit.
fn fitting(total: usize, record: &[Entry], d: &str) -> Vec<bool> {
    fit_all(total, record, d, MOST_ITEMS);
    let fits = Under::default().fit_all(total, &encode(record), &blocks(d));
    fits.expect("an accepted record")
}

/// The number, input and place of a refusal.
fn refused(total: usize, record: &[Entry]) -> Option<(u8, u16, u16)> {
    fit_all(total, record, "", MOST_ITEMS);
    let refusal = Under::default()
        .fit_all(total, &encode(record), &blocks(""))
        .err()?;
    Some((refusal.reason.number(), refusal.input, refusal.place))
}

#[test]
fn drawn_records() {
    let run = made(200, Rounds::deliveries);
    assert!(run.tally.count("fit all", "count") > 200);
    assert!(run.tally.count("fit all", "refused 7 input 0") > 100);
    for number in [9, 12] {
        let answer = format!("refused {number} input 1");
        assert!(run.tally.count("fit all", &answer) > 5, "{answer}");
    }
    assert!(run.tally.count_named("fit all", "count") > 20);
    assert!(run.tally.count_listed("fit all", "count") > 50);
}

#[test]
fn records_that_are_wrong() {
    let run = made(200, Rounds::wrong_deliveries);
    for answer in [
        "refused 4 input 1",
        "refused 10 input 1",
        "refused 11 input 0",
    ] {
        assert!(run.tally.count("fit all", answer) > 20, "{answer}");
    }
}

/// Items that are shared, links that go round, a link to the item itself, and what is said twice.
#[test]
fn cycles_and_sharing() {
    let record = [
        entry(1, 1, 7, 0),
        entry(8, 1, 3, 2),
        entry(8, 2, 3, 1),
        entry(8, 3, 3, 2),
        entry(8, 3, 3, 2),
    ];
    assert_eq!(
        fitting(4, &record, "3,3,1; 5,3 [5,3 [1,7]]"),
        [true, false, true, false]
    );
    assert_eq!(fitting(4, &record, "3,3,2"), [false; 4]);
    assert_eq!(fitting(4, &record, ""), [true; 4]);
    let own = [entry(8, 1, 3, 1)];
    assert_eq!(fitting(1, &own, "3,3,1; 4,3,1; 5,3 [5,3 [2,7]]"), [true]);
}

/// At one entry 4 before 10 before 9; the lowest entry before a later one; the total before all of these.
#[test]
fn order() {
    let single = |number| entry(8, 1, 32_768, number);
    assert_eq!(refused(0, &[entry(9, 0, 0, 0)]), Some((10, 1, 0)));
    assert_eq!(refused(MOST_ITEMS + 1, &[]), Some((10, 1, 0)));
    assert_eq!(refused(1, &[entry(1, 2, 7, 5)]), Some((4, 1, 1)));
    assert_eq!(refused(1, &[entry(8, 1, 3, 2)]), Some((10, 1, 1)));
    assert_eq!(refused(2, &[single(1), single(1)]), None);
    assert_eq!(refused(2, &[single(1), single(2)]), Some((9, 1, 2)));
    assert_eq!(refused(2, &[single(1), single(3)]), Some((10, 1, 2)));
    assert_eq!(
        refused(2, &[single(1), single(2), entry(9, 1, 1, 0)]),
        Some((9, 1, 2))
    );
}

/// Totals and outputs at their borders.
#[test]
fn each_total_and_length() {
    for total in [1, 2, 255, MOST_ITEMS] {
        for length in [0, total - 1, total, total + 1] {
            let answer = fit_all(total, &[entry(1, 1, 7, 0)], "1,7", length);
            let due = match length < total {
                true => Answer::Refused(7, 0),
                false => Answer::Count(total),
            };
            assert_eq!(answer, due);
        }
    }
}
