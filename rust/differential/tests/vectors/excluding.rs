//! The vectors of properties that exclude each other, with their answers from the clauses.

use super::*;
use differential::named::excluding::*;

/// Each of these answers of the three calls, the fit answer, the normal form and the comparison.
fn each_call(answers: &[[&'static str; 3]]) -> Vec<Expected> {
    answers
        .iter()
        .flatten()
        .map(|answer| said(*answer))
        .collect()
}

/// Refused with this in each call.
macro_rules! in_each_call {
    ($refusal:literal) => {
        [
            concat!("fit ", $refusal),
            concat!("normal form ", $refusal),
            concat!("compare ", $refusal),
        ]
    };
}

#[test]
fn what_a_list_may_be() {
    let expected = [
        said("compare contained"),
        said("compare contained"),
        said("compare contained"),
        said("compare contained"),
        said("compare contained"),
        said("compare contained"),
        said("compare contained"),
        said("compare contained"),
        said("compare contained"),
        wrote("compare not contained 1 entries 2", "1,7; 1,11265"),
        wrote("compare not contained 1 entries 2", "1,8; 1,263"),
        wrote("compare not contained 1 entries 2", "1,7; 1,264"),
        wrote("compare not contained 1 entries 2", "1,7; 1,9"),
    ];
    check(&lists(), &expected);
}

#[test]
fn number_11() {
    let length = in_each_call!("refused 11 input 0 place 0");
    let first = in_each_call!("refused 11 input 0 place 1");
    let mut answers = vec![length; 9];
    answers.extend([first; 4]);
    answers.extend([
        in_each_call!("refused 11 input 0 place 2"),
        in_each_call!("refused 11 input 0 place 3"),
        in_each_call!("refused 11 input 0 place 64"),
    ]);
    check(&wrong_lists(), &each_call(&answers));
}

#[test]
fn number_11_before_all() {
    let answers = [
        in_each_call!("refused 11 input 0 place 1"),
        in_each_call!("refused 11 input 0 place 1"),
        in_each_call!("refused 1 input 1 place 0"),
        in_each_call!("refused 1 input 100 place 0"),
        in_each_call!("refused 1 input 1 place 0"),
    ];
    check(&order_of_11(), &each_call(&answers));
}

#[test]
fn who_takes_the_list() {
    let expected = [
        said("fit refused 12 input 1 place 2"),
        wrote("normal form 1", "6"),
        said("compare contained"),
        said("specimen accepted 2"),
        said("description accepted 2"),
        said("specimen accepted 1"),
        said("description accepted 1"),
    ];
    check(&takers(), &expected);
}

#[test]
fn a_place_with_both() {
    let expected = [
        wrote("normal form 1", "6"),
        wrote("normal form 2", "1,9; 4,1,0"),
        wrote("normal form 1", "4,1,0"),
        wrote("normal form 1", "6"),
        wrote("normal form 1", "4,1,0"),
        wrote("normal form 1", "6"),
        wrote_entries(
            "normal form 4",
            &[
                entry(5, 0, 1, 0),
                entry(5, 0, 2, 0),
                entry(1, 1, 7, 0),
                entry(1, 2, 8, 0),
            ],
        ),
        wrote("normal form 3", "1,7; 5,1 [1,8]"),
        said("compare contained"),
        said("compare contained"),
        said("compare contained"),
        wrote("compare not contained 2 entries 1", "1,7"),
        wrote("compare not contained 1 entries 0", ""),
    ];
    check(&impossible_places(), &expected);
}

#[test]
fn a_place_with_one() {
    let expected = [
        wrote("normal form 1", "1,7"),
        wrote("normal form 1", "1,7"),
        wrote("normal form 1", "1,8"),
        wrote("normal form 2", "2,7; 2,8"),
        wrote("normal form 2", "5,1 [1,7]"),
        wrote("normal form 4", "5,1 [1,7; 5,2 [1,8]]"),
        wrote("normal form 3", "1,7; 5,1 [2,8]"),
        wrote("normal form 3", "2,8; 5,1 [1,7]"),
        wrote("normal form 1", "6"),
        wrote("normal form 1", "6"),
        wrote("normal form 1", "1,7"),
        wrote("normal form 2", "1,7; 2,10"),
        wrote("normal form 1", "1,7"),
    ];
    check(&implied_lacks(), &expected);
}

#[test]
fn what_supports_a_lack() {
    let expected = [
        said("compare contained"),
        said("compare contained"),
        said("compare contained"),
        wrote("compare not contained 1 entries 0", ""),
        wrote("compare not contained 1 entries 1", "1,7"),
        wrote("compare not contained 1 entries 1", "1,7"),
        said("compare contained"),
        // The second 'every' of D leads to the same place, where at least 1 is asked and at most 0 fails.
        wrote("compare not contained 4 entries 3", "7,1 [1,7; 7,2]"),
        wrote("compare not contained 1 entries 1", "1,8"),
        wrote("compare not contained 2 entries 3", "1,7; 7,1 [1,8]"),
        wrote("compare not contained 2 entries 2", "7,1 [1,8]"),
        wrote("compare not contained 1 entries 1", "1,7"),
        wrote("compare not contained 2 entries 1", "7,1,2"),
    ];
    check(&support(), &expected);
}

#[test]
fn number_12() {
    let expected = [
        said("fit refused 12 input 1 place 2"),
        said("fit refused 12 input 1 place 2"),
        said("fit refused 12 input 1 place 4"),
        said("fit refused 12 input 1 place 4"),
        said("fit refused 12 input 1 place 3"),
        said("fit yes"),
        said("fit yes"),
        said("fit no"),
        said("fit yes"),
        said("fit refused 12 input 1 place 3"),
        said("fit refused 12 input 1 place 3"),
        said("fit refused 12 input 1 place 2016"),
        said("fit refused 12 input 1 place 2"),
        said("fit yes"),
    ];
    check(&both_of_a_pair(), &expected);
}

#[test]
fn number_12_after_the_other_checks() {
    let expected = [
        said("fit refused 4 input 1 place 3"),
        said("fit refused 4 input 1 place 5"),
        said("fit refused 9 input 1 place 3"),
        said("fit refused 2 input 1 place 1"),
        said("fit refused 12 input 1 place 2"),
        said("fit refused 12 input 1 place 2"),
        said("fit refused 4 input 2 place 1"),
    ];
    check(&order_of_12(), &expected);
}

#[test]
fn specimens_under_the_same_list() {
    let expected = [
        wrote("compare not contained 1 entries 2", "1,8; 1,9"),
        said("fit yes"),
        said("fit no"),
        wrote(
            "compare not contained 4 entries 4",
            "7,1 [1,7; 7,2,1 [1,7]]",
        ),
        said("fit yes"),
        said("fit no"),
        wrote("compare not contained 3 entries 3", "7,32768 [1,7; 1,9]"),
        said("fit yes"),
        said("fit no"),
        said("fit refused 12 input 1 place 3"),
    ];
    check(&specimens(), &expected);
}

#[test]
fn outputs_under_a_list() {
    let expected = [
        said("normal form refused 7 input 0 place 0"),
        wrote("normal form 1", "1,7"),
        said("compare refused 7 input 0 place 0"),
        said("compare contained"),
        said("compare refused 4 input 2 place 1"),
    ];
    check(&differential::named::excluding::outputs(), &expected);
}

#[test]
fn as_before() {
    let mut expected = Vec::new();
    for _ in 0..2 {
        expected.extend([
            said("fit yes"),
            said("fit no"),
            wrote("normal form 2", "1,7; 2,8"),
            wrote("normal form 2", "1,7; 1,8"),
            wrote("compare not contained 1 entries 2", "1,7; 1,8"),
            wrote("compare not contained 1 entries 2", "1,7; 1,8"),
            said("compare contained"),
        ]);
    }
    check(&no_pairs(), &expected);
}
