//! The vectors of named descriptions, with their answers from the clauses.

use super::*;
use differential::named::naming::*;
use differential::naming::chain;

/// These answers, none of which writes anything.
fn all_said(answers: &[&'static str]) -> Vec<Expected> {
    answers.iter().map(|answer| said(*answer)).collect()
}

/// Refused with this in each call that takes a dictionary.
macro_rules! in_each_call {
    ($refusal:literal) => {
        [
            concat!("fit ", $refusal),
            concat!("normal form ", $refusal),
            concat!("compare ", $refusal),
            concat!("unfold ", $refusal),
        ]
    };
}

/// Refused with this number and place in each input that is a description.
macro_rules! in_each_input {
    ($number:literal, $place:literal) => {
        [
            concat!("fit refused ", $number, " input 2 place ", $place),
            concat!("normal form refused ", $number, " input 1 place ", $place),
            concat!("compare refused ", $number, " input 1 place ", $place),
            concat!("compare refused ", $number, " input 2 place ", $place),
            concat!("unfold refused ", $number, " input 1 place ", $place),
        ]
    };
}

/// So many properties 7.
fn sevens(count: usize) -> Vec<Entry> {
    vec![entry(1, 0, 7, 0); count]
}

#[test]
fn what_a_dictionary_may_be() {
    let mut two_blocks = sevens(63);
    two_blocks.push(entry(1, 0, 8, 0));
    let expected = [
        wrote("unfold 1", "1,8"),
        wrote("unfold 0", ""),
        wrote("unfold 1", "1,7"),
        wrote("unfold 2", "1,7; 2,8"),
        wrote_entries("unfold 64", &two_blocks),
        wrote("unfold 2", "2,9; 1,7"),
    ];
    check(&dictionaries(), &expected);
}

#[test]
fn dictionaries_that_are_refused() {
    let mut expected = Vec::new();
    for _ in 0..3 {
        expected.extend(all_said(&in_each_call!("refused 1 input 100 place 0")));
    }
    expected.extend(all_said(&[
        "compare refused 8 input 100 place 0",
        "unfold refused 8 input 100 place 0",
        "unfold refused 8 input 100 place 0",
        "unfold refused 1 input 100 place 0",
        "unfold refused 1 input 102 place 0",
        "unfold refused 3 input 101 place 1",
        "unfold refused 3 input 101 place 2",
        "unfold refused 3 input 102 place 1",
        "unfold refused 2 input 103 place 1",
        "unfold refused 4 input 102 place 2",
        "unfold refused 4 input 102 place 2",
        "unfold refused 5 input 102 place 2",
        "unfold refused 6 input 101 place 34",
        "unfold refused 14 input 102 place 0",
        "unfold refused 13 input 101 place 2",
        "unfold refused 4 input 102 place 1",
    ]));
    check(&wrong_dictionaries(), &expected);
}

#[test]
fn list_dictionary_inputs_output() {
    let mut expected = all_said(&in_each_call!("refused 11 input 0 place 1")[..3]);
    expected.extend(all_said(&in_each_call!("refused 13 input 101 place 1")));
    expected.extend(all_said(&in_each_call!("refused 1 input 1 place 0")));
    expected.extend(all_said(&[
        "compare refused 14 input 1 place 0",
        "compare refused 13 input 1 place 1",
        "compare refused 14 input 2 place 0",
        "compare refused 13 input 2 place 1",
        "compare refused 1 input 2 place 0",
        "compare refused 7 input 0 place 0",
        "fit refused 4 input 1 place 2",
        "fit refused 12 input 1 place 2",
        "fit refused 13 input 2 place 1",
        "fit yes",
        "fit refused 13 input 101 place 1",
    ]));
    check(&order(), &expected);
}

#[test]
fn the_form_of_a_named_entry() {
    let mut expected = all_said(&[
        "unfold refused 4 input 1 place 1",
        "unfold refused 4 input 1 place 1",
        "unfold refused 4 input 1 place 1",
        "unfold refused 4 input 1 place 1",
        "unfold refused 4 input 1 place 2",
        "unfold refused 13 input 1 place 1",
        "unfold refused 5 input 1 place 1",
        "unfold refused 5 input 1 place 1",
        "unfold refused 13 input 1 place 34",
        "unfold refused 6 input 1 place 34",
        "unfold refused 6 input 1 place 34",
    ]);
    let at_32 = [chain(33), vec![entry(1, 32, 7, 0)]].concat();
    expected.push(wrote_entries("unfold 34", &at_32));
    expected.extend(all_said(&[
        "unfold refused 5 input 1 place 2",
        "unfold refused 5 input 1 place 2",
        "unfold refused 5 input 1 place 2",
        "unfold refused 5 input 1 place 2",
        "unfold refused 13 input 1 place 1",
        "unfold refused 4 input 1 place 1",
        "unfold refused 5 input 1 place 1",
    ]));
    expected.extend(all_said(&in_each_input!(4, 2)));
    check(&named_entries(), &expected);
}

#[test]
fn number_13() {
    let mut expected = all_said(&["unfold refused 13 input 1 place 3"; 5]);
    expected.extend(all_said(&in_each_input!(13, 3)));
    let not_earlier = || said("unfold refused 13 input 102 place 2");
    expected.extend([
        not_earlier(),
        wrote("unfold 2", "1,7; 1,9"),
        not_earlier(),
        not_earlier(),
        not_earlier(),
    ]);
    check(&names(), &expected);
}

#[test]
fn who_takes_a_dictionary() {
    let mut expected = all_said(&[
        "description refused 4 input 1 place 2",
        "specimen refused 4 input 1 place 2",
        "description refused 4 input 1 place 1",
        "fit refused 4 input 1 place 2",
        "fit refused 4 input 1 place 1",
        "fit yes",
    ]);
    expected.extend([
        wrote("normal form 1", "1,7"),
        said("compare contained"),
        said("compare contained"),
        wrote("unfold 1", "1,7"),
    ]);
    expected.extend(all_said(&in_each_input!(13, 2)));
    expected.extend(all_said(&in_each_input!(4, 1)));
    expected.push(said("compare refused 13 input 1 place 1"));
    check(&takers(), &expected);
}

#[test]
fn number_14() {
    let deepest_sevens = [chain(32), vec![entry(1, 32, 7, 0); 16]].concat();
    let mut expected = vec![
        wrote_entries("unfold 1008", &sevens(1008)),
        said("unfold refused 14 input 1 place 0"),
        said("unfold refused 14 input 1 place 0"),
        wrote_entries("unfold 1008", &sevens(1008)),
        said("unfold refused 4 input 1 place 64"),
        wrote_entries("unfold 33", &chain(33)),
        said("unfold refused 14 input 1 place 0"),
        wrote_entries("unfold 48", &deepest_sevens),
        said("unfold refused 14 input 1 place 0"),
        wrote_entries("unfold 32", &chain(32)),
        said("unfold refused 13 input 1 place 19"),
    ];
    expected.extend(all_said(&in_each_input!(14, 0)));
    expected.push(said("unfold refused 14 input 1 place 0"));
    expected.extend(all_said(&in_each_call!("refused 14 input 105 place 0")));
    check(&too_much(), &expected);
}

#[test]
fn contents_in_the_place_of_their_name() {
    let core = "1,7; 5,2 [2,8; 5,3]";
    let text = |start: &str, end: &str| format!("{start}{core}{end}");
    let two_blocks = [sevens(63), vec![entry(1, 0, 8, 0)]].concat();
    let far = {
        let mut entries = vec![entry(5, 0, 1, 0)];
        entries.extend([entry(1, 1, 7, 0); 60]);
        let core = |owner, before: u16| {
            [
                entry(1, owner, 7, 0),
                entry(5, owner, 2, 0),
                entry(2, before + 2, 8, 0),
                entry(5, before + 2, 3, 0),
            ]
        };
        entries.extend(core(1, 61));
        entries.push(entry(5, 1, 9, 0));
        entries.extend(core(66, 66));
        entries.extend(core(0, 70));
        entries.push(entry(1, 66, 6, 0));
        entries
    };
    let expected = [
        wrote("unfold 4", core),
        wrote("unfold 0", ""),
        wrote("unfold 0", ""),
        wrote("unfold 6", &text("1,5; ", "; 1,6")),
        wrote("unfold 4", "5,1 [1,6]; 5,6 [1,5]"),
        wrote("unfold 11", &format!("5,1 [{core}; 1,6]; 5,6 [{core}]")),
        wrote("unfold 8", &text("", &format!("; {core}"))),
        wrote("unfold 6", &text("5,4 [", "; 1,9]")),
        wrote("unfold 9", &text("5,1 [5,1 [5,4 [", "; 1,9]]]; 1,5")),
        wrote("unfold 10", &text("5,4 [", &format!("; 1,9]; {core}"))),
        wrote("unfold 4", core),
        wrote_entries("unfold 64", &two_blocks),
        wrote_entries("unfold 75", &far),
    ];
    check(&unfolding(), &expected);
}

#[test]
fn names_of_names() {
    let every = |first: Option<u16>, names: u16| {
        let links = first.into_iter().chain((1..names).rev());
        let mut entries: Vec<Entry> = (0..)
            .zip(links)
            .map(|(o, link)| entry(5, o, link, 0))
            .collect();
        entries.push(entry(1, entries.len() as u16, 7, 0));
        entries
    };
    let expected = [
        wrote("unfold 0", ""),
        wrote("unfold 0", ""),
        wrote_entries("unfold 512", &sevens(512)),
        said("unfold refused 14 input 1 place 0"),
        said("unfold refused 14 input 111 place 0"),
        wrote_entries("unfold 33", &every(None, 33)),
        wrote_entries("unfold 33", &every(Some(9), 32)),
        said("unfold refused 14 input 1 place 0"),
        said("unfold refused 14 input 134 place 0"),
        wrote("unfold 2", "5,1 [1,7]"),
    ];
    check(&chains(), &expected);
}

#[test]
fn the_same_as_unfolded() {
    let each: [[fn() -> Expected; 5]; 4] = [
        [
            || wrote("compare not contained 3 entries 1", "1,7"),
            || wrote("compare not contained 3 entries 1", "1,7"),
            || wrote("normal form 2", "1,7; 2,8"),
            || said("fit yes"),
            || said("fit no"),
        ],
        [
            || wrote("compare not contained 4 entries 3", "7,1 [1,7; 7,2]"),
            || wrote("compare not contained 4 entries 3", "7,1 [1,7; 7,2]"),
            || wrote("normal form 4", "5,1 [1,7; 2,8; 3,2,1]"),
            || said("fit yes"),
            || said("fit no"),
        ],
        [
            || said("compare contained"),
            || said("compare contained"),
            || wrote("normal form 6", "1,7; 2,8; 5,1 [1,7; 2,8; 3,2,1]"),
            || said("fit yes"),
            || said("fit yes"),
        ],
        [
            || wrote("compare not contained 1 entries 2", "1,7; 1,9"),
            || said("compare contained"),
            || wrote("normal form 2", "1,7; 2,8"),
            || said("fit yes"),
            || said("fit yes"),
        ],
    ];
    // Each first with names, and then unfolded.
    let expected: Vec<Expected> = each
        .iter()
        .flat_map(|case| [case, case])
        .flatten()
        .map(|expected| expected())
        .collect();
    check(&as_unfolded(), &expected);
}

#[test]
fn outputs_by_what_is_unfolded() {
    let expected = [
        // 80 entries in two blocks, sent in one: 512, 1023, 1024 and 1025.
        said("normal form refused 7 input 0 place 0"),
        said("normal form refused 7 input 0 place 0"),
        wrote("normal form 1", "1,7"),
        wrote("normal form 1", "1,7"),
        // Nothing, sent in two blocks: 511 and 512.
        said("normal form refused 7 input 0 place 0"),
        wrote("normal form 0", ""),
        // Both together: 1024, 1535 and 1536.
        said("compare refused 7 input 0 place 0"),
        said("compare refused 7 input 0 place 0"),
        said("compare refused 7 input 0 place 0"),
        said("compare refused 7 input 0 place 0"),
        said("compare contained"),
        wrote("compare not contained 1 entries 0", ""),
        // Sixteen blocks sent, and seventeen.
        wrote("normal form 0", ""),
        said("normal form refused 1 input 1 place 0"),
        said("unfold refused 1 input 1 place 0"),
    ];
    check(&outputs_by_unfolded(), &expected);
}

#[test]
fn outputs_of_the_unfolding() {
    let short = || said("unfold refused 7 input 0 place 0");
    let expected = [
        short(),
        short(),
        wrote_entries("unfold 64", &sevens(64)),
        wrote_entries("unfold 64", &sevens(64)),
        short(),
        short(),
        wrote_entries("unfold 32", &sevens(32)),
        wrote_entries("unfold 32", &sevens(32)),
        short(),
        short(),
        wrote("unfold 0", ""),
        wrote("unfold 0", ""),
        short(),
        short(),
        wrote("unfold 1", "1,7"),
        wrote("unfold 1", "1,7"),
        // Two blocks are sent, and one is written.
        short(),
        wrote("unfold 0", ""),
        said("unfold refused 13 input 1 place 2"),
        said("unfold refused 14 input 1 place 0"),
        said("unfold refused 1 input 1 place 0"),
        // No dictionary.
        short(),
        wrote("unfold 1", "1,7"),
    ];
    check(&outputs_of_unfold(), &expected);
}

#[test]
fn what_a_named_entry_means() {
    let expected = [
        said("fit yes"),
        said("fit no"),
        said("fit no"),
        said("fit yes"),
        said("fit no"),
        said("fit no"),
        said("fit yes"),
        said("fit no"),
        said("fit yes"),
        said("fit no"),
        said("compare contained"),
        said("compare contained"),
        // The at least of the named description is entry 4 of what is unfolded.
        wrote("compare not contained 4 entries 0", ""),
        said("compare contained"),
        said("compare contained"),
    ];
    check(&meaning(), &expected);
}
