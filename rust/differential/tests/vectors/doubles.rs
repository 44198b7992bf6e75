//! The vectors of descriptions that mean the same, with their answers from the clause (N20).

use super::*;
use differential::named::doubles::*;

/// Two of one meaning: the same normal form of both, and each is contained in the other.
fn alike(answer: &'static str, form: &str) -> [Expected; 4] {
    let contained = "compare contained";
    [
        wrote(answer, form),
        wrote(answer, form),
        said(contained),
        said(contained),
    ]
}

#[test]
fn unlike_inputs_of_one_normal_form() {
    let written = [
        entry(1, 0, 9, 0),
        entry(3, 0, 1, 2),
        entry(4, 0, 1, 5),
        entry(5, 0, 1, 0),
        entry(1, 4, 7, 0),
        entry(4, 4, 2, 0),
    ];
    let mut expected = vec![
        wrote_entries("normal form 6", &written),
        wrote_entries("normal form 6", &written),
        said("compare contained"),
        said("compare contained"),
    ];
    expected.extend(alike("normal form 0", ""));
    expected.extend(alike("normal form 1", "6"));
    check(&unlike(), &expected);
}

#[test]
fn inputs_of_two_normal_forms() {
    let every = |owner| {
        let two = [entry(5, 0, 1, 0), entry(5, 0, 2, 0)];
        [&two[..], &[entry(1, 1, 7, 0), entry(1, owner, 8, 0)]].concat()
    };
    let expected = [
        wrote("normal form 2", "1,7; 4,1,1"),
        wrote("normal form 2", "1,7; 4,1,2"),
        said("compare contained"),
        wrote("compare not contained 1 entries 2", "1,7; 7,1,1"),
        wrote_entries("normal form 4", &every(2)),
        wrote("normal form 3", "5,1 [1,7; 1,8]"),
        wrote("compare not contained 3 entries 2", "7,1 [1,7]"),
        wrote("compare not contained 4 entries 1", "7,2"),
    ];
    check(&apart(), &expected);
}

#[test]
fn alike_only_under_the_list() {
    let mut expected = Vec::from(alike("normal form 3", "3,1,1; 5,1 [1,7]"));
    expected.extend([
        wrote("normal form 4", "3,1,1; 5,1 [1,7; 2,8]"),
        wrote("normal form 3", "3,1,1; 5,1 [1,7]"),
        said("compare contained"),
        wrote("compare not contained 3 entries 3", "7,1 [1,7; 1,8]"),
    ]);
    expected.extend(alike("normal form 2", "1,9; 4,1,0"));
    expected.extend([
        wrote("normal form 4", "1,9; 5,1 [1,7; 1,8]"),
        wrote("normal form 2", "1,9; 4,1,0"),
        wrote("compare not contained 2 entries 4", "1,9; 7,1 [1,7; 1,8]"),
        said("compare contained"),
    ]);
    check(&by_the_list(), &expected);
}

#[test]
fn a_named_one_and_its_double() {
    let whole = "3,1,1; 5,1 [1,7; 2,8; 2,9]";
    let without_8 = "3,1,1; 5,1 [1,7; 2,9]";
    let mut expected = Vec::from(alike("normal form 5", whole));
    expected.extend([
        // Under the list, which implies the lack of 8, and without it.
        wrote("normal form 4", without_8),
        wrote("normal form 4", without_8),
        wrote("normal form 5", whole),
        wrote("normal form 4", without_8),
    ]);
    check(&by_the_names(), &expected);
}
