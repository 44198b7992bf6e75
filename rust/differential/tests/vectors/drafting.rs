//! The vectors of the desk, with answers from the statements.

use super::*;
use differential::named::drafting;
use reference::decode;

/// So many properties.
fn properties(count: u16) -> Vec<Entry> {
    (1..=count).rev().map(|name| entry(1, 0, name, 0)).collect()
}

/// Answers as they are printed: a number as it is, `1..9` for each of these, and `4@3` for a refusal by 4 at place 3.
fn spelled(answers: &str) -> String {
    let each = |answer: &str| {
        if let Some((number, place)) = answer.split_once('@') {
            let input = i32::from(number != "7");
            return format!(" refused {number} input {input} place {place}");
        }
        if let Some((_, last)) = answer.split_once("..") {
            let last: usize = last.parse().expect("a number");
            return (1..=last).map(|n| format!(" {n}")).collect();
        }
        format!(" {answer}")
    };
    answers.split_whitespace().map(each).collect()
}

/// Each vector gives these answers and an output that starts with these bytes.
fn drafted(vectors: &[Vector], expected: &[(&str, Vec<u8>)]) {
    assert_eq!(vectors.len(), expected.len());
    for (number, (vector, (answers, written))) in (1..).zip(vectors.iter().zip(expected)) {
        let mut out = vec![FILL; vector.output];
        out[..written.len()].copy_from_slice(written);
        let line = format!("{number} desk{} output {}", spelled(answers), digest(&out));
        assert_eq!(vector.line(number), line);
    }
}

#[test]
fn adding() {
    let deep: Vec<Entry> = (0..33).map(|owner| entry(5, owner, 1, 0)).collect();
    let kinds = "1,7; 2,8; 3,1,2; 4,32768,65535; 5,1 [6; 5,2]";
    drafted(
        &drafting::added(),
        &[
            ("0", blocks("")),
            ("1..7 7", blocks(kinds)),
            ("1..33 33 6@34 6@34 33", encode(&deep)),
            ("", Vec::new()),
        ],
    );
}

#[test]
fn entries_that_are_wrong_there() {
    let mut expected = vec![("1 2 4@3 2", blocks("1,7; 5,1")); 14];
    for owner in 9..12 {
        expected[owner].0 = "1 2 5@3 2";
    }
    expected[13] = ("1 2 3 3", blocks("1,7; 5,1 [1,7]"));
    drafted(&drafting::wrong_entries(), &expected);
}

#[test]
fn no_more_than_1008() {
    drafted(
        &drafting::full(),
        &[
            ("1..1008 7@0 1008", encode(&properties(1008))),
            ("1..1008 16@0 16@0 1007 4@1008 1008 16@0", Vec::new()),
        ],
    );
}

#[test]
fn taking_off() {
    drafted(
        &drafting::taken_off(),
        &[
            ("17@0 0", blocks("")),
            ("1 0 17@0 0", blocks("")),
            ("1 2 3 2 1 5@2 1", blocks("1,7")),
            ("17@0 1 1", blocks("1,7")),
        ],
    );
}

#[test]
fn four_stands() {
    drafted(
        &drafting::stands(),
        &[
            ("18@0 18@0", Vec::new()),
            ("0 0 0 0 18@0 18@0", Vec::new()),
            ("0 0 0 0 1 18@0 1 0 1 1", blocks("1,7")),
            ("0 0 0 0 18@0 0 0 18@0", Vec::new()),
            ("0 0 0 0 0 0 0 0 18@0 0", Vec::new()),
        ],
    );
}

#[test]
fn going_back() {
    drafted(
        &drafting::gone_back(),
        &[
            ("1 2 2 1 2 2 2", blocks("1,7; 5,1")),
            ("0 1 1 1 1", blocks("1,9")),
            ("1 18@0 1", blocks("1,7")),
            ("0 1 2 3 0 0 0 5@1 1 1", blocks("1,8")),
            ("1 1 2 2 1 2 2 2 1 1", blocks("1,7")),
            ("1..70 70 69 70 70", encode(&properties(70))),
        ],
    );
}

#[test]
fn dropping() {
    drafted(
        &drafting::dropped(),
        &[
            ("18@0", Vec::new()),
            ("18@0 0", blocks("")),
            ("1 1 2 2 3 3 4 4 4 18@0 18@0 4 2 2", blocks("1,11; 1,12")),
            ("1 1 2 2 3 3 4 4 4 1 1", blocks("1,11")),
            ("1 1 2 2 3 3 4 4 4 3 3", blocks("1,11; 1,12; 1,13")),
            ("1 1 2 2 3 3 4 4 4 4 4 4", blocks("1,11; 1,12; 1,13; 1,14")),
            ("1 1 2 2 3 3 4 4 4 1 1 18@0 1 1", blocks("1,11")),
            (
                "1 1 2 2 3 3 4 4 4 4 4 4 18@0 4",
                blocks("1,11; 1,12; 1,13; 1,14"),
            ),
        ],
    );
}

#[test]
fn writing_out() {
    let most = encode(&properties(64));
    let fewer = encode(&decode(&most)[..63]);
    drafted(
        &drafting::written(),
        &[
            ("7@0 7@0 0 0", blocks("")),
            ("1..63 7@0 63", encode(&properties(63))),
            ("1..64 7@0 7@0 64", most.clone()),
            ("1..64 64 63 63", [&fewer, &most[512..]].concat()),
            ("1 7@0 2 2", blocks("1,7; 1,8")),
        ],
    );
}
