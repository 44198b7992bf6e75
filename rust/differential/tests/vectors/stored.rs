//! The vectors of the stored form, with answers from the statements.

use super::*;
use differential::named::stored::{self, Row};

/// Written in the stored form.
fn rows(answer: &'static str, rows: &[Row]) -> Expected {
    filled(answer, &stored::stored(rows))
}

/// So many properties, written as a description.
fn flat(answer: &'static str, count: usize) -> Expected {
    let names = (1..=count as u16).rev();
    let entries: Vec<Entry> = names.map(|name| entry(1, 0, name, 0)).collect();
    wrote_entries(answer, &entries)
}

#[test]
fn walking_order() {
    let [apart, by_level, kinds]: [&[Row]; 3] = [
        &[(1, 0, 8, 0), (5, 0, 1, 0), (1, 1, 7, 0), (2, 0, 9, 0)],
        &[
            (5, 0, 1, 0),
            (5, 1, 3, 0),
            (4, 2, 513, 4660),
            (1, 1, 7, 0),
            (5, 0, 2, 0),
            (1, 1, 8, 0),
            (1, 1, 7, 0),
            (2, 0, 9, 0),
        ],
        &[
            (1, 0, 7, 0),
            (2, 0, 8, 0),
            (3, 0, 1, 2),
            (4, 0, 32_768, 65_535),
            (5, 0, 1, 0),
            (6, 1, 0, 0),
            (5, 1, 2, 0),
        ],
    ];
    check(
        &stored::walked(),
        &[
            rows("to stored 0", &[]),
            rows("to stored 1", &[(6, 0, 0, 0)]),
            rows("to stored 4", apart),
            rows("to stored 8", by_level),
            rows("to stored 7", kinds),
            rows("to stored 33", &stored::chain(33)),
        ],
    );
}

#[test]
fn eighty_four_to_a_block() {
    check(
        &stored::sizes(),
        &[
            refused("to stored", 7, 0, 0),
            refused("to stored", 7, 0, 0),
            rows("to stored 0", &[]),
            rows("to stored 64", &stored::flat(64)),
            rows("to stored 84", &stored::flat(84)),
            refused("to stored", 7, 0, 0),
            rows("to stored 85", &stored::flat(85)),
            rows("to stored 1008", &stored::flat(1008)),
            refused("to stored", 7, 0, 0),
        ],
    );
}

#[test]
fn descriptions_that_are_refused() {
    check(
        &stored::refused_descriptions(),
        &[
            refused("to stored", 1, 1, 0),
            refused("to stored", 2, 1, 1),
            refused("to stored", 4, 1, 1),
            refused("to stored", 4, 1, 1),
            refused("to stored", 4, 1, 1),
            refused("to stored", 5, 1, 1),
            refused("to stored", 6, 1, 34),
            refused("to stored", 4, 1, 1),
        ],
    );
}

#[test]
fn written_as_descriptions() {
    let deep: Vec<Entry> = (0..33).map(|owner| entry(5, owner, 1, 0)).collect();
    check(
        &stored::restored(),
        &[
            wrote("from stored 0", ""),
            wrote("from stored 1", "6"),
            wrote("from stored 4", "1,8; 5,1 [1,7]; 2,9"),
            wrote("from stored 4", "5,1 [5,2 [1,7]; 1,8]"),
            wrote("from stored 4", "5,1 [5,2 [1,7]]; 1,8"),
            wrote("from stored 3", "5,1 [1,8; 1,7]"),
            wrote_entries("from stored 33", &deep),
        ],
    );
    check(
        &stored::restored_sizes(),
        &[
            refused("from stored", 7, 0, 0),
            flat("from stored 63", 63),
            refused("from stored", 7, 0, 0),
            flat("from stored 64", 64),
            flat("from stored 84", 84),
            flat("from stored 85", 85),
            flat("from stored 1008", 1008),
            refused("from stored", 7, 0, 0),
            refused("from stored", 1, 1, 0),
        ],
    );
}

#[test]
fn depths_that_no_owner_gives() {
    check(
        &stored::owners(),
        &[
            refused("from stored", 15, 1, 2),
            refused("from stored", 15, 1, 2),
            refused("from stored", 15, 1, 1),
            refused("from stored", 15, 1, 3),
            refused("from stored", 15, 1, 3),
            refused("from stored", 15, 1, 4),
            refused("from stored", 15, 1, 1),
            refused("from stored", 15, 1, 1),
            refused("from stored", 15, 1, 1),
        ],
    );
}

#[test]
fn order() {
    check(
        &stored::order(),
        &[
            refused("from stored", 6, 1, 34),
            refused("from stored", 6, 1, 34),
            refused("from stored", 15, 1, 34),
            refused("from stored", 4, 1, 34),
            refused("from stored", 4, 1, 1),
            refused("from stored", 4, 1, 1),
            refused("from stored", 4, 1, 1),
            refused("from stored", 4, 1, 1),
            refused("from stored", 4, 1, 1),
            refused("from stored", 4, 1, 1),
            refused("from stored", 15, 1, 1),
            refused("from stored", 4, 1, 1),
            refused("from stored", 15, 1, 1),
        ],
    );
}

#[test]
fn lengths_frames_and_checks() {
    check(
        &stored::frames(),
        &[
            refused("from stored", 1, 1, 0),
            refused("from stored", 1, 1, 0),
            refused("from stored", 1, 1, 0),
            refused("from stored", 3, 1, 1),
            refused("from stored", 2, 1, 1),
            refused("from stored", 2, 1, 1),
            refused("from stored", 2, 1, 2),
            refused("from stored", 3, 1, 1),
            refused("from stored", 3, 1, 1),
            refused("from stored", 3, 1, 1),
            refused("from stored", 3, 1, 1),
            refused("from stored", 3, 1, 1),
        ],
    );
}

#[test]
fn entries_that_change_places() {
    check(
        &stored::exchanged(),
        &[
            wrote("from stored 2", "3,2,1; 3,1,2"),
            refused("from stored", 2, 1, 1),
            wrote("from stored 3", "3,1,32768; 1,9; 3,1,0"),
            refused("from stored", 2, 1, 1),
            refused("from stored", 2, 1, 1),
            refused("from stored", 15, 1, 3),
        ],
    );
}

#[test]
fn the_other_form() {
    check(
        &stored::both_forms(),
        &[
            wrote("from stored 0", ""),
            wrote("from stored 1", "6"),
            refused("from stored", 4, 1, 1),
            refused("from stored", 4, 1, 2),
            refused("from stored", 3, 1, 1),
            refused("from stored", 3, 1, 1),
        ],
    );
}
