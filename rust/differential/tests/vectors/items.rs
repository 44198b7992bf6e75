//! The vectors of delivered items, with answers from the statements.

use super::*;
use differential::named::items;

/// Refused with this number, input and place.
fn refused(number: u8, input: u16, place: u32) -> Expected {
    super::refused("fit all", number, input, place)
}

#[test]
fn each_item() {
    check(
        &items::items(),
        &[
            filled("fit all 1", &[1]),
            filled("fit all 3", &[1, 1, 1]),
            filled("fit all 4", &[1, 1, 1, 1]),
            filled("fit all 4", &[1, 0, 1, 0]),
            filled("fit all 4", &[0, 1, 0, 1]),
            filled("fit all 4", &[1, 0, 0, 0]),
            filled("fit all 4", &[0, 0, 0, 0]),
            filled("fit all 4", &[0, 1, 1, 1]),
            filled("fit all 4", &[0, 1, 1, 1]),
            filled("fit all 4", &[0, 0, 0, 0]),
        ],
    );
}

#[test]
fn said_twice() {
    check(
        &items::once(),
        &[
            filled("fit all 2", &[0, 0]),
            filled("fit all 2", &[1, 0]),
            filled("fit all 2", &[0, 1]),
        ],
    );
}

#[test]
fn links_that_go_round() {
    check(
        &items::round(),
        &[
            filled("fit all 5", &[1, 0, 1, 0, 0]),
            filled("fit all 5", &[0, 1, 0, 0, 1]),
            filled("fit all 5", &[1, 1, 1, 1, 0]),
            filled("fit all 5", &[0, 0, 0, 1, 1]),
        ],
    );
}

#[test]
fn links_to_one_item() {
    check(
        &items::singles(),
        &[
            filled("fit all 3", &[1, 0, 0]),
            refused(9, 1, 2),
            refused(9, 1, 3),
            filled("fit all 3", &[1, 1, 1]),
            filled("fit all 3", &[1, 1, 1]),
            filled("fit all 3", &[1, 1, 1]),
        ],
    );
}

#[test]
fn totals_and_item_numbers() {
    let first = |total| {
        let mut fits = vec![0; total];
        fits[0] = 1;
        fits
    };
    check(
        &items::totals(),
        &[
            refused(10, 1, 0),
            filled("fit all 1", &[1]),
            filled("fit all 255", &first(255)),
            filled("fit all 256", &first(256)),
            refused(10, 1, 0),
            refused(10, 1, 0),
            refused(10, 1, 0),
            refused(10, 1, 0),
            refused(1, 1, 0),
        ],
    );
    check(
        &items::numbers(),
        &[
            refused(10, 1, 2),
            refused(10, 1, 1),
            refused(10, 1, 1),
            refused(10, 1, 1),
            refused(10, 1, 1),
        ],
    );
}

#[test]
fn order() {
    check(
        &items::order(),
        &[
            refused(4, 1, 1),
            refused(4, 1, 1),
            refused(4, 1, 1),
            refused(10, 1, 2),
            refused(9, 1, 2),
            refused(2, 1, 1),
            refused(10, 1, 3),
            refused(12, 1, 2),
            refused(4, 2, 1),
            refused(4, 1, 1),
        ],
    );
}

#[test]
fn lists_and_names() {
    check(
        &items::by_the_list(),
        &[
            filled("fit all 2", &[1, 0]),
            refused(12, 1, 4),
            filled("fit all 2", &[1, 1]),
            refused(11, 0, 0),
        ],
    );
    check(
        &items::named(),
        &[
            filled("fit all 2", &[1, 0]),
            filled("fit all 2", &[0, 1]),
            refused(13, 2, 1),
            refused(13, 2, 1),
            refused(4, 101, 1),
            refused(10, 1, 0),
        ],
    );
}

#[test]
fn outputs() {
    check(
        &items::outputs(),
        &[
            refused(7, 0, 0),
            refused(7, 0, 0),
            filled("fit all 256", &[0; 256]),
            refused(7, 0, 0),
            filled("fit all 256", &[0; 256]),
        ],
    );
}
