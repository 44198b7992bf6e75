//! The vectors of what a description lacks, with answers from the statements.

use super::*;
use differential::named::missing;

/// Nothing is lacking of so many entries.
fn nothing(entries: usize) -> Expected {
    filled("missing nothing", &vec![0; entries])
}

/// To be added, with a mark for each entry.
fn add(marks: &[u8]) -> Expected {
    filled("missing addable", marks)
}

/// No item fits both, with a mark for each entry.
fn against(marks: &[u8]) -> Expected {
    filled("missing against", marks)
}

/// Refused with this number, input and place.
fn refused(number: u8, input: u16, place: u32) -> Expected {
    super::refused("missing", number, input, place)
}

#[test]
fn from_the_last_to_the_first() {
    let mut all_but_two = [1; 70];
    // Name 64 is entry 7, and name 3 entry 68.
    all_but_two[6] = 0;
    all_but_two[67] = 0;
    check(
        &missing::tried(),
        &[
            add(&[0, 1]),
            add(&[1, 0]),
            nothing(2),
            nothing(0),
            nothing(0),
            add(&[0, 1, 1]),
            add(&[0, 1]),
            add(&[1, 0]),
            add(&[0, 1, 0]),
            add(&[0, 1]),
            add(&[1; 70]),
            add(&all_but_two),
        ],
    );
}

#[test]
fn owners_of_what_is_marked() {
    check(
        &missing::owners(),
        &[
            add(&[1, 1]),
            add(&[1, 1, 1, 0]),
            add(&[1, 0, 1]),
            nothing(3),
            add(&[1, 1, 0, 1, 1]),
            add(&[1, 0, 0, 1]),
        ],
    );
}

#[test]
fn what_is_said_together() {
    check(
        &missing::together(),
        &[
            add(&[1, 1, 0]),
            add(&[1, 1, 0, 1]),
            add(&[1, 1]),
            add(&[1, 1, 1, 0]),
            nothing(3),
            add(&[0, 0, 1]),
            add(&[1, 0, 0]),
        ],
    );
}

#[test]
fn where_no_item_fits_both() {
    check(
        &missing::against(),
        &[
            against(&[1, 0]),
            against(&[1]),
            against(&[1]),
            nothing(2),
            nothing(1),
            against(&[1, 0]),
            against(&[1, 1, 0]),
            against(&[1, 1]),
        ],
    );
    check(
        &missing::single(),
        &[
            against(&[1]),
            nothing(1),
            against(&[1, 1]),
            nothing(2),
            against(&[1, 1]),
        ],
    );
}

#[test]
fn lists() {
    check(
        &missing::by_the_list(),
        &[
            add(&[1, 1]),
            add(&[0, 1]),
            add(&[1]),
            against(&[1]),
            add(&[1, 0]),
            add(&[0, 1]),
        ],
    );
}

#[test]
fn sixteen_blocks_together() {
    check(
        &missing::limits(),
        &[
            add(&[1; 504]),
            refused(7, 0, 0),
            refused(1, 2, 0),
            refused(1, 2, 0),
            refused(1, 2, 0),
            refused(1, 2, 0),
            nothing(63),
            refused(4, 2, 1),
        ],
    );
}

#[test]
fn outputs_and_refusals() {
    check(
        &missing::outputs(),
        &[
            add(&[0, 1]),
            refused(7, 0, 0),
            refused(7, 0, 0),
            refused(7, 0, 0),
            nothing(0),
            refused(7, 0, 0),
            nothing(0),
        ],
    );
    check(
        &missing::order(),
        &[
            refused(11, 0, 0),
            refused(11, 0, 2),
            refused(4, 1, 1),
            refused(4, 2, 2),
            refused(1, 1, 0),
            refused(1, 2, 0),
            refused(5, 2, 1),
            refused(4, 2, 1),
        ],
    );
}
