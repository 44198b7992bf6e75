//! The vectors of field sheets, with their answers from the clauses' sentences.

use super::*;
use differential::named::sheets;

/// Refused with this number at this place.
fn refused(number: u8, place: u32) -> Expected {
    super::refused("sheet", number, 1, place)
}

/// Accepted, with so many entries.
macro_rules! accepted {
    ($entries:literal) => {
        said(concat!("sheet accepted ", $entries))
    };
}

#[test]
fn four_kinds() {
    let expected = [
        accepted!(0),
        accepted!(5),
        refused(19, 2),
        refused(19, 2),
        refused(19, 2),
        refused(4, 1),
        refused(4, 1),
        refused(4, 1),
    ];
    check(&sheets::kinds(), &expected);
}

#[test]
fn numbers_to_99() {
    let expected = [
        accepted!(2),
        refused(19, 1),
        refused(19, 1),
        refused(19, 1),
        accepted!(4),
        refused(4, 1),
    ];
    check(&sheets::numbers(), &expected);
}

#[test]
fn three_links_deep() {
    let expected = [accepted!(4), accepted!(5), refused(19, 5), refused(19, 5)];
    check(&sheets::depths(), &expected);
}

#[test]
fn after_4_5_and_6_of_that_entry() {
    let expected = [
        refused(19, 1),
        refused(4, 1),
        refused(4, 1),
        refused(4, 1),
        refused(5, 1),
        refused(5, 1),
        refused(19, 5),
        refused(19, 1),
        refused(2, 1),
        refused(3, 1),
    ];
    check(&sheets::order(), &expected);
}

#[test]
fn lengths_and_sizes_as_of_any_description() {
    let expected = [
        refused(1, 0),
        refused(1, 0),
        accepted!(63),
        accepted!(64),
        accepted!(1008),
        refused(1, 0),
        refused(19, 1008),
    ];
    check(&sheets::as_any(), &expected);
}
