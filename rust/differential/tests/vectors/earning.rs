//! The vectors of what earns a yes, with answers from the statements.

use super::*;
use differential::named::earning;

/// Refused with this number, input and place.
fn refused(number: u8, input: u16, place: u32) -> Expected {
    super::refused("earning", number, input, place)
}

/// Contained, with a mark for each entry.
fn yes(marks: &[u8]) -> Expected {
    filled("earning yes", marks)
}

/// Not contained, and nothing is marked of so many entries.
fn no(entries: usize) -> Expected {
    filled("earning no", &vec![0; entries])
}

#[test]
fn from_the_last_to_the_first() {
    let mut two_of_many = [0; 70];
    // Name 64 is entry 7, and name 3 entry 68.
    two_of_many[6] = 1;
    two_of_many[67] = 1;
    check(
        &earning::tried(),
        &[
            yes(&[1, 1, 1, 0, 0]),
            yes(&[]),
            yes(&[0, 0]),
            yes(&[1, 0]),
            yes(&[0, 1, 0]),
            yes(&[1, 0]),
            yes(&[1, 0]),
            yes(&[1, 0, 0]),
            yes(&[0, 1]),
            yes(&two_of_many),
        ],
    );
}

#[test]
fn owners_of_what_is_marked() {
    check(
        &earning::owners(),
        &[
            yes(&[1, 1]),
            yes(&[0, 1]),
            yes(&[0, 0, 0]),
            yes(&[1, 1, 0, 1]),
            yes(&[1, 1, 0, 0]),
            yes(&[1, 1, 1, 1]),
            yes(&[1, 0, 0, 1]),
        ],
    );
}

#[test]
fn where_nothing_fits() {
    check(
        &earning::nothing_fits(),
        &[
            yes(&[1, 1]),
            yes(&[1, 0, 0]),
            yes(&[1, 1, 0]),
            yes(&[1, 1, 0]),
            yes(&[1, 1, 1]),
            yes(&[1, 1, 1, 1]),
            yes(&[1, 0]),
            yes(&[1, 0]),
            yes(&[0]),
        ],
    );
}

#[test]
fn noes_and_lists() {
    check(&earning::noes(), &[no(1), no(0), no(3), no(1), no(1)]);
    check(
        &earning::by_the_list(),
        &[
            no(1),
            no(2),
            yes(&[1]),
            yes(&[0, 1, 1]),
            yes(&[1, 0]),
            yes(&[1, 0]),
        ],
    );
}

#[test]
fn outputs_and_refusals() {
    check(
        &earning::outputs(),
        &[
            yes(&[1, 0]),
            refused(7, 0, 0),
            refused(7, 0, 0),
            no(2),
            yes(&[]),
            no(0),
            refused(7, 0, 0),
        ],
    );
    check(
        &earning::order(),
        &[
            refused(11, 0, 0),
            refused(11, 0, 2),
            refused(4, 1, 1),
            refused(4, 2, 2),
            refused(1, 1, 0),
            refused(1, 2, 0),
            refused(5, 2, 1),
            refused(4, 2, 1),
        ],
    );
}
