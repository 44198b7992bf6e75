//! Reading of field sheets.

use super::*;
use goltximen::read_sheet;

#[test]
fn accepted_as_any_description_is() {
    for entries in [
        &[][..],
        &[[1, 0, 7, 0], [3, 0, 1, 99], [4, 0, 1, 99]],
        &[
            [5, 0, 1, 0],
            [5, 1, 2, 0],
            [5, 2, 3, 0],
            [1, 3, 7, 0],
            [5, 3, 4, 0],
        ],
    ] {
        let bytes = blocks(entries);
        assert_eq!(read_sheet(&bytes), Ok(entries.len() as u16));
        assert_eq!(read_sheet(&bytes), read_description(&bytes));
    }
}

#[test]
fn refused_at_the_lowest_entry_outside() {
    let deep = [
        [5, 0, 1, 0],
        [5, 1, 2, 0],
        [5, 2, 3, 0],
        [5, 3, 4, 0],
        [1, 4, 7, 0],
    ];
    for (place, entries) in [
        (1, &[[2, 0, 7, 0]][..]),
        (2, &[[1, 0, 7, 0], [6, 0, 0, 0]]),
        (1, &[[3, 0, 1, 100]]),
        (5, &deep),
        // The second is refused by any reader, and stands later.
        (1, &[[2, 0, 7, 0], [1, 0, 0, 0]]),
    ] {
        assert_eq!(
            read_sheet(&blocks(entries)),
            refusal(Reason::Sheet, 1, place)
        );
    }
}

#[test]
fn all_other_refusals_are_those_of_any_description() {
    let mut damaged = blocks(&[[2, 0, 7, 0]]);
    damaged[510] ^= 1;
    for (reason, place, bytes) in [
        (Reason::Length, 0, Vec::new()),
        (Reason::Check, 1, damaged),
        (Reason::Frame, 1, block(2, &[[2, 0, 7, 0]])),
        (Reason::Form, 1, blocks(&[[2, 0, 0, 0]])),
        (Reason::Form, 1, blocks(&[[9, 0, 1, 0]])),
        (Reason::Owner, 1, blocks(&[[2, 1, 7, 0]])),
    ] {
        assert_eq!(read_sheet(&bytes), refusal(reason, 1, place));
        assert_eq!(read_description(&bytes), refusal(reason, 1, place));
    }
}
