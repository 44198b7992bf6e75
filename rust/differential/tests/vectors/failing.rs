//! The vectors of the entries that fail, with answers from the statements.

use super::*;
use differential::named::failing;

/// Contained: so many bytes, all 0.
fn contained(entries: usize) -> Expected {
    filled("failing yes", &vec![0; entries])
}

/// Not contained: these bytes.
fn fails(bytes: &[u8]) -> Expected {
    filled("failing no", bytes)
}

/// Refused with this number, input and place.
fn refused(number: u8, input: u16, place: u32) -> Expected {
    super::refused("failing", number, input, place)
}

#[test]
fn each_entry_has_a_byte() {
    check(
        &failing::bytes(),
        &[
            fails(&[0, 0, 1, 0, 1]),
            contained(0),
            contained(0),
            contained(3),
            contained(4),
            fails(&[1, 0, 1, 1]),
            fails(&[1, 1, 0, 0, 1, 0, 1]),
            fails(&[0, 0, 0, 0, 0, 1]),
            fails(&[1]),
            fails(&[0, 1]),
            contained(2),
            fails(&[0, 0, 1]),
        ],
    );
}

#[test]
fn the_lowest_is_the_entry_of_the_comparison() {
    check(
        &failing::lowest(),
        &[
            contained(1),
            said("compare contained"),
            fails(&[0, 1, 0, 1]),
            wrote("compare not contained 2 entries 1", "1,7"),
            fails(&[1, 0]),
            wrote("compare not contained 1 entries 1", "7,1,1"),
            fails(&[0, 0, 0, 1, 1]),
            wrote("compare not contained 4 entries 3", "7,1 [1,7; 7,2]"),
        ],
    );
}

#[test]
fn each_with_its_owners_alone() {
    let bytes = [0, 1, 0, 0, 0, 1, 0, 1];
    let vectors = failing::alone();
    let (by_bytes, compared) = vectors.split_at(4);
    check(
        by_bytes,
        &[
            fails(&bytes),
            fails(&[0, 0, 0, 1]),
            fails(&[0, 1, 1]),
            fails(&[1, 1, 1, 0, 1]),
        ],
    );
    assert_eq!(compared.len(), bytes.len());
    for (vector, byte) in compared.iter().zip(bytes) {
        let line = vector.line(1);
        assert_eq!(line.starts_with("1 compare contained"), byte == 0, "{line}");
    }
}

#[test]
fn where_no_item_fits_the_first() {
    check(
        &failing::nothing_fits(),
        &[
            contained(4),
            contained(3),
            contained(1),
            contained(2),
            fails(&[1, 0]),
        ],
    );
}

#[test]
fn links_to_one_item_and_lists() {
    check(
        &failing::single(),
        &[fails(&[0, 1, 0, 1]), fails(&[1, 0, 0]), contained(2)],
    );
    check(
        &failing::by_the_list(),
        &[
            fails(&[1, 1, 1]),
            fails(&[0, 1, 1]),
            fails(&[0, 0, 1]),
            contained(2),
            fails(&[0, 0, 0, 1]),
            fails(&[1, 0]),
        ],
    );
}

#[test]
fn as_many_as_are_allowed() {
    let mut all_but_one = [1; 1008];
    // Name 7 is the seventh from the end.
    all_but_one[1008 - 7] = 0;
    let mut all_but_two = [1; 70];
    all_but_two[70 - 64] = 0;
    all_but_two[70 - 3] = 0;
    check(
        &failing::sizes(),
        &[contained(1008), fails(&all_but_one), fails(&all_but_two)],
    );
}

#[test]
fn outputs_and_refusals() {
    check(
        &failing::outputs(),
        &[
            fails(&[0, 1]),
            refused(7, 0, 0),
            contained(2),
            refused(7, 0, 0),
            refused(7, 0, 0),
            contained(0),
            contained(0),
            contained(1),
        ],
    );
    check(
        &failing::of_the_list(),
        &[
            refused(11, 0, 0),
            refused(11, 0, 0),
            refused(11, 0, 2),
            refused(11, 0, 1),
        ],
    );
    for input in [1, 2] {
        check(
            &failing::of_input(input),
            &[
                refused(1, input, 0),
                refused(1, input, 0),
                refused(1, input, 0),
                refused(2, input, 1),
                refused(3, input, 1),
                refused(4, input, 2),
                refused(4, input, 2),
                refused(5, input, 1),
                refused(6, input, 34),
            ],
        );
    }
    check(
        &failing::order(),
        &[
            refused(4, 2, 2),
            refused(4, 1, 1),
            refused(7, 0, 0),
            refused(11, 0, 2),
        ],
    );
}
