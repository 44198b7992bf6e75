//! The vectors of all services in one call, with their answers from the clauses.

use super::*;
use differential::named::catalogue;

/// Refused with this number, input and place.
fn refused(number: u8, input: u16, place: u32) -> Expected {
    super::refused("catalogue", number, input, place)
}

#[test]
fn a_byte_for_each_service() {
    let expected = [
        filled("catalogue 1", &[1]),
        filled("catalogue 1", &[0]),
        filled("catalogue 4", &[1, 0, 1, 0]),
        filled("catalogue 4", &[1, 0, 1, 0]),
        filled("catalogue 3", &[1, 1, 1]),
        filled("catalogue 3", &[1, 0, 1]),
        filled("catalogue 3", &[1, 0, 0]),
        filled("catalogue 5", &[0, 1, 0, 1, 1]),
    ];
    check(&catalogue::bytes(), &expected);
}

/// Each byte is the single comparison's (L4).
#[test]
fn the_pairs_of_the_desk() {
    let contained = [1, 1, 0, 1, 1, 0, 1, 0, 0, 1, 1, 0];
    let vectors = catalogue::desk();
    check(
        &vectors,
        &contained.map(|byte| filled("catalogue 1", &[byte])),
    );
    for (vector, byte) in vectors.into_iter().zip(contained) {
        let output = vector.first.len() + vector.second.len();
        let single = Vector::compare(vector.first, vector.second, output);
        let sort = ["compare not contained", "compare contained"][usize::from(byte)];
        assert_eq!(single.sort(), sort);
    }
}

#[test]
fn where_a_service_begins() {
    let mut expected = vec![
        filled("catalogue 1", &[1]),
        filled("catalogue 2", &[1, 1]),
        filled("catalogue 3", &[0, 1, 0]),
        refused(3, 2, 1),
        refused(3, 2, 1),
        refused(3, 2, 1),
        // Of the second service the block numbered 1 is one of two, and uses one entry.
        refused(3, 3, 1),
        refused(2, 3, 1),
    ];
    // Numbers 0, 3, 256, 257 and 65,535 in the second block of the second service.
    expected.extend([(); 5].map(|()| refused(3, 3, 2)));
    check(&catalogue::begins(), &expected);
}

#[test]
fn number_1_of_a_list() {
    check(&catalogue::lengths(), &[(); 6].map(|()| refused(1, 2, 0)));
}

#[test]
fn number_8_of_a_list() {
    let mut most = [1; 64];
    most[63] = 0;
    let expected = [
        filled("catalogue 64", &most),
        refused(8, 2, 0),
        refused(8, 2, 0),
        refused(1, 2, 0),
    ];
    check(&catalogue::counts(), &expected);
}

#[test]
fn the_services_own_checks() {
    let own = [
        (2, 2),
        (3, 1),
        (4, 2),
        (4, 2),
        (4, 2),
        (13, 2),
        (5, 2),
        (6, 34),
        (14, 0),
    ];
    let mut expected = first_and_third("catalogue", &own);
    expected.extend([
        // Sixteen blocks pass, and seventeen are 1, whatever they would unfold to.
        filled("catalogue 2", &[0, 1]),
        refused(1, 3, 0),
        refused(1, 2, 0),
    ]);
    check(&catalogue::own_checks(), &expected);
}

#[test]
fn each_service_before_the_next() {
    let expected = [
        refused(4, 3, 2),
        refused(3, 3, 1),
        refused(14, 3, 0),
        refused(14, 3, 0),
        refused(14, 4, 0),
    ];
    check(&catalogue::one_after_the_other(), &expected);
}

#[test]
fn the_order() {
    let expected = [
        refused(11, 0, 0),
        refused(11, 0, 2),
        refused(1, 100, 0),
        refused(13, 103, 1),
        refused(1, 1, 0),
        refused(4, 1, 1),
        refused(13, 1, 2),
        refused(14, 1, 0),
        // More than 64 services, and a supplier that is refused.
        refused(4, 1, 1),
        refused(1, 2, 0),
        refused(4, 2, 1),
        refused(4, 4, 1),
        refused(7, 0, 0),
    ];
    check(&catalogue::order(), &expected);
}

#[test]
fn fewer_bytes_than_services() {
    let short = || refused(7, 0, 0);
    let five = || filled("catalogue 5", &[1, 0, 1, 1, 0]);
    let expected = [
        short(),
        filled("catalogue 1", &[1]),
        filled("catalogue 1", &[1]),
        short(),
        filled("catalogue 1", &[0]),
        filled("catalogue 1", &[0]),
        short(),
        short(),
        short(),
        five(),
        five(),
        five(),
        // Descriptions of two blocks.
        short(),
        filled("catalogue 2", &[1, 1]),
    ];
    check(&catalogue::outputs(), &expected);
}

#[test]
fn under_a_list_and_with_names() {
    let expected = [
        filled("catalogue 3", &[0, 0, 1]),
        filled("catalogue 3", &[1, 0, 1]),
        filled("catalogue 3", &[1, 1, 1]),
        filled("catalogue 3", &[0, 0, 0]),
        filled("catalogue 3", &[1, 1, 1]),
        filled("catalogue 4", &[1, 1, 1, 0]),
        refused(13, 1, 1),
        refused(13, 3, 1),
        filled("catalogue 2", &[1, 1]),
    ];
    check(&catalogue::pairs_and_names(), &expected);
}

#[test]
fn the_same_once_unfolded() {
    let expected = [(); 2].map(|()| filled("catalogue 4", &[0, 1, 1, 0]));
    check(&catalogue::as_unfolded(), &expected);
}
