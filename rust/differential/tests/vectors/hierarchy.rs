//! The vectors of the catalogue as a hierarchy, with their answers from the clauses' sentences.

use super::*;
use differential::named::hierarchy;

/// Refused with this number, input and place.
fn refused(number: u8, input: u16, place: u32) -> Expected {
    super::refused("hierarchy", number, input, place)
}

/// An answer that writes a table, superiors and classes, each row in brackets of its own.
fn ranked<const N: usize>(
    answer: &'static str,
    table: [[u8; N]; N],
    superiors: [[u8; N]; N],
    classes: [u8; N],
) -> Expected {
    let written = [table.concat(), superiors.concat(), classes.to_vec()];
    filled(answer, &written.concat())
}

/// Two services of which neither contains the other.
fn apart() -> Expected {
    ranked("hierarchy 10", [[1, 0], [0, 1]], [[0, 0], [0, 0]], [1, 2])
}

/// Two that say the same.
fn alike() -> Expected {
    ranked("hierarchy 10", [[1, 1], [1, 1]], [[0, 0], [0, 0]], [1, 1])
}

#[test]
fn a_byte_for_each_two() {
    let one = || ranked("hierarchy 3", [[1]], [[0]], [1]);
    let expected = [
        one(),
        one(),
        ranked("hierarchy 10", [[1, 1], [0, 1]], [[0, 1], [0, 0]], [1, 2]),
        ranked("hierarchy 10", [[1, 0], [1, 1]], [[0, 0], [1, 0]], [1, 2]),
        apart(),
        ranked(
            "hierarchy 21",
            [[1, 0, 0], [0, 1, 0], [1, 1, 1]],
            [[0, 0, 0], [0, 0, 0], [1, 1, 0]],
            [1, 2, 3],
        ),
        alike(),
        // At most 1 of a single link is met by all; at least 2 of it by none.
        ranked(
            "hierarchy 21",
            [[1, 0, 0], [1, 1, 0], [1, 1, 1]],
            [[0, 0, 0], [1, 0, 0], [0, 1, 0]],
            [1, 2, 3],
        ),
        ranked(
            "hierarchy 21",
            [[1, 0, 0], [1, 1, 1], [0, 0, 1]],
            [[0, 0, 0], [1, 0, 1], [0, 0, 0]],
            [1, 2, 3],
        ),
    ];
    check(&hierarchy::table(), &expected);
}

/// Each byte of the table is the single comparison of its two services.
#[test]
fn the_table_by_single_comparisons() {
    let lists = [
        hierarchy::table(),
        hierarchy::superiors(),
        hierarchy::classes(),
    ]
    .concat();
    for vector in lists {
        let services: Vec<&[u8]> = vector.second.chunks(512).collect();
        let (_, out) = vector.answer();
        let mut cells = out.iter();
        for c in &services {
            for d in &services {
                let single = Vector::compare(c.to_vec(), d.to_vec(), 1024).sort();
                let byte = usize::from(*cells.next().unwrap());
                assert_eq!(single, ["compare not contained", "compare contained"][byte]);
            }
        }
    }
}

#[test]
fn directly_above() {
    let expected = [
        ranked(
            "hierarchy 36",
            [[1, 1, 1, 1], [0, 1, 1, 1], [0, 0, 1, 1], [0, 0, 0, 1]],
            [[0, 1, 0, 0], [0, 0, 1, 0], [0, 0, 0, 1], [0, 0, 0, 0]],
            [1, 2, 3, 4],
        ),
        ranked(
            "hierarchy 36",
            [[1, 0, 0, 0], [1, 1, 0, 0], [1, 1, 1, 0], [1, 1, 1, 1]],
            [[0, 0, 0, 0], [1, 0, 0, 0], [0, 1, 0, 0], [0, 0, 1, 0]],
            [1, 2, 3, 4],
        ),
        ranked(
            "hierarchy 55",
            [
                [1, 0, 1, 1, 0],
                [1, 1, 1, 1, 0],
                [0, 0, 1, 0, 0],
                [1, 0, 1, 1, 0],
                [1, 1, 1, 1, 1],
            ],
            [
                [0, 0, 1, 0, 0],
                [1, 0, 0, 1, 0],
                [0, 0, 0, 0, 0],
                [0, 0, 1, 0, 0],
                [0, 1, 0, 0, 0],
            ],
            [1, 2, 3, 1, 5],
        ),
        ranked(
            "hierarchy 36",
            [[1, 1, 1, 1], [0, 1, 0, 1], [0, 0, 1, 1], [0, 0, 0, 1]],
            [[0, 1, 1, 0], [0, 0, 0, 1], [0, 0, 0, 1], [0, 0, 0, 0]],
            [1, 2, 3, 4],
        ),
        ranked(
            "hierarchy 36",
            [[1, 1, 1, 1], [0, 1, 0, 1], [1, 1, 1, 1], [0, 1, 0, 1]],
            [[0, 1, 0, 1], [0, 0, 0, 0], [0, 1, 0, 1], [0, 0, 0, 0]],
            [1, 2, 1, 2],
        ),
        ranked(
            "hierarchy 36",
            [[1, 1, 1, 1], [0, 1, 1, 0], [0, 0, 1, 0], [0, 0, 0, 1]],
            [[0, 1, 0, 1], [0, 0, 1, 0], [0, 0, 0, 0], [0, 0, 0, 0]],
            [1, 2, 3, 4],
        ),
    ];
    check(&hierarchy::superiors(), &expected);
}

#[test]
fn the_lowest_position_of_a_class() {
    let none = [[0; 3]; 3];
    let expected = [
        ranked("hierarchy 21", [[1; 3]; 3], none, [1, 1, 1]),
        ranked(
            "hierarchy 36",
            [[1, 0, 1, 0], [0, 1, 0, 1], [1, 0, 1, 0], [0, 1, 0, 1]],
            [[0; 4]; 4],
            [1, 2, 1, 2],
        ),
        ranked("hierarchy 21", [[1; 3]; 3], none, [1, 1, 1]),
        ranked(
            "hierarchy 36",
            [[1, 0, 1, 1], [0, 1, 0, 0], [1, 0, 1, 1], [1, 0, 1, 1]],
            [[0; 4]; 4],
            [1, 2, 1, 1],
        ),
        ranked("hierarchy 21", [[1; 3]; 3], none, [1, 1, 1]),
    ];
    check(&hierarchy::classes(), &expected);
}

#[test]
fn under_a_list() {
    let without = || {
        ranked(
            "hierarchy 21",
            [[1, 0, 0], [0, 1, 0], [1, 1, 1]],
            [[0, 0, 0], [0, 0, 0], [1, 1, 0]],
            [1, 2, 3],
        )
    };
    let expected = [
        without(),
        // Who has clay lacks sand, so the first and the third say the same.
        ranked(
            "hierarchy 21",
            [[1, 1, 1], [0, 1, 0], [1, 1, 1]],
            [[0, 1, 0], [0, 0, 0], [0, 1, 0]],
            [1, 2, 1],
        ),
        without(),
        ranked(
            "hierarchy 21",
            [[1, 0, 0], [1, 1, 1], [0, 0, 1]],
            [[0, 0, 0], [1, 0, 1], [0, 0, 0]],
            [1, 2, 3],
        ),
        ranked(
            "hierarchy 21",
            [[1, 1, 1], [1, 1, 1], [0, 0, 1]],
            [[0, 0, 1], [0, 0, 1], [0, 0, 0]],
            [1, 1, 3],
        ),
    ];
    check(&hierarchy::by_the_list(), &expected);
}

#[test]
fn where_a_service_begins() {
    let mut expected = vec![
        ranked("hierarchy 3", [[1]], [[0]], [1]),
        alike(),
        refused(3, 2, 1),
        refused(3, 2, 1),
        refused(3, 3, 1),
        refused(2, 3, 1),
    ];
    expected.extend([(); 3].map(|()| refused(3, 3, 2)));
    check(&hierarchy::begins(), &expected);
}

#[test]
fn number_1_of_a_list() {
    check(&hierarchy::lengths(), &[(); 6].map(|()| refused(1, 2, 0)));
}

/// The longest chain: row i is 1 from its diagonal on, and each but the last has the next as its one superior.
#[test]
fn number_8_of_a_list() {
    let mut written = vec![0; 8256];
    for i in 0..64 {
        written[64 * i + i..64 * i + 64].fill(1);
        if i < 63 {
            written[4096 + 65 * i + 1] = 1;
        }
        written[8192 + i] = i as u8 + 1;
    }
    let expected = [
        filled("hierarchy 8256", &written),
        refused(8, 2, 0),
        refused(1, 2, 0),
    ];
    check(&hierarchy::counts(), &expected);
}

#[test]
fn the_services_own_checks() {
    let own = [
        (2, 2),
        (3, 1),
        (4, 2),
        (4, 2),
        (4, 2),
        (4, 1),
        (5, 2),
        (6, 34),
    ];
    let mut expected = first_and_third("hierarchy", &own);
    expected.extend([refused(1, 2, 0), refused(1, 3, 0)]);
    check(&hierarchy::own_checks(), &expected);
}

#[test]
fn each_service_before_the_next() {
    let expected = [refused(4, 3, 2), refused(3, 3, 1), refused(2, 3, 2)];
    check(&hierarchy::one_after_the_other(), &expected);
}

#[test]
fn the_order() {
    let expected = [
        refused(11, 0, 0),
        refused(11, 0, 2),
        refused(1, 2, 0),
        refused(4, 3, 1),
        refused(7, 0, 0),
    ];
    check(&hierarchy::order(), &expected);
}

#[test]
fn an_output_that_is_too_short() {
    let short = || refused(7, 0, 0);
    let one = || ranked("hierarchy 3", [[1]], [[0]], [1]);
    let three = || {
        ranked(
            "hierarchy 21",
            [[1, 1, 0], [0, 1, 0], [0, 1, 1]],
            [[0, 1, 0], [0, 0, 0], [0, 1, 0]],
            [1, 2, 3],
        )
    };
    let expected = [
        short(),
        short(),
        one(),
        one(),
        short(),
        short(),
        short(),
        short(),
        three(),
        three(),
        short(),
        alike(),
    ];
    check(&hierarchy::outputs(), &expected);
}
