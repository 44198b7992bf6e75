//! The vectors of the narrowest description of two, with answers from the statements.

use super::*;
use differential::named::narrowest;

/// The blocks of this text are written.
fn is(text: &str) -> Expected {
    let entries = reference::notation::entries(text).len();
    wrote(&format!("narrowest {entries}"), text)
}

/// Refused with this number, input and place.
fn refused(number: u8, input: u16, place: u32) -> Expected {
    super::refused("narrowest", number, input, place)
}

/// Two vectors for each of these, one for each order of the two descriptions.
fn check_both_ways(vectors: &[Vector], due: &[&str]) {
    let expected: Vec<Expected> = due.iter().flat_map(|text| [is(text), is(text)]).collect();
    check(vectors, &expected);
}

/// An 'every' of each of two links at the top, a lack by the second, and two links down a property: the places stand by their levels.
fn two_links() -> Expected {
    let entries = [
        entry(5, 0, 1, 0),
        entry(5, 0, 2, 0),
        entry(5, 1, 3, 0),
        entry(2, 2, 9, 0),
        entry(1, 3, 8, 0),
    ];
    wrote_entries("narrowest 5", &entries)
}

#[test]
fn what_both_say() {
    check_both_ways(
        &narrowest::joined(),
        &[
            "",
            "1,7; 2,8",
            "3,1,2; 4,1,9",
            "",
            "3,1,1; 4,1,5; 5,1 [1,8]",
            "1,7; 3,1,3",
        ],
    );
}

#[test]
fn at_most() {
    check_both_ways(
        &narrowest::most(),
        &[
            "",
            "4,1,65535",
            "",
            "",
            "4,1,0",
            "4,1,0",
            "5,1 [4,2,0]",
            "",
            "3,32768,1",
            "5,65535 [1,7]",
        ],
    );
}

#[test]
fn places_below() {
    check_both_ways(
        &narrowest::every(),
        &[
            "",
            "",
            "",
            "",
            "5,1 [1,7]",
            "",
            "3,1,1",
            "5,1 [1,7; 5,2 [1,8]]",
        ],
    );
}

#[test]
fn a_link_that_leads_nowhere_on_one_side() {
    let vectors = narrowest::closed();
    check_both_ways(
        &vectors[..10],
        &[
            "4,1,3; 5,1 [1,7]",
            "5,1 [1,7; 5,2 [2,7; 3,3,2]]",
            "5,1 [1,7]",
            "5,1 [5,2 [1,7]]",
            "5,1 [5,2 [5,3 [1,7]]]",
        ],
    );
    check(&vectors[10..12], &[two_links(), two_links()]);
    check_both_ways(&vectors[12..], &["5,1 [1,7]", "", "5,1 [1,8]"]);
}

#[test]
fn where_no_item_fits_one() {
    check_both_ways(
        &narrowest::impossible(),
        &[
            "1,7; 3,1,2",
            "",
            "6",
            "6",
            "1,8; 4,1,3",
            "5,1 [1,7]",
            "4,32768,0",
            "4,1,0",
        ],
    );
}

#[test]
fn lacks_that_pairs_imply() {
    check_both_ways(
        &narrowest::lacks(),
        &[
            // No list.
            "",
            "",
            // Properties 2 and 3 exclude property 1.
            "2,1",
            "2,1",
            "1,2",
            "2,1",
            "",
            "5,1 [2,1]",
            "5,1 [1,2]",
            "5,1 [5,2 [2,1]]",
            "1,3",
            "5,1 [1,3]",
            // The same pairs, again and the other way.
            "2,1",
            // Properties 1 and 2 exclude each of 3, 4 and 5.
            "2,3; 2,4; 2,5",
            "2,3; 2,4; 2,5; 2,9",
        ],
    );
}

#[test]
fn named_descriptions() {
    let mut expected = Vec::new();
    for text in ["1,7", "5,1 [1,7; 1,8]", "", "5,1 [1,7]"] {
        expected.extend([is(text), is(text)]);
    }
    expected.extend([is("1,7"), refused(7, 0, 0), refused(1, 2, 0)]);
    check(&narrowest::names(), &expected);
}

#[test]
fn sixteen_blocks_together() {
    let of = |count: u16| {
        let names = (1..=count).map(|name| entry(1, 0, name, 0));
        wrote_entries(&format!("narrowest {count}"), &names.collect::<Vec<_>>())
    };
    check(
        &narrowest::together(),
        &[
            of(504),
            refused(7, 0, 0),
            refused(1, 2, 0),
            of(63),
            refused(1, 2, 0),
            refused(1, 2, 0),
        ],
    );
}

#[test]
fn places_that_get_longer() {
    // 'Every' first, and then the lacks of each place.
    let of = |links: u16| {
        let every = (1..=links).map(|link| entry(5, 0, link, 0));
        let lacks = |owner| (9..=16).map(move |name| entry(2, owner, name, 0));
        let entries: Vec<Entry> = every.chain((1..=links).flat_map(lacks)).collect();
        wrote_entries(&format!("narrowest {}", entries.len()), &entries)
    };
    check(
        &narrowest::lengthened(),
        &[
            of(112),
            refused(7, 0, 0),
            refused(7, 0, 0),
            refused(7, 0, 0),
            of(30),
            refused(7, 0, 0),
            refused(7, 0, 0),
            refused(7, 0, 0),
        ],
    );
}

#[test]
fn outputs() {
    let short = || refused(7, 0, 0);
    check(
        &narrowest::outputs(),
        &[
            short(),
            short(),
            short(),
            short(),
            short(),
            short(),
            is(""),
            is("1,7"),
            is(""),
            is("1,7"),
        ],
    );
}

#[test]
fn refusals() {
    check(
        &narrowest::before_the_inputs(),
        &[
            refused(11, 0, 0),
            refused(11, 0, 0),
            refused(11, 0, 2),
            refused(11, 0, 1),
            refused(1, 100, 0),
            refused(8, 100, 0),
            refused(13, 101, 1),
            refused(4, 102, 1),
            refused(3, 101, 1),
        ],
    );
    for input in [1, 2] {
        check(
            &narrowest::of_input(input),
            &[
                refused(1, input, 0),
                refused(1, input, 0),
                refused(1, input, 0),
                refused(2, input, 1),
                refused(3, input, 1),
                refused(4, input, 2),
                refused(5, input, 1),
                refused(6, input, 34),
                refused(13, input, 1),
                refused(13, input, 2),
                refused(14, input, 0),
            ],
        );
    }
    check(
        &narrowest::after_the_inputs(),
        &[
            refused(4, 2, 1),
            refused(1, 2, 0),
            refused(4, 2, 1),
            refused(7, 0, 0),
        ],
    );
}
