//! Examples of the literature, with R = 1, S = 2 as links and P = 1, Q = 2 as
//! properties, and where the specification differs from it.

use crate::notation::{blocks, compared_texts, entries, entry, normal, Answer};

/// The running example: C is contained in D.
const C: &str = "5,1 [1,1; 1,2; 5,2 [3,2,1; 5,2 [1,2; 2,2]]]; 5,2 [1,2]; 5,2 [3,2,3]";
const D: &str = "5,1 [1,1; 5,2 [1,2]]; 5,2 [1,2; 3,2,1]";

fn normal_text(description: &str) -> Vec<reference::Entry> {
    normal(&blocks(description)).unwrap()
}

#[test]
fn example_7_is_contained() {
    assert_eq!(compared_texts(C, D), Answer::Contained);
}

#[test]
fn example_7_exchanged_is_not() {
    let specimen = entries("7,1 [1,1]");
    assert_eq!(compared_texts(D, C), Answer::Not { entry: 3, specimen });
}

/// The canonical graph of C: P, Q and at most 0 S by R; Q and at least 3 S by
/// S.
#[test]
fn example_11_normal_form() {
    assert_eq!(
        normal_text(C),
        [
            entry(5, 0, 1, 0),
            entry(5, 0, 2, 0),
            entry(1, 1, 1, 0),
            entry(1, 1, 2, 0),
            entry(4, 1, 2, 0),
            entry(1, 2, 2, 0),
            entry(3, 2, 2, 3),
        ]
    );
}

#[test]
fn example_15() {
    assert_eq!(
        compared_texts("5,1 [1,1]", "5,2 [3,1,0]"),
        Answer::Contained
    );
}

/// At most 0 below a link removes its 'every'.
#[test]
fn figure_3() {
    assert_eq!(
        normal_text("1,1; 5,1 [4,2,0; 5,2 [1,2]]"),
        entries("1,1; 5,1 [4,2,0]")
    );
}

/// The node of the canonical graph by R is more specific than P and at most 1
/// S.
#[test]
fn after_definition_12() {
    assert_eq!(compared_texts(C, "5,1 [1,1; 4,2,1]"), Answer::Contained);
    assert_eq!(
        compared_texts("1,1; 1,2; 4,2,0", "1,1; 4,2,1"),
        Answer::Contained
    );
}

/// M < n is meant (N3) (N5).
#[test]
fn room_between_at_least_and_at_most() {
    assert_eq!(normal_text("3,1,2; 4,1,5"), entries("3,1,2; 4,1,5"));
    assert_eq!(
        normal_text("5,9 [3,1,2; 4,1,5]"),
        entries("5,9 [3,1,2; 4,1,5]")
    );
    assert_eq!(normal_text("5,9 [3,1,5; 4,1,2]"), entries("4,9,0"));
}

/// What is below the impossible place goes (N2).
#[test]
fn places_beside_an_impossible_one_stay() {
    let found = normal_text("5,3 [5,1 [6]; 5,2 [1,1]; 1,2]");
    assert_eq!(found, entries("5,3 [1,2; 4,1,0; 5,2 [1,1]]"));
}

/// The supplier's place has what the service asks for (C4).
#[test]
fn the_supplier_has_more() {
    assert_eq!(compared_texts("1,1; 2,2", "1,1"), Answer::Contained);
    let specimen = entries("1,1; 1,2");
    assert_eq!(
        compared_texts("1,1", "1,1; 2,2"),
        Answer::Not { entry: 2, specimen }
    );
}

/// A link with at most 0 is passed over (C3).
#[test]
fn nothing_is_asked_below_at_most_0() {
    assert_eq!(
        compared_texts("5,1 [4,2,0]", "5,1 [5,2 [5,3 [6]; 1,1]]"),
        Answer::Contained
    );
    let answer = compared_texts("5,1 [4,2,0]", "5,1 [4,2,0]; 5,2 [1,1]");
    assert_eq!(
        answer,
        Answer::Not {
            entry: 4,
            specimen: entries("7,2")
        }
    );
}

/// Properties and links are numbered apart (E6).
#[test]
fn property_and_link_of_one_number() {
    assert_eq!(
        normal_text("1,7; 4,7,0; 2,8; 3,8,1"),
        entries("1,7; 2,8; 3,8,1; 4,7,0")
    );
    let specimen = entries("1,7");
    assert_eq!(
        compared_texts("1,7", "3,7,1"),
        Answer::Not { entry: 1, specimen }
    );
}

/// The specimen meets what C asks also off the way to the failing entry, and
/// lists a property once even if C and the failing entry both name it.
#[test]
fn specimen_off_the_way() {
    let c = "1,3; 3,5,2; 5,5 [1,4; 3,6,3]; 5,7 [1,9; 3,8,2]; 5,8 [1,1]";
    let answer = compared_texts(c, "5,7 [5,2 [4,3,4]]");
    let specimen = vec![
        entry(1, 0, 3, 0),
        entry(7, 0, 5, 1),
        entry(7, 0, 7, 0),
        entry(1, 2, 4, 0),
        entry(7, 2, 6, 2),
        entry(1, 3, 9, 0),
        entry(7, 3, 2, 0),
        entry(7, 3, 8, 1),
        entry(7, 7, 3, 4),
    ];
    assert_eq!(answer, Answer::Not { entry: 3, specimen });
    let once = Answer::Not {
        entry: 1,
        specimen: entries("1,4"),
    };
    assert_eq!(compared_texts("1,4", "2,4"), once);
}
