//! Vectors of the statement that two descriptions have one normal form exactly if the same items fit both.

use super::naming::{dictionary, with};
use super::{compare, normal_form};
use crate::vectors::Vector;

/// All of them.
pub fn all() -> Vec<Vector> {
    [unlike(), apart(), by_the_list(), by_the_names()].concat()
}

/// The normal forms of two, with outputs of one length, so that their lines are one but for the number exactly if their blocks are;
/// and the comparisons of the two, in both orders.
fn both(c: &str, d: &str) -> Vec<Vector> {
    vec![normal_form(c), normal_form(d), compare(c, d), compare(d, c)]
}

/// Two inputs that look unlike and have one normal form.
pub fn unlike() -> Vec<Vector> {
    [
        both(
            "1,9; 3,1,2; 5,1 [1,7; 5,2 [6]]; 4,1,5",
            "5,1 [4,2,0]; 4,1,6; 4,1,5; 5,1 [1,7; 1,7]; 3,1,0; 3,1,2; 3,1,1; 1,9",
        ),
        // Two of which nothing is left, and two that nothing fits.
        both("", "5,3 [3,1,0; 4,32768,1]; 3,7,0"),
        both("3,1,3; 4,1,2", "3,2,1; 5,2 [3,32768,2]; 1,7"),
    ]
    .concat()
}

/// Two inputs that differ in one number, and two that differ in one owner: so do their normal forms.
pub fn apart() -> Vec<Vector> {
    [
        both("4,1,1; 1,7", "4,1,2; 1,7"),
        both("5,1 [1,7]; 5,2 [1,8]", "5,1 [1,7; 1,8]; 5,2"),
    ]
    .concat()
}

/// Two that are alike only under a list: under it, and without one.
pub fn by_the_list() -> Vec<Vector> {
    let mut vectors = Vec::new();
    for (c, d) in [
        ("5,1 [1,7; 2,8]; 3,1,1", "3,1,1; 5,1 [1,7]"),
        ("5,1 [1,7]; 5,1 [1,8]; 1,9", "1,9; 4,1,0"),
    ] {
        for pairs in [&[(8, 7)][..], &[]] {
            vectors.extend(both(c, d).into_iter().map(|vector| vector.under(pairs)));
        }
    }
    vectors
}

/// One with names and its double without; and one with names that is the double of another only under the list.
pub fn by_the_names() -> Vec<Vector> {
    let named = "9,2; 5,1 [2,8]";
    let mut vectors = both(named, "5,1 [2,9; 2,8; 1,7]; 3,1,1");
    for pairs in [&[(7, 8)][..], &[]] {
        let forms = [named, "9,2"].map(normal_form);
        vectors.extend(forms.map(|vector| vector.under(pairs)));
    }
    with(&dictionary(&["1,7; 2,9", "5,1 [9,1]; 3,1,1"]), vectors)
}
