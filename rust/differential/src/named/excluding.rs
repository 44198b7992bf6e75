//! Vectors of the statements on properties that exclude each other.

use reference::notation::blocks;

use super::{compare, fit, normal_form, properties};
use crate::excluding::{list, Given, MOST_PAIRS};
use crate::vectors::Vector;
use crate::{BLOCK, MOST_SPECIMEN};

/// Property 7 excludes property 8.
const SEVEN_EIGHT: [(u16, u16); 1] = [(7, 8)];

/// All of them, in the order of the statements.
pub fn all() -> Vec<Vector> {
    [
        lists(),
        wrong_lists(),
        order_of_11(),
        takers(),
        impossible_places(),
        implied_lacks(),
        support(),
        both_of_a_pair(),
        order_of_12(),
        specimens(),
        outputs(),
        no_pairs(),
    ]
    .concat()
}

/// The vectors under the list of the one pair.
fn under_one(vectors: Vec<Vector>) -> Vec<Vector> {
    let each = vectors.into_iter();
    each.map(|vector| vector.under(&SEVEN_EIGHT)).collect()
}

/// The most pairs: this one at this place, and before and after it others that are in no description here.
fn most_with(pair: (u16, u16), at: usize) -> Vec<(u16, u16)> {
    let others = (0..MOST_PAIRS).map(|n| (1000, 1001 + crate::word(n)));
    let mut pairs: Vec<(u16, u16)> = others.collect();
    pairs[at] = pair;
    pairs
}

/// What a list may be: pairs of two words, low byte first, in either order, repeated, overlapping, up to 64; and no pair follows from
/// others.
pub fn lists() -> Vec<Vector> {
    let clay = || compare("1,7", "2,8");
    vec![
        clay().under(&[(7, 8)]),
        clay().under(&[(8, 7)]),
        clay().under(&[(7, 8), (8, 7), (7, 8)]),
        clay().under(&[(9, 8), (7, 9), (7, 8)]),
        compare("1,7", "2,8; 2,9").under(&[(7, 8), (9, 7)]),
        clay().under(&most_with((7, 8), 0)),
        clay().under(&most_with((8, 7), MOST_PAIRS - 1)),
        compare("1,65535", "2,1").under(&[(65_535, 1)]),
        // 300 is 44, 1 and 11,265 is 1, 44.
        compare("1,7", "2,300").under(&[(300, 7)]),
        compare("1,7", "2,11265").under(&[(300, 7)]),
        // The same low byte, another high byte.
        compare("1,263", "2,8").under(&SEVEN_EIGHT),
        compare("1,7", "2,264").under(&SEVEN_EIGHT),
        // 7 and 9 do not exclude each other.
        compare("1,7", "2,9").under(&[(7, 8), (8, 9)]),
    ]
}

/// What is refused as 11 in each of the three calls: lengths, and the lowest pair with a 0 or two equal numbers.
pub fn wrong_lists() -> Vec<Vector> {
    let whole = list(&most_with((7, 8), 3));
    let mut wrong: Vec<Vec<u8>> = [1, 2, 3, 5, 255].map(|n| whole[..n].to_vec()).to_vec();
    wrong.push([&whole[..], &[7]].concat());
    wrong.push([&whole[..], &list(&SEVEN_EIGHT)].concat());
    wrong.push([&list(&[(7, 7)])[..], &[9]].concat());
    wrong.push(list(&vec![(7, 7); MOST_PAIRS + 1]));
    for pairs in [
        vec![(0, 8)],
        vec![(7, 0)],
        vec![(0, 0)],
        vec![(8, 8)],
        vec![(7, 8), (65_535, 65_535)],
        vec![(7, 8), (8, 7), (0, 8), (9, 9)],
        most_with((9, 9), MOST_PAIRS - 1),
    ] {
        wrong.push(list(&pairs));
    }
    let calls = wrong.into_iter().flat_map(|pairs| {
        [fit("1,7", "2,8"), normal_form("1,7"), compare("1,7", "2,8")]
            .map(|vector| vector.given(Given::list(pairs.clone())))
    });
    calls.collect()
}

/// 11 before all, then the dictionary, then the inputs and the output.
pub fn order_of_11() -> Vec<Vector> {
    let calls = || {
        [
            Vector::fit(Vec::new(), Vec::new()),
            Vector::normal_form(Vec::new(), 0),
            Vector::compare(Vec::new(), Vec::new(), 0),
        ]
    };
    let block = blocks("1,7");
    let mut vectors = Vec::new();
    for (pairs, dictionary) in [
        (vec![(7, 7)], Vec::new()),
        (vec![(7, 7)], block.clone()),
        (vec![], block.clone()),
        (vec![(7, 8)], block[..1].to_vec()),
        (most_with((7, 8), 1), Vec::new()),
    ] {
        let pairs = list(&pairs);
        let given = Given { pairs, dictionary };
        vectors.extend(calls().map(|vector| vector.given(given.clone())));
    }
    vectors
}

/// The fit answer, the normal form and the comparison take the list; the readers do not, right or wrong.
pub fn takers() -> Vec<Vector> {
    vec![
        fit("1,7; 1,8", "").under(&SEVEN_EIGHT),
        normal_form("1,7; 1,8").under(&SEVEN_EIGHT),
        compare("1,7; 1,8", "6").under(&SEVEN_EIGHT),
        Vector::specimen(blocks("1,7; 1,8")).under(&SEVEN_EIGHT),
        Vector::description(blocks("1,7; 1,8")).under(&SEVEN_EIGHT),
        Vector::specimen(blocks("1,7")).under(&[(7, 7)]),
        Vector::description(blocks("1,7")).under(&[(7, 7)]),
    ]
}

/// A place with both of a pair is impossible: the merged place, and no other.
pub fn impossible_places() -> Vec<Vector> {
    under_one(vec![
        normal_form("1,7; 1,8"),
        normal_form("5,1 [1,7; 1,8]; 1,9"),
        normal_form("5,1 [1,8]; 5,1 [1,7]"),
        normal_form("3,1,1; 5,1 [1,7]; 5,1 [1,8]"),
        normal_form("5,1 [3,2,1; 5,2 [1,7; 1,8]]"),
        normal_form("3,32768,1; 5,32768 [1,8; 1,7]"),
        normal_form("5,1 [1,7]; 5,2 [1,8]"),
        normal_form("1,7; 5,1 [1,8]"),
        compare("1,7; 1,8", "6"),
        compare("5,1 [1,7]; 5,1 [1,8]", "4,1,0"),
        compare("4,1,0", "5,1 [1,7; 1,8]"),
        compare("1,7", "1,7; 1,8"),
        compare("", "1,7; 1,8"),
    ])
}

/// A place with one of a pair lacks the other, and its normal form does not say so.
pub fn implied_lacks() -> Vec<Vector> {
    let lacks: Vec<String> = (100..163).map(|name| format!("; 2,{name}")).collect();
    let star: Vec<(u16, u16)> = (100..164).map(|other| (other, 7)).collect();
    let mut vectors = under_one(vec![
        normal_form("1,7; 2,8"),
        normal_form("2,8; 1,7; 2,8"),
        normal_form("2,7; 1,8"),
        normal_form("2,7; 2,8"),
        normal_form("5,1 [1,7]; 5,1 [2,8]"),
        normal_form("5,1 [1,7; 5,2 [1,8; 2,7]; 2,8]"),
        normal_form("1,7; 5,1 [2,8]"),
        normal_form("5,1 [1,7]; 2,8"),
        normal_form("1,7; 2,7"),
        normal_form("1,7; 2,8; 1,8"),
        normal_form("1,7"),
    ]);
    vectors.extend([
        normal_form("1,7; 2,10; 2,9; 2,8").under(&[(7, 8), (9, 7)]),
        // 64 entries in two blocks become one in one.
        normal_form(&format!("1,7{}", lacks.concat())).under(&star),
    ]);
    vectors
}

/// A lack is supported by the property that excludes it, at the same place; nothing else is supported by another property.
pub fn support() -> Vec<Vector> {
    under_one(vec![
        compare("1,7", "2,8"),
        compare("1,7; 2,8", "2,8; 1,7"),
        compare("2,8", "2,8"),
        compare("2,8", "1,7"),
        compare("1,7", "1,8"),
        compare("1,7", "2,7"),
        compare("5,1 [1,7]", "5,1 [2,8]"),
        compare("5,1 [3,2,1]; 5,1 [1,7]", "5,1 [2,8]; 5,1 [4,2,0]"),
        compare("5,1 [1,7]", "2,8"),
        compare("1,7", "5,1 [2,8]"),
        compare("", "5,1 [2,8]"),
        compare("1,7", "6"),
        compare("3,1,2", "3,1,1; 4,1,2"),
    ])
}

/// An item with both of a pair: the lowest entry whose owner has a partner from an earlier one.
pub fn both_of_a_pair() -> Vec<Vector> {
    let mut vectors = under_one(vec![
        fit("1,7; 1,8", ""),
        fit("1,8; 1,7", ""),
        fit("1,7; 7,1 [1,8]; 1,8", ""),
        fit("1,7; 1,7; 1,9; 1,8; 1,8", ""),
        fit("7,1,9 [1,7; 1,8]", ""),
        fit("7,1 [1,7]; 7,1 [1,8]", "5,1 [2,9]"),
        fit("7,1 [1,7]; 1,8", ""),
        fit("1,7; 1,7", "1,7; 1,8"),
        fit("1,263; 1,8", ""),
    ]);
    let full = || Vector::fit(properties(MOST_SPECIMEN), blocks(""));
    vectors.extend([
        fit("1,7; 1,9; 1,8; 1,10", "").under(&[(9, 10), (7, 8)]),
        fit("1,7; 1,9; 1,10; 1,8", "").under(&[(8, 7), (10, 9)]),
        full().under(&[(1, 2016)]),
        full().under(&[(2016, 2015)]),
        full().under(&[(2017, 1)]),
    ]);
    vectors
}

/// 12 after all other checks of the specimen, also at later entries, and before input 2.
pub fn order_of_12() -> Vec<Vector> {
    let mut damaged = blocks("1,7; 1,8");
    damaged[508] ^= 1;
    under_one(vec![
        fit("1,7; 1,8; 9", ""),
        fit("1,7; 1,8; 7,1; 7,1 [2,7]", ""),
        fit("1,7; 1,8; 7,32768,1", ""),
        Vector::fit(damaged, blocks("")),
        fit("1,7; 1,8", "8"),
        Vector::fit(blocks("1,7; 1,8"), Vec::new()),
        fit("1,7", "8"),
    ])
}

/// What a no shows keeps the list, and the fit call with the same list says yes for C and no for D.
pub fn specimens() -> Vec<Vector> {
    let (c, d) = ("5,1 [1,7; 3,2,2]", "5,1 [2,8; 5,2 [2,7]]");
    let shown = "7,1 [1,7; 7,2,1 [1,7]]";
    let (single_c, single_d) = ("5,32768 [1,7]", "5,32768 [2,8; 2,9]");
    let single = "7,32768 [1,7; 1,9]";
    let mut vectors = under_one(vec![
        compare("1,9", "2,8"),
        fit("1,8; 1,9", "1,9"),
        fit("1,8; 1,9", "2,8"),
        compare(c, d),
        fit(shown, c),
        fit(shown, d),
        compare(single_c, single_d),
        fit(single, single_c),
        fit(single, single_d),
    ]);
    // Another list may refuse it.
    vectors.push(fit(single, single_c).under(&[(9, 7)]));
    vectors
}

/// 7 as without a list, after all else.
pub fn outputs() -> Vec<Vector> {
    let (c, d) = (blocks("1,7"), blocks("2,8"));
    let short = 2 * BLOCK - 1;
    under_one(vec![
        Vector::normal_form(blocks("1,7; 2,8"), BLOCK - 1),
        Vector::normal_form(blocks("1,7; 2,8"), BLOCK + 1),
        Vector::compare(c.clone(), d.clone(), short),
        Vector::compare(c.clone(), d, short + 2),
        Vector::compare(c, blocks("8"), short),
    ])
}

/// With no pairs, and with pairs of properties that are nowhere, all is as it was.
pub fn no_pairs() -> Vec<Vector> {
    let elsewhere = most_with((1000, 1100), 0);
    let each = |pairs: &[(u16, u16)]| {
        [
            fit("1,7; 1,8", "1,8").under(pairs),
            fit("1,7; 1,8", "2,8").under(pairs),
            normal_form("1,7; 2,8").under(pairs),
            normal_form("1,7; 1,8").under(pairs),
            compare("1,7", "2,8").under(pairs),
            compare("1,7; 1,8", "6").under(pairs),
            compare("1,7; 2,7", "6").under(pairs),
        ]
    };
    [each(&[]), each(&elsewhere)].concat()
}
