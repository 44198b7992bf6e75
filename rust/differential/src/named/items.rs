//! Vectors of the statements on delivered items.

use reference::notation::{blocks, entry};
use reference::{encode, Entry};

use super::naming::dictionary as laid;
use crate::excluding::Given;
use crate::vectors::Vector;
use crate::{word, MOST_SPECIMEN};

/// The first link that leads to one item only.
const SINGLE: u16 = 32_768;

/// All of them, in the order of the statements.
pub fn all() -> Vec<Vector> {
    [
        items(),
        once(),
        round(),
        singles(),
        totals(),
        numbers(),
        order(),
        by_the_list(),
        named(),
        outputs(),
    ]
    .concat()
}

/// Item `owner` has a property.
fn has(owner: u16, property: u16) -> Entry {
    entry(1, owner, property, 0)
}

/// Item `owner` is linked to another.
fn linked(owner: u16, link: u16, item: u16) -> Entry {
    entry(8, owner, link, item)
}

/// A record of so many items judged by this text, with an output two bytes longer than is needed.
fn judged(total: usize, record: &[Entry], d: &str) -> Vector {
    Vector::items(total, encode(record), blocks(d), total % 1000 + 2)
}

/// Each item, those of which nothing is said too, by each kind of entry.
pub fn items() -> Vec<Vector> {
    let record = [has(1, 7), linked(1, 3, 2), linked(1, 3, 3), has(3, 7)];
    let by = |d| judged(4, &record, d);
    vec![
        judged(1, &[], ""),
        judged(3, &[], "2,7; 4,3,0; 5,3 [6]"),
        by(""),
        by("1,7"),
        by("2,7"),
        by("3,3,2"),
        by("3,3,3"),
        by("4,3,1"),
        by("5,3 [1,7]"),
        by("6"),
    ]
}

/// What is said twice counts once.
pub fn once() -> Vec<Vector> {
    let twice = [linked(1, 3, 2), linked(1, 3, 2), has(2, 7), has(2, 7)];
    vec![
        judged(2, &twice, "3,3,2"),
        judged(2, &twice, "3,3,1; 4,3,1"),
        judged(2, &twice, "1,7"),
    ]
}

/// Items are shared, links go round, and an item may be linked to itself.
pub fn round() -> Vec<Vector> {
    let record = [
        has(1, 7),
        linked(1, 3, 2),
        linked(2, 3, 1),
        linked(3, 3, 2),
        linked(4, 3, 4),
    ];
    let by = |d| judged(5, &record, d);
    vec![
        by("3,3,1; 5,3 [5,3 [1,7]]"),
        by("5,3 [5,3 [5,3 [1,7]]]"),
        by("3,3,1; 5,3 [3,3,1; 5,3 [3,3,1; 5,3 [3,3,1]]]"),
        by("5,3 [2,7; 5,3 [2,7]]"),
    ]
}

/// A second item by a link that leads to one item only; the same again is none.
pub fn singles() -> Vec<Vector> {
    let to = |items: &[u16]| -> Vec<Entry> {
        items.iter().map(|&item| linked(1, SINGLE, item)).collect()
    };
    vec![
        judged(3, &to(&[2, 2, 2]), "3,32768,1"),
        judged(3, &to(&[2, 3]), ""),
        judged(3, &to(&[2, 2, 3, 2]), ""),
        judged(3, &[linked(1, SINGLE, 2), linked(2, SINGLE, 3)], ""),
        judged(3, &[linked(1, SINGLE, 2), linked(1, SINGLE + 1, 3)], ""),
        judged(3, &[linked(1, SINGLE - 1, 2), linked(1, SINGLE - 1, 3)], ""),
    ]
}

/// Totals at their borders. That of the record comes before its length.
pub fn totals() -> Vec<Vector> {
    let with = |total| judged(total, &[has(1, 7)], "1,7");
    vec![
        with(0),
        with(1),
        with(255),
        with(256),
        with(257),
        with(65_792),
        Vector::items(0, Vec::new(), blocks(""), 9),
        Vector::items(257, vec![0; 100], Vec::new(), 300),
        Vector::items(1, Vec::new(), blocks(""), 9),
    ]
}

/// Item numbers of 0 and above the total.
pub fn numbers() -> Vec<Vector> {
    vec![
        judged(2, &[has(2, 7), has(3, 7)], ""),
        judged(2, &[has(0, 7)], ""),
        judged(2, &[linked(1, 3, 0)], ""),
        judged(2, &[linked(1, 3, 3)], ""),
        judged(2, &[linked(3, 3, 1)], ""),
    ]
}

/// At one entry 4 before 10 before 9, an earlier entry before a later one, a wrong block before all entries, 12 after them, and
/// input 2 last.
pub fn order() -> Vec<Vector> {
    let first = linked(1, SINGLE, 1);
    let mut damaged = encode(&[has(9, 7)]);
    damaged[510] ^= 1;
    let both = [has(1, 7), has(1, 8), has(9, 1)];
    let under = |vector: Vector| vector.under(&[(7, 8)]);
    vec![
        judged(1, &[entry(1, 9, 7, 5)], ""),
        judged(1, &[entry(7, 1, 7, 1)], ""),
        judged(1, &[entry(8, 9, 0, 9)], ""),
        judged(2, &[first, linked(1, SINGLE, 3)], ""),
        judged(2, &[first, linked(1, SINGLE, 2), entry(9, 1, 1, 0)], ""),
        Vector::items(1, damaged, blocks(""), 3),
        under(judged(1, &both, "")),
        under(judged(1, &both[..2], "8,1")),
        judged(1, &[], "8,1"),
        judged(1, &[has(1, 0)], "8,1"),
    ]
}

/// Under a list no item has both of a pair; what fits stays.
pub fn by_the_list() -> Vec<Vector> {
    let record = [has(1, 7), has(2, 8), has(1, 9), has(2, 7)];
    let wrong = Given::list(vec![7, 0, 8]);
    vec![
        judged(2, &record[..3], "2,8").under(&[(7, 8)]),
        judged(2, &record, "").under(&[(8, 7)]),
        judged(2, &record, "").under(&[(8, 9)]),
        judged(0, &record, "").given(wrong),
    ]
}

/// Descriptions that name those of a dictionary, which is read before the record.
pub fn named() -> Vec<Vector> {
    let record = [has(1, 7), linked(2, 3, 1)];
    let dictionary = laid(&["1,7", "3,3,1; 5,3 [9,1]"]);
    let damaged = laid(&["8,1"]);
    vec![
        judged(2, &record, "9,1").with(&dictionary),
        judged(2, &record, "9,2").with(&dictionary),
        judged(2, &record, "9,3").with(&dictionary),
        judged(2, &record, "9,1"),
        judged(0, &record, "9,1").with(&damaged),
        judged(0, &record, "9,1").with(&dictionary),
    ]
}

/// Outputs of one byte less than there are items, and the largest inputs.
pub fn outputs() -> Vec<Vector> {
    let item = |n: usize| 1 + word(n % 256);
    let record: Vec<Entry> = (0..MOST_SPECIMEN)
        .map(|n| linked(item(n), 1 + word(n / 512), item(n * 7 + 1)))
        .collect();
    let all = |output| {
        let record = encode(&record);
        Vector::items(256, record, blocks("3,1,2; 5,2 [3,3,1]"), output)
    };
    vec![
        Vector::items(3, encode(&[]), blocks(""), 2),
        Vector::items(3, encode(&[]), blocks(""), 0),
        all(256),
        all(255),
        all(300),
    ]
}
