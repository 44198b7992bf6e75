//! Field sheets.

use reference::{encode, narrowest, read_description, read_sheet, Entry, Refusal};

use crate::chance::{description, Chance, Size};
use crate::comparing::every_tiny_description;
use crate::naming::{chain, refusal};
use crate::notation::{blocks, entries, entry, normal};
use crate::wrong::{written, wrong_descriptions};

/// Whether an entry of an accepted description is one of a sheet.
fn on_a_sheet(entries: &[Entry], number: usize) -> bool {
    let e = entries[number - 1];
    let (mut depth, mut owner) = (0, e.owner);
    while owner != 0 {
        depth += 1;
        owner = entries[usize::from(owner) - 1].owner;
    }
    [1, 3, 4, 5].contains(&e.kind) && e.number <= 99 && depth <= 3
}

/// The answer by what a sheet is, for an accepted description.
fn due(entries: &[Entry]) -> Result<usize, Refusal> {
    match (1..=entries.len()).find(|&number| !on_a_sheet(entries, number)) {
        Some(number) => Err(refusal(19, 1, number as u32)),
        None => Ok(entries.len()),
    }
}

#[test]
fn by_hand() {
    for text in [
        "",
        "1,1; 3,1,99; 4,1,99; 5,1 []",
        "3,1,0; 4,65535,0; 1,65535",
        "5,1 [5,1 [5,1 [1,1; 3,1,99; 5,9 []]]]",
    ] {
        assert_eq!(read_sheet(&blocks(text)), Ok(entries(text).len()), "{text}");
    }
    for (text, place) in [
        ("2,1", 1),
        ("1,1; 6", 2),
        ("3,1,100", 1),
        ("4,1,65535", 1),
        ("3,1,99; 4,1,100; 2,1", 2),
        ("5,1 [5,1 [5,1 [5,1 [1,1]]]]; 2,1", 5),
        ("5,1 [5,1 [5,1 [5,1 [5,1 []]]]]", 5),
        ("5,1 [2,1]; 1,1", 2),
    ] {
        assert_eq!(
            read_sheet(&blocks(text)),
            Err(refusal(19, 1, place)),
            "{text}"
        );
    }
}

/// What the full reader refuses is refused likewise, but for what no sheet has
/// in an earlier entry.
#[test]
fn refusals() {
    for wrong in wrong_descriptions() {
        let due = if wrong.number == 6 {
            refusal(19, 1, 5)
        } else {
            wrong.as_input(1)
        };
        assert_eq!(read_sheet(&wrong.bytes), Err(due));
    }
    assert_eq!(read_sheet(&encode(&chain(4))), Ok(4));
    assert_eq!(read_sheet(&encode(&chain(33))), Err(refusal(19, 1, 5)));
    // In one entry 4, then 5, then 19.
    for (last, number) in [
        (entry(9, 0, 1, 0), 4),
        (entry(2, 0, 1, 100), 4),
        (entry(2, 0, 0, 0), 4),
        (entry(6, 0, 1, 0), 4),
        (entry(1, 0, 1, 100), 4),
        (entry(2, 1, 1, 0), 5),
        (entry(3, 9, 1, 100), 5),
        (entry(6, 0, 0, 0), 19),
    ] {
        let all = [entry(1, 0, 1, 0), last, entry(0, 0, 0, 0)];
        assert_eq!(read_sheet(&encode(&all)), Err(refusal(number, 1, 2)));
    }
    let full = vec![entry(4, 0, 1, 99); 1008];
    assert_eq!(read_sheet(&encode(&full)), Ok(1008));
}

#[test]
fn all_tiny_descriptions() {
    for d in every_tiny_description(1, 2) {
        assert_eq!(read_sheet(&encode(&d)), due(&d));
    }
}

#[test]
fn drawn_descriptions() {
    let mut chance = Chance::from(1601);
    let mut sheets = 0;
    for round in 0..3000 {
        let size = Size {
            entries: [4, 8, 100][round % 3],
            properties: 2,
            links_after: 0,
            links: 2,
            number: [3, 99, 101][round / 3 % 3],
        };
        let d = description(&mut chance, size);
        assert_eq!(read_description(&encode(&d)), Ok(d.len()));
        assert_eq!(read_sheet(&encode(&d)), due(&d));
        sheets += usize::from(due(&d).is_ok());
    }
    assert!(sheets > 300, "{sheets}");
}

/// The narrowest of two sheets is a sheet, if some item fits one of them: that
/// is, if not both are impossible.
fn check_narrowest(a: &[Entry], b: &[Entry]) {
    let (a_bytes, b_bytes) = (encode(a), encode(b));
    let call = |out: &mut [u8]| narrowest(&[], &[], &a_bytes, &b_bytes, out);
    let found = written(20_000, call).unwrap();
    let impossible = |d: &[u8]| normal(d).unwrap() == entries("6");
    if impossible(&a_bytes) && impossible(&b_bytes) {
        assert_eq!(found, entries("6"));
    } else {
        assert_eq!(read_sheet(&encode(&found)), Ok(found.len()));
    }
}

#[test]
fn the_narrowest_of_two_sheets() {
    let sheets = |all: Vec<Vec<Entry>>| -> Vec<Vec<Entry>> {
        all.into_iter().filter(|d| due(d).is_ok()).collect()
    };
    let mut chance = Chance::from(1602);
    let size = Size {
        entries: 7,
        properties: 2,
        links_after: 32_766,
        links: 2,
        number: 3,
    };
    let drawn = sheets((0..150).map(|_| description(&mut chance, size)).collect());
    for all in [sheets(every_tiny_description(1, 2)), drawn] {
        assert!(all.len() > 30);
        for (a, b) in all.iter().flat_map(|a| all.iter().map(move |b| (a, b))) {
            check_narrowest(a, b);
        }
    }
}
