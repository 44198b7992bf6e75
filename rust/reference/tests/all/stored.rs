//! The stored form: both ways, byte by byte, and what is refused in it.

use reference::record::fits;
use reference::{encode, from_stored, to_stored, Entry};

use crate::chance::{description, record, Chance, Size};
use crate::comparing::every_tiny_description;
use crate::naming::{chain, refusal};
use crate::notation::{blocks, entries, entry, FILL};
use crate::refusals::with_checks;
use crate::wrong::{needs, refused, written, wrong_descriptions};

/// Kind, depth, name, number.
type Row = (u8, u8, u16, u16);

/// The rows as blocks of the stored form.
fn stored(rows: &[Row]) -> Vec<u8> {
    let mut bytes = vec![0; 512 * rows.len().div_ceil(84).max(1)];
    for (index, block) in bytes.chunks_mut(512).enumerate() {
        let used = &rows[index * 84..rows.len().min(index * 84 + 84)];
        block[0] = index as u8 + 1;
        block[2] = used.len() as u8;
        for (at, &(kind, depth, name, number)) in (4..).step_by(6).zip(used) {
            let [n0, n1] = name.to_le_bytes();
            let [m0, m1] = number.to_le_bytes();
            block[at..at + 6].copy_from_slice(&[kind, depth, n0, n1, m0, m1]);
        }
    }
    with_checks(bytes)
}

/// The numbers of an entry's owners from the top down, then its own.
fn path(entries: &[Entry], number: usize) -> Vec<usize> {
    let mut path = vec![number];
    let mut owner = usize::from(entries[number - 1].owner);
    while owner != 0 {
        path.push(owner);
        owner = usize::from(entries[owner - 1].owner);
    }
    path.reverse();
    path
}

/// The entries in walking order by its meaning: an owner's path is the
/// beginning of the paths of all it owns, and so comes right before them.
fn in_walking_order(entries: &[Entry]) -> (Vec<Row>, Vec<Entry>) {
    let mut paths: Vec<_> = (1..=entries.len())
        .map(|number| path(entries, number))
        .collect();
    paths.sort();
    let new_number =
        |number: &usize| paths.iter().position(|p| p.last() == Some(number)).unwrap() + 1;
    let mut rows = Vec::new();
    let mut owned = Vec::new();
    for path in &paths {
        let e = entries[path[path.len() - 1] - 1];
        let owner = path.iter().rev().nth(1).map_or(0, new_number);
        rows.push((e.kind, path.len() as u8 - 1, e.name, e.number));
        owned.push(entry(e.kind, owner as u16, e.name, e.number));
    }
    (rows, owned)
}

/// The bytes that `to_stored` writes over an output of just the length needed.
fn to(entries: &[Entry]) -> Vec<u8> {
    let mut out = vec![FILL; 12 * 512 + 9];
    assert_eq!(to_stored(&encode(entries), &mut out), Ok(entries.len()));
    let length = 512 * entries.len().div_ceil(84).max(1);
    assert!(out[length..].iter().all(|&byte| byte == FILL));
    out.truncate(length);
    out
}

fn from(bytes: &[u8]) -> Vec<Entry> {
    written(16 * 512 + 9, |out| from_stored(bytes, out)).unwrap()
}

#[test]
fn by_hand() {
    let d = entries("5,1 [3,2,1]; 1,9; 5,3 []; 6");
    let rows = [
        (5, 0, 1, 0),
        (3, 1, 2, 1),
        (1, 0, 9, 0),
        (5, 0, 3, 0),
        (6, 0, 0, 0),
    ];
    assert_eq!(to(&d), stored(&rows));
    assert_eq!(from(&stored(&rows)), d);
    // Breadth first with owners becomes depth first.
    let broad = [
        entry(5, 0, 1, 0),
        entry(5, 0, 2, 0),
        entry(1, 2, 8, 0),
        entry(5, 1, 3, 0),
        entry(1, 1, 7, 0),
        entry(4, 4, 513, 0x1234),
        entry(1, 2, 7, 0),
        entry(2, 0, 9, 0),
    ];
    assert_eq!(
        from(&to(&broad)),
        entries("5,1 [5,3 [4,513,4660]; 1,7]; 5,2 [1,8; 1,7]; 2,9")
    );
    let bytes = to(&broad);
    assert_eq!(bytes[..4], [1, 0, 8, 0]);
    assert_eq!(
        bytes[4..22],
        [5, 0, 1, 0, 0, 0, 5, 1, 3, 0, 0, 0, 4, 2, 1, 2, 0x34, 0x12]
    );
    // Nothing but the empty block, the same in both forms.
    assert_eq!(to(&[]), blocks(""));
    assert_eq!(from(&blocks("")), []);
}

fn check(entries: &[Entry]) {
    let (rows, owned) = in_walking_order(entries);
    let bytes = to(entries);
    assert_eq!(bytes, stored(&rows));
    assert_eq!(from(&bytes), owned);
    // Back again from there: the same bytes.
    assert_eq!(to(&owned), bytes);
}

#[test]
fn all_tiny_descriptions() {
    every_tiny_description(1, 2).iter().for_each(|d| check(d));
}

const SMALL: Size = Size {
    entries: 12,
    properties: 2,
    links_after: 0,
    links: 2,
    number: 3,
};

/// The entries in walking order are fitted by the same items.
#[test]
fn drawn_descriptions() {
    let mut chance = Chance::from(1001);
    for round in 0..300 {
        let size = Size {
            entries: [12, 12, 12, 300][round % 4],
            ..SMALL
        };
        let d = description(&mut chance, size);
        check(&d);
        let back = from(&to(&d));
        let record = record(&mut chance, SMALL, 4);
        for item in 0..4 {
            assert_eq!(fits(&record, item, &d, 0), fits(&record, item, &back, 0));
        }
    }
}

#[test]
fn the_largest() {
    let mut deep = chain(33);
    deep.extend((33..1008).map(|n| entry(1, 1 + n % 32, n, 0)));
    check(&deep);
    let wide: Vec<Entry> = (0..1008).map(|n| entry(5, 0, 1008 - n, 0)).collect();
    check(&wide);
    assert_eq!(to(&wide).len(), 12 * 512);
    for count in [1, 63, 64, 84, 85, 126, 127, 168, 1007] {
        check(&wide[..count]);
    }
}

/// All forms of up to four entries, by what an owner is.
#[test]
fn all_small_forms() {
    let each: Vec<Row> = (0..4)
        .flat_map(|depth| [(1, depth, 1, 0), (5, depth, 1, 0)])
        .collect();
    let mut all: Vec<Vec<Row>> = vec![vec![]];
    for first in 0..5 {
        let longer = |rows: &Vec<Row>| {
            each.iter()
                .map(|&row| [&rows[..], &[row]].concat())
                .collect()
        };
        let forms: Vec<Vec<Row>> = all.iter().flat_map::<Vec<_>, _>(longer).collect();
        for rows in &all {
            match (1..=rows.len()).find(|&place| !has_an_owner(&rows[..place])) {
                Some(place) => {
                    let due = refusal(15, 1, place as u32);
                    assert_eq!(
                        from_stored(&stored(rows), &mut [0; 512]),
                        Err(due),
                        "{rows:?}"
                    );
                }
                None => assert_eq!(to(&from(&stored(rows))), stored(rows)),
            }
        }
        all = if first < 4 { forms } else { vec![] };
    }
}

/// Whether the last entry is at the top, or its nearest earlier entry of lesser
/// depth is an 'every' of one less.
fn has_an_owner(rows: &[Row]) -> bool {
    let (&(_, depth, ..), earlier) = rows.split_last().unwrap();
    let nearest = earlier.iter().rev().find(|row| row.1 < depth);
    depth == 0 || nearest.is_some_and(|&(kind, above, ..)| kind == 5 && above + 1 == depth)
}

#[test]
fn blocks_of_the_stored_form() {
    for length in [0, 1, 511, 513, 13 * 512, 16 * 512] {
        refused(refusal(1, 1, 0), |out| {
            from_stored(&vec![FILL; length], out)
        });
    }
    let full = stored(&[(1, 0, 1, 0); 1008]);
    assert_eq!(full.len(), 12 * 512);
    needs(16 * 512, |out| from_stored(&full, out));
    for at in [0, 3, 4, 200, 507, 508, 509, 510, 511] {
        let mut wrong = full.clone();
        wrong[11 * 512 + at] ^= 1;
        refused(refusal(2, 1, 12), |out| from_stored(&wrong, out));
    }
    for (block, at, value) in [(3, 0, 9), (3, 2, 83), (3, 2, 63), (11, 2, 85), (11, 2, 0)] {
        let mut wrong = full.clone();
        wrong[block * 512 + at] = value;
        let due = refusal(3, 1, block as u32 + 1);
        refused(due, |out| from_stored(&with_checks(wrong.clone()), out));
    }
    // A byte after the used entries.
    let mut wrong = stored(&[(1, 0, 1, 0); 3]);
    wrong[4 + 18] = 1;
    refused(refusal(3, 1, 1), |out| {
        from_stored(&with_checks(wrong.clone()), out)
    });
}

/// In the lowest entry that is wrong 4, then 15, then 6.
#[test]
fn entries_of_the_stored_form() {
    let down: Vec<Row> = (0..33).map(|depth| (5, depth, 1, 0)).collect();
    for (last, number) in [
        ((0, 0, 1, 0), 4),
        ((7, 0, 1, 0), 4),
        ((9, 0, 1, 0), 4),
        ((8, 0, 1, 1), 4),
        ((1, 0, 0, 0), 4),
        ((1, 0, 1, 1), 4),
        ((2, 0, 1, 1), 4),
        ((5, 0, 1, 1), 4),
        ((5, 0, 0, 0), 4),
        ((3, 0, 0, 1), 4),
        ((6, 0, 1, 0), 4),
        ((6, 0, 0, 1), 4),
        ((9, 99, 1, 0), 4),
        ((1, 34, 1, 0), 15),
        ((1, 255, 1, 0), 15),
        ((1, 33, 1, 0), 6),
        ((5, 33, 1, 0), 6),
        ((6, 33, 0, 0), 6),
    ] {
        let rows = [&down[..], &[last], &[(0, 0, 0, 0)]].concat();
        refused(refusal(number, 1, 34), |out| {
            from_stored(&stored(&rows), out)
        });
    }
    let rows = [&down[..], &[(1, 32, 1, 0), (6, 9, 0, 0), (1, 10, 1, 0)]].concat();
    refused(refusal(15, 1, 36), |out| from_stored(&stored(&rows), out));
    check(&from(&stored(&rows[..35])));
}

#[test]
fn descriptions_and_outputs() {
    for wrong in wrong_descriptions() {
        refused(wrong.as_input(1), |out| to_stored(&wrong.bytes, out));
    }
    refused(refusal(4, 1, 2), |out| to_stored(&blocks("1,1; 9,1"), out));
    for (count, long, short) in [
        (0, 1, 1),
        (63, 1, 1),
        (64, 2, 1),
        (85, 2, 2),
        (1008, 16, 12),
    ] {
        let d = vec![entry(1, 0, 1, 0); count];
        needs(short * 512, |out| to_stored(&encode(&d), out));
        needs(long * 512, |out| from_stored(&to(&d), out));
    }
}

/// Two different entries of one block exchanged are refused as 2, exactly when
/// their distance times the difference of their word sums is no multiple of
/// 65,536.
#[test]
fn exchanged_entries() {
    let mut chance = Chance::from(1002);
    let name = |chance: &mut Chance| chance.one_of(&[1, 1, 2, 0x4001, 0x8001, 0xC001]);
    let mut passed = 0;
    for _ in 0..300 {
        let rows: Vec<Row> = (0..84).map(|_| (3, 0, name(&mut chance), 0)).collect();
        let (i, j) = (chance.below(84), chance.below(84));
        let right = stored(&rows);
        let mut bytes = right.clone();
        for byte in 0..6 {
            bytes.swap(4 + 6 * i + byte, 4 + 6 * j + byte);
        }
        let step = (i.abs_diff(j) * usize::from(rows[i].2.abs_diff(rows[j].2))) % 65_536;
        let answer = from_stored(&bytes, &mut [0; 1024]);
        assert_eq!(
            answer,
            if step == 0 {
                Ok(84)
            } else {
                Err(refusal(2, 1, 1))
            }
        );
        passed += usize::from(bytes != right && step == 0);
    }
    assert!(passed > 0);
}
