//! The same for a list of services that is ranked.

use super::*;
use bench::catalogue::MOST_SERVICES;
use bench::hierarchy::{services, Kinship};
use goltximen::hierarchy_bytes;

fn same_hierarchy(pairs: &[u8], list: &[u8], out: usize) -> Result<usize, Refused> {
    let calls: Calls<Result<usize, Refused>> = [
        &|out| plain::hierarchy(pairs, list, out).map_err(number_input_place),
        &|out| reference::hierarchy(pairs, list, out).map_err(of_reference),
        &|out| {
            let ranked = goltximen::hierarchy(pairs, list, out);
            let written = ranked.map(|ranked| ranked.written().len());
            written.map_err(of_product)
        },
    ];
    same_written(out, calls)
}

/// Services of which some are again and some are a part of another.
fn drawn_services(count: usize, chance: &mut Chance) -> Vec<Vec<u8>> {
    let mut all: Vec<Vec<Entry>> = Vec::new();
    while all.len() < count {
        let next = match chance.below(4) {
            0 if !all.is_empty() => all[chance.below(all.len())].clone(),
            1 if !all.is_empty() => {
                let mut part = all[chance.below(all.len())].clone();
                part.truncate(chance.below(part.len() + 1));
                part
            }
            _ => draw(&DESCRIPTIONS, chance.below(6), chance),
        };
        all.push(next);
    }
    all.iter().map(|service| encode(service)).collect()
}

#[test]
fn drawn_lists() {
    let mut chance = Chance::new(0x5eed_000b);
    let mut answers = [0; 4];
    for _ in 0..2000 {
        let count = [1, 2, 3, 5, 12, 12, 63, MOST_SERVICES, 65][chance.below(9)];
        let mut list = drawn_services(count, &mut chance).concat();
        if chance.below(4) == 0 {
            spoil(&mut list, &mut chance);
        }
        let pairs: &[u8] =
            [&[][..], &[], &[1, 0, 2, 0], &[1, 0, 2, 0, 3, 0, 1, 0]][chance.below(4)];
        let needed = hierarchy_bytes(count);
        let out = [needed, needed, needed - 1, needed + 1, 0][chance.below(5)];
        match same_hierarchy(pairs, &list, out) {
            Ok(_) => answers[0] += 1,
            Err((7, ..)) => answers[1] += 1,
            Err((8, 2, _)) => answers[2] += 1,
            Err(_) => answers[3] += 1,
        }
    }
    assert!(answers.iter().all(|&times| times > 100), "{answers:?}");
}

/// Services of each size of the tables, 16 blocks and 17, lists of other lengths.
#[test]
fn sizes_and_lengths() {
    let of = |entries: usize| {
        let entries = (1..=entries as u16).map(|name| entry(1, 0, name, 0));
        encode(&entries.collect::<Vec<_>>())
    };
    let sizes = [0, 1, 63, 64, 252, 253, 1008];
    let list: Vec<u8> = sizes.into_iter().flat_map(of).collect();
    assert_eq!(same_hierarchy(&[], &list, 105), Ok(105));
    assert_eq!(
        same_hierarchy(&[], &[of(5), of(1009)].concat(), 10),
        Err((1, 3, 0))
    );
    let two = of(1).repeat(2);
    for length in [0, 1, 511, 513, 1023] {
        assert_eq!(same_hierarchy(&[], &two[..length], 10), Err((1, 2, 0)));
    }
    assert_eq!(same_hierarchy(&[], &of(1).repeat(200), 2), Err((8, 2, 0)));
    assert_eq!(same_hierarchy(&[7, 0, 7, 0], &[], 2), Err((11, 0, 1)));
}

#[test]
fn inputs_of_the_rows_of_the_hierarchy() {
    let mut chance = Chance::new(5);
    for (entries, shape) in [(16, Shape::Wide), (40, Shape::Deep), (250, Shape::Wide)] {
        for kinship in Kinship::ALL {
            let list = services(entries, shape, kinship, &mut chance).concat();
            let needed = hierarchy_bytes(MOST_SERVICES);
            assert_eq!(same_hierarchy(&[], &list, needed), Ok(needed));
            let mut out = vec![9; needed];
            let answer = plain::hierarchy(&[], &list, &mut out);
            assert_eq!(answer, Ok(needed));
            for (at, &byte) in out[..MOST_SERVICES * MOST_SERVICES].iter().enumerate() {
                let (c, d) = (at / MOST_SERVICES, at % MOST_SERVICES);
                assert_eq!(byte == 1, kinship.contained(c, d), "{c} {d}");
            }
        }
    }
}
