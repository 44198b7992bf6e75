//! The same for one description against a list of services.

use super::naming::{drawn_dictionary, drawn_naming};
use super::*;
use bench::catalogue::{Case, MOST_SERVICES};
use bench::naming::named;
use goltximen::Under;

fn same_catalogue(under: Under, c: &[u8], list: &[u8], out: usize) -> Result<usize, Refused> {
    let Under { pairs, dictionary } = under;
    let calls: Calls<Result<usize, Refused>> = [
        &|out| plain::catalogue(pairs, dictionary, c, list, out).map_err(number_input_place),
        &|out| reference::catalogue(pairs, dictionary, c, list, out).map_err(of_reference),
        &|out| under.catalogue(c, list, out).map_err(of_product),
    ];
    same_written(out, calls)
}

/// Services that name some of so many descriptions; of many services small ones.
fn drawn_services(count: usize, names: usize, chance: &mut Chance) -> Vec<Vec<u8>> {
    let service = |_| {
        let entries = match count {
            0..6 => length(chance),
            _ => chance.below(5),
        };
        encode(&drawn_naming(entries, names, chance))
    };
    (0..count).map(service).collect()
}

#[test]
fn drawn_lists() {
    let mut chance = Chance::new(0x5eed_000a);
    let mut answers = [0; 5];
    for round in 0..3000 {
        let (names, dictionary) = match round % 3 {
            0 => drawn_dictionary(&mut chance),
            _ => (0, Vec::new()),
        };
        let count = [1, 2, 3, 5, 63, MOST_SERVICES, 65][chance.below(7)];
        let services = drawn_services(count, names, &mut chance);
        let mut c = match chance.below(2) {
            0 => services[chance.below(count)].clone(),
            _ => encode(&drawn_naming(length(&mut chance), names, &mut chance)),
        };
        let mut list = services.concat();
        if chance.below(12) == 0 {
            spoil(&mut c, &mut chance);
        }
        if chance.below(4) == 0 {
            spoil(&mut list, &mut chance);
        }
        let pairs: &[u8] =
            [&[][..], &[], &[1, 0, 2, 0], &[1, 0, 2, 0, 3, 0, 1, 0]][chance.below(4)];
        let under = Under {
            pairs,
            dictionary: &dictionary,
        };
        let out = [count, count, count - 1, count + 1, 0][chance.below(5)];
        match same_catalogue(under, &c, &list, out) {
            Ok(_) => answers[0] += 1,
            Err((7, ..)) => answers[1] += 1,
            Err((8, 2, _)) => answers[2] += 1,
            Err((_, 2..=65, _)) => answers[3] += 1,
            Err(_) => answers[4] += 1,
        }
    }
    assert!(answers.iter().all(|&times| times > 100), "{answers:?}");
}

/// Each byte of a list changed, with both checks made right again and without: services come together, fall apart and are refused.
#[test]
fn each_byte_of_a_list() {
    let dictionary = encode(&[entry(1, 0, 7, 0)]);
    let under = Under {
        pairs: &[],
        dictionary: &dictionary,
    };
    let parts = [
        encode(&[entry(1, 0, 7, 0), entry(5, 0, 1, 0), named(2, 1)]),
        encode(&[entry(1, 0, 7, 0); 64]),
        encode(&[named(0, 1)]),
    ];
    let (c, list) = (encode(&[named(0, 1)]), parts.concat());
    for at in 0..list.len() {
        for change in [1, 3, 0x80] {
            for mended in [false, true] {
                let mut list = list.clone();
                list[at] ^= change;
                let block = &mut list[at / 512 * 512..][..512];
                if mended {
                    mend_second(block);
                    mend_first(block);
                }
                let _ = same_catalogue(under, &c, &list, 4);
            }
        }
    }
}

/// Suppliers and services of each size of the tables, 16 blocks and 17, lists of other lengths.
#[test]
fn sizes_and_lengths() {
    let none = Under::default();
    let of = |entries: usize| {
        let entries = (1..=entries as u16).map(|name| entry(1, 0, name, 0));
        encode(&entries.collect::<Vec<_>>())
    };
    let sizes = [0, 1, 63, 64, 252, 253, 1008];
    for supplier in sizes.map(of) {
        for service in sizes.map(of) {
            let list = [&service[..], &of(70), &service].concat();
            assert_eq!(same_catalogue(none, &supplier, &list, 3), Ok(3));
        }
        let long = [of(5), of(1009)].concat();
        assert_eq!(same_catalogue(none, &supplier, &long, 2), Err((1, 3, 0)));
    }
    let (c, list) = (of(1), of(1).repeat(2));
    for length in [0, 1, 511, 513, 1023] {
        let answer = same_catalogue(none, &c, &list[..length], 2);
        assert_eq!(answer, Err((1, 2, 0)));
    }
    let many = of(1).repeat(200);
    assert_eq!(same_catalogue(none, &c, &many, 2), Err((8, 2, 0)));
    assert_eq!(same_catalogue(none, &[], &many, 2), Err((1, 1, 0)));
}

#[test]
fn inputs_of_the_rows_of_the_catalogue() {
    let mut chance = Chance::new(4);
    for (entries, shape) in [(16, Shape::Wide), (40, Shape::Deep), (250, Shape::Wide)] {
        for strange in [None, Some(65_500)] {
            let case = Case::new(entries, shape, strange, &mut chance);
            let list = case.list();
            let mut out = [9; MOST_SERVICES];
            let answer = plain::catalogue(&[], &[], &case.supplier, &list, &mut out);
            assert_eq!(answer, Ok(MOST_SERVICES));
            assert_eq!(out, [u8::from(strange.is_none()); MOST_SERVICES]);
            let none = Under::default();
            assert_eq!(same_catalogue(none, &case.supplier, &list, 64), Ok(64));
            for service in &case.services {
                assert_eq!(plain::read_description(service), Ok(entries));
            }
        }
    }
}
