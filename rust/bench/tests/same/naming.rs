//! The same with dictionaries.

use super::excluding::{same_comparison_under, same_fit_under, same_normal_under};
use super::*;
use bench::naming::{
    deep_chain, empty_chain, flat, named, nested_among_properties, staircase, Case, MOST_NAMES,
};
use goltximen::Under;

/// The longest description.
const LONGEST: usize = 16 * 512;

fn same_unfolded(dictionary: &[u8], d: &[u8], out: usize) -> Result<usize, Refused> {
    let calls: Calls<Result<usize, Refused>> = [
        &|out| plain::unfold(dictionary, d, out).map_err(number_input_place),
        &|out| reference::unfold(dictionary, d, out).map_err(of_reference),
        &|out| goltximen::unfold(dictionary, d, out).map_err(of_product),
    ];
    same_written(out, calls)
}

/// Some entries that own nothing become names of the first so many descriptions, or of others now and then.
fn naming(entries: &mut [Entry], count: usize, chance: &mut Chance) {
    let often = 1 + chance.below(4);
    for e in entries.iter_mut().filter(|e| e.kind != 5) {
        if count == 0 || chance.below(often) > 0 {
            continue;
        }
        let strange = chance.below(2000) == 0;
        let name = [1 + chance.below(count), chance.below(count + 3)][usize::from(strange)];
        *e = named(e.owner.into(), name);
    }
}

/// Entries that name some of so many descriptions.
pub fn drawn_naming(entries: usize, count: usize, chance: &mut Chance) -> Vec<Entry> {
    let names = [2, 4, 40, 65_535][chance.below(4)];
    let mut drawn = draw(
        &Draw {
            names,
            ..DESCRIPTIONS
        },
        entries,
        chance,
    );
    naming(&mut drawn, count, chance);
    drawn
}

/// A dictionary of any number of descriptions, mostly small ones; one in eight is spoiled.
pub fn drawn_dictionary(chance: &mut Chance) -> (usize, Vec<u8>) {
    let count = [0, 1, 2, 5, 20, 63, MOST_NAMES, 65][chance.below(8)];
    let mut dictionary = Vec::new();
    for earlier in 0..count {
        let entries = match chance.below(40) {
            0 => chance.below(200),
            1..=10 => 0,
            _ => chance.below(5),
        };
        dictionary.extend(encode(&drawn_naming(entries, earlier, chance)));
    }
    if chance.below(8) == 0 && !dictionary.is_empty() {
        spoil(&mut dictionary, chance);
    }
    (count, dictionary)
}

/// An output's length: around what is needed for the unfolded description, or any.
fn around(dictionary: &[u8], inputs: &[&[u8]], chance: &mut Chance) -> usize {
    let needed = inputs.iter().map(|d| {
        let entries = reference::unfold(dictionary, d, &mut [0; LONGEST]).unwrap_or(0);
        512 * entries.div_ceil(63).max(1)
    });
    room(needed.sum(), chance)
}

#[test]
fn drawn_dictionaries() {
    let mut chance = Chance::new(0x5eed_0008);
    let mut answers = [0; 4];
    for _ in 0..4000 {
        let (count, dictionary) = drawn_dictionary(&mut chance);
        let [mut c, mut d] = [(), ()].map(|()| {
            let entries = length(&mut chance);
            encode(&drawn_naming(entries, count, &mut chance))
        });
        let s = drawn(&SPECIMENS, &mut chance);
        for input in [&mut c, &mut d] {
            if chance.below(12) == 0 {
                spoil(input, &mut chance);
            }
        }
        let pairs: &[u8] = [&[][..], &[1, 0, 2, 0]][chance.below(2)];
        let under = Under {
            pairs,
            dictionary: &dictionary,
        };
        let out = around(&dictionary, &[&c], &mut chance);
        match same_unfolded(&dictionary, &c, out) {
            Ok(_) => answers[0] += 1,
            Err((13, ..)) => answers[1] += 1,
            Err((14, ..)) => answers[2] += 1,
            Err((_, 100.., _)) => answers[3] += 1,
            Err(_) => (),
        }
        same_normal_under(under, &c, out);
        let out = around(&dictionary, &[&c, &d], &mut chance);
        let _ = same_comparison_under(under, &c, &d, out);
        let _ = same_comparison_under(under, &c, &c, 2 * LONGEST);
        let _ = same_fit_under(under, &s, &d);
    }
    let [unfolded, names, too_much, dictionaries] = answers;
    assert!(unfolded > 1500 && names > 20, "{answers:?}");
    assert!(too_much > 50 && dictionaries > 500, "{answers:?}");
}

/// Each byte of a dictionary changed, with both checks made right again and without.
#[test]
fn each_byte_of_a_dictionary() {
    let parts = [
        encode(&[entry(1, 0, 7, 0), entry(5, 0, 1, 0), entry(2, 2, 8, 0)]),
        encode(&[named(0, 1); 64]),
        encode(&[entry(5, 0, 1, 0), named(1, 2), named(0, 1)]),
    ];
    let (dictionary, d) = (parts.concat(), encode(&[named(0, 3), named(0, 1)]));
    for at in 0..dictionary.len() {
        for change in [1, 3, 0x80] {
            for mended in [false, true] {
                let mut dictionary = dictionary.clone();
                dictionary[at] ^= change;
                let block = &mut dictionary[at / 512 * 512..][..512];
                if mended {
                    mend_second(block);
                    mend_first(block);
                }
                let _ = same_unfolded(&dictionary, &d, LONGEST);
            }
        }
    }
}

/// Sizes and depths around the limits once unfolded, as sent and by a name of a name.
#[test]
fn unfolded_limits() {
    let chain = |length| (0..length).map(|at| entry(5, at, 1, 0)).collect::<Vec<_>>();
    for (most, inner) in [(16, 1), (16, 62), (63, 1), (63, 15), (1, 1007)] {
        let contents = vec![entry(1, 0, 7, 0); most];
        let dictionary = [encode(&contents), encode(&[named(0, 1)])].concat();
        for names in [inner, inner + 1, inner + 2] {
            for name in [1, 2] {
                let mut d = vec![named(0, name); names];
                let _ = same_unfolded(&dictionary, &encode(&d), LONGEST);
                d.truncate(1007);
                d.push(entry(5, 0, 1, 0));
                let _ = same_unfolded(&dictionary, &encode(&d), LONGEST);
            }
        }
    }
    for inner in 0..35 {
        let dictionary = [
            encode(&chain(inner)),
            encode(&[named(0, 1), entry(5, 0, 2, 0), named(2, 1)]),
        ]
        .concat();
        for outer in 0..34 {
            for name in [1, 2] {
                let mut d = chain(outer);
                d.push(named(outer, name));
                let _ = same_unfolded(&dictionary, &encode(&d), LONGEST);
            }
        }
    }
}

/// What a name comes to is the same each time, and below any owner.
#[test]
fn names_again_and_again() {
    let mut chance = Chance::new(0x5eed_0009);
    let mut most = 0;
    for _ in 0..300 {
        let mut dictionary = Vec::new();
        for earlier in 0..MOST_NAMES {
            let mut entries = vec![entry(5, 0, 1, 0), entry(1, 1, 7, 0)];
            entries.truncate(chance.below(3));
            if earlier > 0 && chance.below(3) > 0 {
                let owner = chance.below(entries.len().min(1) + 1);
                entries.push(named(owner, 1 + chance.below(earlier)));
            }
            dictionary.extend(encode(&entries));
        }
        let mut d = vec![entry(5, 0, 1, 0), entry(5, 1, 2, 0)];
        for _ in 0..chance.below(200) {
            d.push(named(chance.below(3), 1 + chance.below(MOST_NAMES)));
        }
        if let Ok(entries) = same_unfolded(&dictionary, &encode(&d), LONGEST) {
            most = most.max(entries);
        }
    }
    assert!(most > 500, "{most}");
}

#[test]
fn inputs_of_the_rows_with_dictionaries() {
    let mut chance = Chance::new(3);
    let unfolded = |case: &Case| {
        let d = encode(&case.description);
        same_unfolded(&case.dictionary, &d, LONGEST)
    };
    for (names, entries) in [(63, 16), (16, 63)] {
        let case = flat(names, entries, &mut chance);
        assert_eq!(case.description.len(), names);
        assert_eq!(unfolded(&case), Ok(1008));
        let under = Under {
            pairs: &[],
            dictionary: &case.dictionary,
        };
        let (c, mut d) = (encode(&case.description), case.description);
        d.reverse();
        let contained = same_comparison_under(under, &c, &encode(&d), 2 * LONGEST);
        assert_eq!(contained, Ok((0, 0)));
    }
    let (empty, deep) = (empty_chain(), deep_chain());
    assert_eq!((unfolded(&empty), unfolded(&deep)), (Ok(0), Ok(1)));
    assert_eq!(
        (empty.description.len(), deep.description.len()),
        (1008, 1008)
    );
    let chosen = [staircase(1), staircase(16), nested_among_properties()];
    let counts: Vec<_> = chosen.iter().map(unfolded).collect();
    assert_eq!(counts, [Ok(63), Ok(1008), Ok(1007)]);
}
