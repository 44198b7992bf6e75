//! The same under lists of properties that exclude each other.

use super::*;
use bench::excluding::{list, star, star_places, Case, MOST_PAIRS};
use goltximen::Under;

pub fn same_normal_under(under: Under, d: &[u8], out: usize) {
    let Under { pairs, dictionary } = under;
    let calls: Calls<Result<usize, Refused>> = [
        &|out| plain::normal_with(pairs, dictionary, d, out).map_err(number_input_place),
        &|out| reference::normal_with(pairs, dictionary, d, out).map_err(of_reference),
        &|out| product_count(under.normal_form(d, out)),
    ];
    let _ = same_written(out, calls);
}

pub fn same_comparison_under(under: Under, c: &[u8], d: &[u8], out: usize) -> Compared {
    let Under { pairs, dictionary } = under;
    let calls: Calls<Compared> = [
        &|out| plain_comparison(plain::compare_with(pairs, dictionary, c, d, out)),
        &|out| reference_comparison(reference::compare_with(pairs, dictionary, c, d, out)),
        &|out| product_comparison(under.compare(c, d, out)),
    ];
    same_written(out, calls)
}

pub fn same_fit_under(under: Under, s: &[u8], d: &[u8]) -> Result<bool, Refused> {
    let Under { pairs, dictionary } = under;
    let calls: Calls<Result<bool, Refused>> = [
        &|_| plain::fit_with(pairs, dictionary, s, d).map_err(number_input_place),
        &|_| reference::fit_with(pairs, dictionary, s, d).map_err(of_reference),
        &|_| product_fit(under.fit(s, d)),
    ];
    same_written(0, calls)
}

/// A list over these names: of any length up to 66, mostly right; one in four is a star.
fn drawn_list((after, names): (u16, usize), chance: &mut Chance) -> Vec<u8> {
    let count = [0, 1, 2, 5, MOST_PAIRS, 66][chance.below(6)];
    let star = (chance.below(4) == 0).then(|| after + chance.name(names));
    let wrong = chance.below(8) == 0;
    let mut pairs = Vec::new();
    while pairs.len() < count {
        let one = star.unwrap_or_else(|| after + chance.name(names));
        let other = after.max(1) - 1 + chance.name(names + 3);
        if one != other || wrong {
            pairs.push([(one, other), (other, one)][chance.below(2)]);
        }
    }
    let mut bytes = list(&pairs);
    if wrong && chance.below(2) == 0 {
        bytes.truncate(chance.below(bytes.len() + 1));
    }
    bytes
}

/// Two descriptions and a specimen over the same names, and a list over these.
fn drawn_case(chance: &mut Chance) -> (Vec<u8>, [Vec<u8>; 3]) {
    let (after, names) = [(0, 3), (0, 8), (0, 40), (32_765, 6), (65_000, 400)][chance.below(5)];
    let mut inputs = [&DESCRIPTIONS, &DESCRIPTIONS, &SPECIMENS].map(|rules| {
        let named = Draw {
            after,
            names,
            ..*rules
        };
        let entries = length(chance);
        encode(&draw(&named, entries, chance))
    });
    for input in &mut inputs {
        if chance.below(10) == 0 {
            spoil(input, chance);
        }
    }
    (drawn_list((after, names), chance), inputs)
}

#[test]
fn drawn_lists() {
    let mut chance = Chance::new(0x5eed_0005);
    let (mut listed, mut clashes) = (0, 0);
    for _ in 0..4000 {
        let (pairs, [c, d, s]) = drawn_case(&mut chance);
        let under = Under {
            pairs: &pairs,
            dictionary: &[],
        };
        same_normal_under(under, &c, room(c.len(), &mut chance));
        let out = room(c.len() + d.len(), &mut chance);
        listed += usize::from(same_comparison_under(under, &c, &d, out).is_ok());
        let _ = same_comparison_under(under, &c, &c, 2 * c.len());
        let fit = same_fit_under(under, &s, &d);
        clashes += usize::from(matches!(fit, Err((12, ..))));
    }
    assert!(listed > 1500 && clashes > 100, "{listed} {clashes}");
}

/// What a comparison writes under a list fits the one description and not the other under the same list.
#[test]
fn specimens_under_lists() {
    let mut chance = Chance::new(0x5eed_0006);
    let mut shown = 0;
    for _ in 0..2000 {
        let (pairs, [c, d, _]) = drawn_case(&mut chance);
        let under = Under {
            pairs: &pairs,
            dictionary: &[],
        };
        let mut out = vec![0; c.len() + d.len()];
        let answer = plain::compare_with(&pairs, &[], &c, &d, &mut out);
        if let Ok(plain::Comparison::NotContained { entries, .. }) = answer {
            let written = &out[..512 * entries.div_ceil(63).max(1)];
            assert_eq!(same_fit_under(under, written, &c), Ok(true));
            assert_eq!(same_fit_under(under, written, &d), Ok(false));
            shown += 1;
        }
    }
    assert!(shown > 500, "{shown}");
}

/// With no pairs the calls are the ones without a list.
#[test]
fn no_pairs() {
    let mut chance = Chance::new(0x5eed_0007);
    for _ in 0..300 {
        let (_, [c, d, s]) = drawn_case(&mut chance);
        let mut outs = [vec![FILL; 2 * c.len()], vec![FILL; 2 * c.len()]];
        let with = plain::normal_with(&[], &[], &c, &mut outs[0]);
        assert_eq!(with, plain::normal_form(&c, &mut outs[1]));
        let with = plain::compare_with(&[], &[], &c, &d, &mut outs[0]);
        assert_eq!(with, plain::compare(&c, &d, &mut outs[1]));
        assert!(outs[0] == outs[1]);
        assert_eq!(plain::fit_with(&[], &[], &s, &d), plain::fit(&s, &d));
    }
}

#[test]
fn inputs_of_the_rows_under_lists() {
    let mut chance = Chance::new(2);
    for shape in [Shape::Wide, Shape::Deep] {
        for (entries, pairs) in [(250, 0), (250, 8), (250, 64), (1008, 8), (1008, 64)] {
            let case = Case::new(entries, shape, pairs, &mut chance);
            let under = Under {
                pairs: &case.pairs,
                dictionary: &[],
            };
            assert_eq!(case.pairs.len(), 4 * pairs);
            let (c, d, s) = (encode(&case.c), encode(&case.d), encode(&case.specimen));
            let contained = same_comparison_under(under, &c, &d, c.len() + d.len());
            assert_eq!(contained, Ok((0, 0)));
            // Only the list makes it so.
            let without = same_comparison_under(Under::default(), &c, &d, c.len() + d.len());
            assert_eq!(without == contained, pairs == 0);
            same_normal_under(under, &c, c.len());
            assert_eq!(same_fit_under(under, &s, &d), Ok(true));
        }
    }
}

#[test]
fn the_worst_list() {
    let (pairs, (have, lack)) = (star(), star_places());
    let under = Under {
        pairs: &pairs,
        dictionary: &[],
    };
    let (have, lack) = (encode(&have), encode(&lack));
    let both = have.len() + lack.len();
    let contained = same_comparison_under(under, &have, &lack, both);
    assert_eq!(contained, Ok((0, 0)));
    assert_eq!(reference::read_description(&have), Ok(1008));
    same_normal_under(under, &lack, lack.len());
    same_normal_under(under, &have, have.len());
}
