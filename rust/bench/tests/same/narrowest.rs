//! The same for the narrowest description of two, with no dictionary.

use super::*;
use bench::excluding::{half_renamed, list, Case};
use goltximen::Under;

fn same_narrowest(pairs: &[u8], a: &[u8], b: &[u8], out: usize) -> Result<usize, Refused> {
    let under = Under {
        pairs,
        dictionary: &[],
    };
    let calls: Calls<Result<usize, Refused>> = [
        &|out| plain::narrowest(pairs, a, b, out).map_err(number_input_place),
        &|out| reference::narrowest(pairs, &[], a, b, out).map_err(of_reference),
        &|out| {
            let answer = under.narrowest(a, b, out);
            answer.map(usize::from).map_err(of_product)
        },
    ];
    same_written(out, calls)
}

/// Two descriptions of few names: the second begins as the first, or is another one.
fn drawn_two(chance: &mut Chance) -> (Vec<Entry>, Vec<Entry>) {
    let few = Draw {
        names: 1 + chance.below(4),
        after: [0, 32_766][chance.below(2)],
        ..DESCRIPTIONS
    };
    let entries = [3, 8, 20, 63, 64, 130, 300][chance.below(7)];
    let a = draw(&few, chance.below(entries + 1), chance);
    let other = draw(&few, chance.below(entries + 1), chance);
    let mut part = a.clone();
    part.truncate(chance.below(a.len() + 1));
    let b = if chance.below(3) > 0 { other } else { part };
    (a, b)
}

/// A list over the same names: none, one pair, a few, or one that excludes many; now and then a wrong one.
fn drawn_pairs(chance: &mut Chance) -> Vec<u8> {
    let count = [0, 1, 1, 3, 12][chance.below(5)];
    let after = [0, 32_766][chance.below(2)];
    let wrong = chance.below(16) == 0;
    let mut pairs = Vec::new();
    while pairs.len() < count {
        let [one, other] = [(); 2].map(|()| after + chance.name(6));
        if one != other || wrong {
            pairs.push((one, other));
        }
    }
    list(&pairs)
}

#[test]
fn drawn_descriptions() {
    let mut chance = Chance::new(0x5eed_0013);
    let mut answers = [0; 4];
    for _ in 0..6000 {
        let pairs = drawn_pairs(&mut chance);
        let (a, b) = drawn_two(&mut chance);
        let (mut a, mut b) = (encode(&a), encode(&b));
        for bytes in [&mut a, &mut b] {
            if chance.below(12) == 0 {
                spoil(bytes, &mut chance);
            }
        }
        let needed = a.len() + b.len();
        match same_narrowest(&pairs, &a, &b, room(needed, &mut chance)) {
            Ok(_) if pairs.is_empty() => answers[0] += 1,
            Ok(_) => answers[1] += 1,
            Err((7, ..)) => answers[2] += 1,
            Err(_) => answers[3] += 1,
        }
    }
    assert!(answers.iter().all(|&times| times > 100), "{answers:?}");
}

/// The models of the bench, and what is refused for its length.
#[test]
fn models_and_lengths() {
    let mut chance = Chance::new(0x5eed_0014);
    for entries in [16, 63, 250, 504] {
        for shape in [Shape::Wide, Shape::Deep] {
            let model = Model::new(entries, shape, &mut chance);
            let (a, b) = (
                encode(&model.description()),
                encode(&model.looser(&mut chance)),
            );
            let answer = same_narrowest(&[], &a, &b, a.len() + b.len());
            assert!(answer.is_ok_and(|entries| entries > 0), "{answer:?}");
        }
    }
    let of = |entries: usize| encode(&vec![entry(1, 0, 7, 0); entries]);
    assert_eq!(same_narrowest(&[], &of(504), &of(504), 8192), Ok(1));
    assert_eq!(same_narrowest(&[], &of(504), &of(505), 0), Err((1, 2, 0)));
    assert_eq!(same_narrowest(&[], &of(1009), &of(1), 0), Err((1, 1, 0)));
}

/// The inputs of the rows under lists: of the same names, and of half of them, in which at most as much is said in common.
#[test]
fn inputs_of_the_rows_under_lists() {
    let mut chance = Chance::new(3);
    for entries in [16, 63, 250, 504] {
        for shape in [Shape::Wide, Shape::Deep] {
            for pairs in [0, 8, 64] {
                let case = Case::new(entries, shape, pairs, &mut chance);
                let narrowest = |b: &[Entry]| {
                    let (a, b) = (encode(&case.c), encode(b));
                    same_narrowest(&case.pairs, &a, &b, a.len() + b.len())
                };
                let (same, half) = (narrowest(&case.d), narrowest(&half_renamed(&case.d)));
                assert!(half.is_ok_and(|entries| entries > 0), "{half:?}");
                assert!(same > half, "{same:?} {half:?}");
            }
        }
    }
}

/// Lacks that neither side lists make a result of nine entries for each link of both: of 112 links it has 1,008.
#[test]
fn results_longer_than_both() {
    let with = |one: u16| (9..=16).map(move |other| (one, other));
    let pairs = list(&(1..=8).flat_map(with).collect::<Vec<_>>());
    let below = |links: u16, property| {
        let every = |link: u16| {
            let owner = usize::from(2 * link - 1);
            [entry(5, 0, link, 0), entry(1, owner, property, 0)]
        };
        encode(&(1..=links).flat_map(every).collect::<Vec<_>>())
    };
    let short = Err((7, 0, 0));
    for (links, length, due) in [
        (1, 1024, Ok(9)),
        (28, 2048, Ok(252)),
        (28, 2047, short),
        (29, 2560, Ok(261)),
        (29, 2559, short),
        (31, 2560, Ok(279)),
        (112, 8192, Ok(1008)),
        (112, 8191, short),
        (113, 20_000, short),
        (250, 20_000, short),
    ] {
        let (a, b) = (below(links, 1), below(links, 2));
        assert_eq!(same_narrowest(&pairs, &a, &b, length), due);
    }
}
