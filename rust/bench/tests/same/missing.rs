//! The same for what a description lacks for a yes.

use super::*;

/// 1 for nothing, 2 for what is to be added, 3 where no item fits both.
fn same_missing(pairs: &[u8], c: &[u8], d: &[u8], out: usize) -> Result<u8, Refused> {
    let of_plain = |lack| match lack {
        plain::Lack::Nothing => 1,
        plain::Lack::Addable => 2,
        plain::Lack::Against => 3,
    };
    let of_other = |lack| match lack {
        reference::Missing::NothingToAdd => 1,
        reference::Missing::ToBeAdded => 2,
        reference::Missing::NothingFitsBoth => 3,
    };
    let of_ours = |lack| match lack {
        goltximen::Lack::Nothing => 1,
        goltximen::Lack::Addable => 2,
        goltximen::Lack::Against => 3,
    };
    let calls: Calls<Result<u8, Refused>> = [
        &|out| {
            let lack = plain::missing(pairs, c, d, out);
            lack.map(of_plain).map_err(number_input_place)
        },
        &|out| {
            let lack = reference::missing(pairs, c, d, out);
            lack.map(of_other).map_err(of_reference)
        },
        &|out| {
            let lack = goltximen::missing(pairs, c, d, out);
            lack.map(of_ours).map_err(of_product)
        },
    ];
    same_written(out, calls)
}

#[test]
fn drawn_pairs() {
    let mut chance = Chance::new(0x5eed_000d);
    let mut answers = [0; 5];
    for _ in 0..4000 {
        let (c, d) = [(); 2]
            .map(|()| chance.below(8))
            .map(|entries| draw(&DESCRIPTIONS, entries, &mut chance))
            .into();
        let [mut first, mut second] = [&c, &d].map(|entries: &Vec<Entry>| encode(entries));
        match chance.below(8) {
            0 => spoil(&mut first, &mut chance),
            1 => spoil(&mut second, &mut chance),
            _ => {}
        }
        let pairs: &[u8] =
            [&[][..], &[], &[1, 0, 2, 0], &[1, 0, 2, 0, 3, 0, 1, 0]][chance.below(4)];
        let out = [d.len(), d.len(), d.len() + 1, d.len().saturating_sub(1)][chance.below(4)];
        match same_missing(pairs, &first, &second, out) {
            Ok(answer) => answers[usize::from(answer) - 1] += 1,
            Err((7, ..)) => answers[3] += 1,
            Err(_) => answers[4] += 1,
        }
    }
    assert!(answers.iter().all(|&times| times > 50), "{answers:?}");
}

/// Sizes of each of the tables, 16 blocks together and 17.
#[test]
fn sizes_together() {
    let of = |from: u16, entries: u16| {
        let entries = (from..from + entries).map(|name| entry(1, 0, name, 0));
        encode(&entries.collect::<Vec<_>>())
    };
    for (c, d) in [(0, 1), (30, 33), (63, 63), (100, 126), (126, 127)] {
        assert_eq!(same_missing(&[], &of(1, c), &of(20, d), 1008), Ok(2));
    }
    assert_eq!(same_missing(&[], &of(1, 945), &of(7, 63), 63), Ok(1));
    let long = Err((1, 2, 0));
    assert_eq!(same_missing(&[], &of(1, 945), &of(7, 64), 64), long);
    assert_eq!(same_missing(&[], &of(1, 0), &of(7, 1008), 0), long);
}
