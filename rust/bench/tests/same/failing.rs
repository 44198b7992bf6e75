//! The same for the entries that fail.

use super::*;

fn same_failing(pairs: &[u8], c: &[u8], d: &[u8], out: usize) -> Result<bool, Refused> {
    let calls: Calls<Result<bool, Refused>> = [
        &|out| plain::failing(pairs, c, d, out).map_err(number_input_place),
        &|out| reference::failing(pairs, c, d, out).map_err(of_reference),
        &|out| goltximen::failing(pairs, c, d, out).map_err(of_product),
    ];
    same_written(out, calls)
}

/// Two descriptions of few names: the second is a part of the first, with another last entry or without, or another one.
fn drawn_two(chance: &mut Chance) -> (Vec<Entry>, Vec<Entry>) {
    let few = Draw {
        names: 1 + chance.below(4),
        after: [0, 32_766][chance.below(2)],
        ..DESCRIPTIONS
    };
    let entries = [3, 8, 20, 63, 64, 130][chance.below(6)];
    let c = draw(&few, chance.below(entries + 1), chance);
    let other = draw(&few, chance.below(entries + 1), chance);
    let mut part = c.clone();
    part.truncate(chance.below(c.len() + 1));
    if chance.below(2) == 0 {
        part.push(entry(2 + chance.below(3) as u8, 0, few.after + 1, 0));
    }
    let d = if chance.below(3) > 0 { part } else { other };
    (c, d)
}

#[test]
fn drawn_descriptions() {
    let mut chance = Chance::new(0x5eed_0015);
    let mut answers = [0; 4];
    for _ in 0..4000 {
        let (c, d) = drawn_two(&mut chance);
        let needed = d.len();
        let (mut c, mut d) = (encode(&c), encode(&d));
        for bytes in [&mut c, &mut d] {
            if chance.below(12) == 0 {
                spoil(bytes, &mut chance);
            }
        }
        let pairs: &[u8] =
            [&[][..], &[], &[1, 0, 2, 0], &[1, 0, 2, 0, 3, 0, 1, 0]][chance.below(4)];
        match same_failing(pairs, &c, &d, room(needed, &mut chance)) {
            Ok(true) => answers[0] += 1,
            Ok(false) => answers[1] += 1,
            Err((7, ..)) => answers[2] += 1,
            Err(_) => answers[3] += 1,
        }
    }
    assert!(answers.iter().all(|&times| times > 100), "{answers:?}");
}

/// The models of the bench where none fails, half of them and all, and what is refused.
#[test]
fn models_and_lengths() {
    let mut chance = Chance::new(0x5eed_0016);
    for entries in [16, 40, 504, 1008] {
        for shape in [Shape::Wide, Shape::Deep] {
            let model = Model::new(entries, shape, &mut chance);
            let d = model.description();
            let (half, whole) = (encode(&d[..entries / 2]), encode(&d));
            let looser = encode(&model.looser(&mut chance));
            assert_eq!(same_failing(&[], &whole, &looser, entries), Ok(true));
            assert_eq!(same_failing(&[], &half, &whole, entries), Ok(false));
            assert_eq!(same_failing(&[], &encode(&[]), &whole, entries), Ok(false));
            let short = Err((7, 0, 0));
            assert_eq!(same_failing(&[], &whole, &looser, entries - 1), short);
        }
    }
    let of = |entries: usize| encode(&vec![entry(1, 0, 7, 0); entries]);
    assert_eq!(same_failing(&[], &of(1009), &[], 0), Err((1, 1, 0)));
    assert_eq!(same_failing(&[], &of(1), &of(1009), 0), Err((1, 2, 0)));
    assert_eq!(same_failing(&[7, 0, 7, 0], &[], &[], 0), Err((11, 0, 1)));
}
