//! The same for the entries that earn a yes.

use super::*;
use bench::earning::{alternate, asked, Needed};

fn same_earning(pairs: &[u8], c: &[u8], d: &[u8], out: usize) -> Result<bool, Refused> {
    let calls: Calls<Result<bool, Refused>> = [
        &|out| plain::earning(pairs, c, d, out).map_err(number_input_place),
        &|out| reference::earning(pairs, c, d, out).map_err(of_reference),
        &|out| goltximen::earning(pairs, c, d, out).map_err(of_product),
    ];
    same_written(out, calls)
}

/// A description of few names, and one of some of its entries: half of the time a part of it, else another one.
fn drawn_two(chance: &mut Chance) -> (Vec<Entry>, Vec<Entry>) {
    let few = Draw {
        names: 1 + chance.below(4),
        after: [0, 32_766][chance.below(2)],
        ..DESCRIPTIONS
    };
    let entries = [3, 8, 20, 63, 64, 130][chance.below(6)];
    let c = draw(&few, chance.below(entries + 1), chance);
    let other = draw(&few, chance.below(6), chance);
    let mut part = c.clone();
    part.truncate(chance.below(c.len() + 1));
    let d = if chance.below(4) > 0 { part } else { other };
    (c, d)
}

#[test]
fn drawn_descriptions() {
    let mut chance = Chance::new(0x5eed_0012);
    let mut answers = [0; 4];
    for _ in 0..3000 {
        let (c, d) = drawn_two(&mut chance);
        let needed = c.len();
        let (mut c, mut d) = (encode(&c), encode(&d));
        for bytes in [&mut c, &mut d] {
            if chance.below(12) == 0 {
                spoil(bytes, &mut chance);
            }
        }
        let pairs: &[u8] =
            [&[][..], &[], &[1, 0, 2, 0], &[1, 0, 2, 0, 3, 0, 1, 0]][chance.below(4)];
        match same_earning(pairs, &c, &d, room(needed, &mut chance)) {
            Ok(true) => answers[0] += 1,
            Ok(false) => answers[1] += 1,
            Err((7, ..)) => answers[2] += 1,
            Err(_) => answers[3] += 1,
        }
    }
    assert!(answers.iter().all(|&times| times > 100), "{answers:?}");
}

/// Sizes of each of the tables on either side, and what is refused.
#[test]
fn sizes_and_lists() {
    let of = |entries: usize| {
        let entries = (1..=entries as u16).map(|name| entry(1, 0, name, 0));
        encode(&entries.collect::<Vec<_>>())
    };
    for (c, d) in [(0, 0), (63, 64), (64, 63), (252, 30), (253, 252), (30, 260)] {
        assert_eq!(same_earning(&[], &of(c), &of(d), c), Ok(d <= c));
    }
    assert_eq!(same_earning(&[], &of(1009), &of(1), 1009), Err((1, 1, 0)));
    assert_eq!(same_earning(&[], &of(1), &of(1009), 1), Err((1, 2, 0)));
    assert_eq!(same_earning(&[7, 0, 7, 0], &[], &[], 0), Err((11, 0, 1)));
    let named = encode(&[entry(9, 0, 1, 0)]);
    assert_eq!(same_earning(&[], &named, &[], 0), Err((4, 1, 1)));
    assert_eq!(same_earning(&[], &of(2), &named, 0), Err((4, 2, 1)));
}

/// Of the rows' inputs as many entries are marked as their names say: the chain of a deep one, and what is needed.
#[test]
fn inputs_of_the_rows_of_earning() {
    let mut chance = Chance::new(12);
    for (sizes, shape) in [
        ((40, 40), Shape::Wide),
        ((40, 40), Shape::Deep),
        ((130, 40), Shape::Deep),
    ] {
        for needed in Needed::ALL {
            let (c, d) = asked(sizes, shape, needed, &mut chance);
            let (c_bytes, d_bytes) = (encode(&c), encode(&d));
            assert_eq!(same_earning(&[], &c_bytes, &d_bytes, c.len()), Ok(true));
            let mut marks = vec![0; c.len()];
            assert_eq!(
                plain::earning(&[], &c_bytes, &d_bytes, &mut marks),
                Ok(true)
            );
            let asked = d.iter().filter(|e| e.kind != 5).count();
            let says = (0..c.len()).filter(|&at| marks[at] == 1 && c[at].kind != 5);
            let due = match needed {
                Needed::All => asked,
                Needed::Half => asked.div_ceil(2),
                Needed::None => 0,
            };
            assert_eq!(says.count(), due);
        }
    }
    let (c, d) = alternate(60, &mut chance);
    assert_eq!(same_earning(&[], &encode(&c), &encode(&d), 60), Ok(true));
}
