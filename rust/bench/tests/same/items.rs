//! The same for the items of a delivered record.

use super::*;
use goltximen::{Under, MOST_ITEMS};

fn same_items(
    pairs: &[u8],
    total: usize,
    record: &[u8],
    d: &[u8],
    out: usize,
) -> Result<usize, Refused> {
    let under = Under {
        pairs,
        dictionary: &[],
    };
    let calls: Calls<Result<usize, Refused>> = [
        &|out| plain::fit_all(pairs, &[], total, record, d, out).map_err(number_input_place),
        &|out| reference::fit_all(pairs, &[], total, record, d, out).map_err(of_reference),
        &|out| {
            let filled = under.fit_all_into(total, record, d, out);
            filled.map_err(of_product)
        },
    ];
    same_written(out, calls)
}

/// Facts of items from 1 on, on few names; one is now and then of an item that is not there.
fn drawn_record(facts: usize, total: usize, chance: &mut Chance) -> Vec<u8> {
    let past = usize::from(chance.below(6) == 0);
    let facts = (0..facts).map(|_| {
        let owner = 1 + chance.below(total + past);
        let other = (1 + chance.below(total)) as u16;
        match chance.below(40) {
            0..=12 => entry(1, owner, chance.name(5), 0),
            13 => entry(8, owner, 32_768, other),
            _ => entry(8, owner, chance.name(3), other),
        }
    });
    encode(&facts.collect::<Vec<Entry>>())
}

#[test]
fn drawn_records() {
    let mut chance = Chance::new(0x5eed_000d);
    let mut answers = [0; 6];
    for _ in 0..3000 {
        let total = [1, 2, 3, 12, 255, MOST_ITEMS][chance.below(6)];
        let facts = [0, 1, 3, 8, 40, 63, 200][chance.below(7)];
        let mut record = drawn_record(facts, total, &mut chance);
        let d = encode(&draw(&DESCRIPTIONS, chance.below(12), &mut chance));
        if chance.below(8) == 0 {
            spoil(&mut record, &mut chance);
        }
        let pairs: &[u8] = [&[][..], &[], &[], &[1, 0, 2, 0]][chance.below(4)];
        let told = [total, total, total, total, total, total, 0, MOST_ITEMS + 1][chance.below(8)];
        let out = [total, total, total - 1, total + 1, 0][chance.below(5)];
        match same_items(pairs, told, &record, &d, out) {
            Ok(_) => answers[0] += 1,
            Err((7, ..)) => answers[1] += 1,
            Err((9, ..)) => answers[2] += 1,
            Err((10, ..)) => answers[3] += 1,
            Err((12, ..)) => answers[4] += 1,
            Err(_) => answers[5] += 1,
        }
    }
    assert!(answers.iter().all(|&times| times > 20), "{answers:?}");
}
