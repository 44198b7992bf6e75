//! The same for the shorter stored form, both ways.

use super::*;
use goltximen::stored_bytes;

fn same_stored(d: &[u8], out: usize) -> Result<usize, Refused> {
    let calls: Calls<Result<usize, Refused>> = [
        &|out| plain::to_stored(d, out).map_err(number_input_place),
        &|out| reference::to_stored(d, out).map_err(of_reference),
        &|out| goltximen::to_stored(d, out).map_err(of_product),
    ];
    same_written(out, calls)
}

fn same_restored(s: &[u8], out: usize) -> Result<usize, Refused> {
    let calls: Calls<Result<usize, Refused>> = [
        &|out| plain::from_stored(s, out).map_err(number_input_place),
        &|out| reference::from_stored(s, out).map_err(of_reference),
        &|out| goltximen::from_stored(s, out).map_err(of_product),
    ];
    same_written(out, calls)
}

#[test]
fn drawn_both_ways() {
    let mut chance = Chance::new(0x5eed_0010);
    let mut answers = [[0; 3]; 2];
    for _ in 0..6000 {
        let d = drawn(&DESCRIPTIONS, &mut chance);
        let out = [0, 512, 6144, 6144, 8192][chance.below(5)];
        let answer = same_stored(&d, out);
        count(&mut answers[0], answer);
        let mut s = vec![0; 6144];
        let Ok(entries) = reference::to_stored(&d, &mut s) else {
            continue;
        };
        s.truncate(stored_bytes(entries));
        if chance.below(2) == 0 {
            spoil_entry(&mut s, &mut chance);
        }
        if chance.below(8) == 0 {
            spoil(&mut s, &mut chance);
        }
        let answer = same_restored(&s, [0, 512, 8192, 8192][chance.below(4)]);
        count(&mut answers[1], answer);
    }
    let all = answers.iter().flatten();
    assert!(all.clone().all(|&times| times > 100), "{answers:?}");
}

fn count(answers: &mut [usize; 3], answer: Result<usize, Refused>) {
    match answer {
        Ok(_) => answers[0] += 1,
        Err((7, ..)) => answers[1] += 1,
        Err(_) => answers[2] += 1,
    }
}

/// Changes kind or depth of a used entry, and mends the checks of its block.
fn spoil_entry(s: &mut [u8], chance: &mut Chance) {
    let block = 512 * chance.below(s.len() / 512);
    let used = usize::from(s[block + 2]);
    if used > 0 {
        let at = block + 4 + 6 * chance.below(used) + chance.below(2);
        s[at] = [0, 1, 2, 3, 5, 32, 33, 255][chance.below(8)];
        let block = &mut s[block..block + 512];
        mend_second(block);
        mend_first(block);
    }
}

/// Full blocks, one entry more, and as many as there may be.
#[test]
fn each_count() {
    for entries in [0, 1, 63, 64, 83, 84, 85, 168, 169, 1007, 1008] {
        let d = encode(&vec![entry(1, 0, 7, 0); entries]);
        assert_eq!(same_stored(&d, 6144), Ok(entries));
        let mut s = vec![0; stored_bytes(entries)];
        assert_eq!(reference::to_stored(&d, &mut s), Ok(entries));
        assert_eq!(same_restored(&s, 8192), Ok(entries));
        assert_eq!(same_restored(&s, d.len() - 1), Err((7, 0, 0)));
    }
}
