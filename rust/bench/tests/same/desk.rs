//! The same for a drafting desk: answers, and each byte of the buffer after each call.

use super::*;
use bench::drafting::{full_desk, number_of, FIRST_STAND};
use bench::plain::desk;
use goltximen::{Desk, DESK_BYTES};

/// A call on the plain desk and on the library's: both have to answer the same, and to leave the same bytes but those behind the
/// entries that are held.
#[derive(Clone, Copy, Debug)]
enum Call {
    Add(u64),
    TakeOff,
    Name(u16),
    GoBack(u16),
    Drop(u16),
    Write(usize),
}

fn same(ours: &mut Desk, other: &mut Vec<u8>, call: Call) -> Result<usize, Refused> {
    let of_plain = |answer: Result<usize, plain::Refusal>| answer.map_err(number_input_place);
    let (product, found) = match call {
        Call::Add(entry) => (ours.add(entry.to_le_bytes()), desk::add(other, entry)),
        Call::TakeOff => (ours.take_off(), desk::take_off(other)),
        Call::Name(stand) => (ours.name(stand), desk::name(other, stand)),
        Call::GoBack(stand) => (ours.go_back(stand), desk::go_back(other, stand)),
        Call::Drop(stand) => (ours.drop_stand(stand), desk::drop_stand(other, stand)),
        Call::Write(length) => {
            let mut outs = [vec![FILL; length], vec![FILL; length]];
            let [out, beside] = &mut outs;
            let answers = (ours.write_out(out), desk::write_out(other, beside));
            assert!(out == beside);
            answers
        }
    };
    let answer = product_count(product);
    assert_eq!(answer, of_plain(found), "{call:?}");
    assert!(ours.bytes() == *other, "{call:?}");
    answer
}

fn drawn_call(chance: &mut Chance, next: &mut impl Iterator<Item = Entry>) -> Call {
    let stand = [0, 1, 2, 3, 4, 300, 65_535][chance.below(7)];
    match chance.below(12) {
        0..=4 => next
            .next()
            .map_or(Call::TakeOff, |entry| Call::Add(number_of(&entry))),
        5 => Call::Add(number_of(&entry(
            chance.below(10) as u8,
            chance.below(9),
            7,
            0,
        ))),
        6 => Call::TakeOff,
        7..=8 => Call::Name(stand),
        9 => Call::GoBack(stand),
        10 => Call::Drop(stand),
        _ => Call::Write([0, 511, 512, 1024, 8192][chance.below(5)]),
    }
}

#[test]
fn drawn_lists_of_calls() {
    let mut chance = Chance::new(0x5eed_000d);
    for _ in 0..200 {
        let mut ours = Desk::new();
        let mut other = vec![0; DESK_BYTES];
        let mut next = draw(&DESCRIPTIONS, length(&mut chance), &mut chance).into_iter();
        for _ in 0..80 {
            let call = drawn_call(&mut chance, &mut next);
            let _ = same(&mut ours, &mut other, call);
        }
    }
}

/// Counters, entries and lengths that are wrong, and bytes that are no part of the desk.
#[test]
fn damaged_desks() {
    let mut chance = Chance::new(0x5eed_000e);
    let mut answers = [0; 2];
    let whole = full_desk(40, Shape::Deep, &mut chance);
    for round in 0..4000 {
        let mut other = whole.clone();
        let at = match chance.below(3) {
            0 => chance.below(20),
            1 => 20 + 8064 * chance.below(5) + chance.below(330),
            _ => chance.below(DESK_BYTES),
        };
        other[at] = chance.below(256) as u8;
        if round % 50 == 0 {
            other.truncate(DESK_BYTES - 1);
        }
        let mut ours = Desk::from_bytes(&other);
        match same(&mut ours, &mut other, Call::GoBack(FIRST_STAND)) {
            Err((20, 1, 0)) => answers[0] += 1,
            _ => answers[1] += 1,
        }
    }
    assert!(answers.iter().all(|&times| times > 500), "{answers:?}");
}

#[test]
fn desks_of_the_rows() {
    let mut chance = Chance::new(7);
    for size in [40, 1008] {
        let mut other = full_desk(size, Shape::Deep, &mut chance);
        let mut ours = Desk::from_bytes(&other);
        for stand in FIRST_STAND..FIRST_STAND + 4 {
            assert_eq!(same(&mut ours, &mut other, Call::GoBack(stand)), Ok(size));
            let written = same(&mut ours, &mut other, Call::Write(512 * 16));
            assert_eq!(written, Ok(size));
        }
    }
}
