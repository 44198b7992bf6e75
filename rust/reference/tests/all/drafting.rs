//! The drafting desk: what a list of calls answers.

use reference::{
    decode, desk_answers, encode, read_description, Call, Desk, Entry, Outcome, Refusal,
};

use crate::chance::{Chance, Size};
use crate::naming::{chain, refusal};
use crate::notation::{entries, entry, FILL};
use crate::wrong::{needs, refused_at, written};

const HAS: Entry = Entry {
    kind: 1,
    zero: 0,
    owner: 0,
    name: 1,
    number: 0,
};

/// A desk after calls of which none is refused.
fn desk(calls: &[Call]) -> Desk {
    let mut desk = Desk::default();
    for &call in calls {
        let answer = match call {
            Call::Add(entry) => desk.add(entry),
            Call::TakeOff => desk.take_off(),
            Call::Name(stand) => desk.name(stand),
            Call::GoBack(stand) => desk.go_back(stand),
            Call::Drop(stand) => desk.drop_stand(stand),
            Call::Write(_) => Ok(0),
        };
        answer.unwrap();
    }
    desk
}

fn full(count: usize) -> Desk {
    desk(&vec![Call::Add(HAS); count])
}

/// The entries that the desk writes out.
fn held(desk: &Desk) -> Vec<Entry> {
    written(20_000, |out| desk.write_out(out)).unwrap()
}

/// What the desk holds after calls that were all done, read off the calls: the
/// last one that says something of it decides.
fn held_by_list(done: &[Call]) -> Vec<Entry> {
    let Some((last, before)) = done.split_last() else {
        return Vec::new();
    };
    match *last {
        Call::Add(entry) => [held_by_list(before), vec![entry]].concat(),
        Call::TakeOff => {
            let mut entries = held_by_list(before);
            entries.pop();
            entries
        }
        Call::GoBack(stand) => {
            let named = before.iter().rposition(|&call| call == Call::Name(stand));
            held_by_list(&before[..named.unwrap()])
        }
        Call::Name(_) | Call::Drop(_) | Call::Write(_) => held_by_list(before),
    }
}

/// Whether the stand was named and not dropped since.
fn stands(done: &[Call], stand: u16) -> bool {
    let last = done
        .iter()
        .rev()
        .find(|&&call| call == Call::Name(stand) || call == Call::Drop(stand));
    last == Some(&Call::Name(stand))
}

/// What the next call is due to answer after calls that were all done.
fn due(done: &[Call], call: Call) -> Result<usize, Refusal> {
    let held = held_by_list(done);
    let number = match call {
        Call::Add(_) if held.len() == 1008 => 16,
        Call::Add(entry) => return read_description(&encode(&[held, vec![entry]].concat())),
        Call::TakeOff if held.is_empty() => 17,
        Call::TakeOff => return Ok(held.len() - 1),
        Call::Name(0) => 18,
        Call::Name(stand) => {
            let others = (1..=9)
                .filter(|&other| other != stand && stands(done, other))
                .count();
            if others < 4 {
                return Ok(held.len());
            }
            18
        }
        Call::GoBack(stand) if stands(done, stand) => {
            return Ok(held_by_list(&[done, &[call]].concat()).len())
        }
        Call::Drop(stand) if stands(done, stand) => return Ok(held.len()),
        Call::GoBack(_) | Call::Drop(_) => 18,
        Call::Write(length) if length < encode(&held).len() => return Err(refusal(7, 0, 0)),
        Call::Write(_) => return Ok(held.len()),
    };
    Err(refusal(number, 1, 0))
}

/// Each answer of a list of calls, and each byte that is written.
fn check(calls: &[Call]) {
    let found = desk_answers(calls);
    assert_eq!(found.len(), calls.len());
    let mut done = Vec::new();
    for (&call, Outcome { answer, written }) in calls.iter().zip(found) {
        assert_eq!(answer, due(&done, call), "{done:?} {call:?}");
        let bytes = match call {
            Call::Write(_) if answer.is_ok() => encode(&held_by_list(&done)),
            _ => vec![],
        };
        assert_eq!(written, bytes);
        if answer.is_ok() {
            done.push(call);
        }
    }
}

/// All lists of up to five of these calls.
#[test]
fn all_short_lists() {
    let each = [
        Call::Add(HAS),
        Call::Add(entry(1, 1, 2, 0)),
        Call::TakeOff,
        Call::Name(1),
        Call::GoBack(1),
        Call::Drop(1),
        Call::GoBack(2),
        Call::Name(2),
    ];
    let mut lists: Vec<Vec<Call>> = vec![vec![]];
    for _ in 0..5 {
        let longer = |list: &Vec<Call>| each.map(|call| [&list[..], &[call]].concat());
        lists = lists.iter().flat_map(longer).collect();
    }
    for mut calls in lists {
        calls.push(Call::Write(512));
        check(&calls);
    }
}

fn drawn_call(chance: &mut Chance) -> Call {
    let stand = chance.below(7) as u16;
    match chance.below(14) {
        0..=3 => {
            let size = Size {
                entries: 1,
                properties: 2,
                links_after: 0,
                links: 2,
                number: 3,
            };
            let drawn = crate::chance::exact_description(chance, size, 1)[0];
            let owner = chance.below(6) as u16;
            Call::Add(Entry { owner, ..drawn })
        }
        4..=5 => Call::Add(entry(5, chance.below(3) as u16, 1, 0)),
        6 => Call::Add(entry(
            chance.below(10) as u8,
            0,
            chance.below(2) as u16,
            chance.below(2) as u16,
        )),
        7 => Call::TakeOff,
        8..=9 => Call::Name(stand),
        10..=11 => Call::GoBack(stand),
        12 => Call::Drop(stand),
        _ => Call::Write(chance.one_of(&[0, 511, 512, 600, usize::MAX])),
    }
}

#[test]
fn drawn_lists() {
    let mut chance = Chance::from(1501);
    for _ in 0..400 {
        let calls: Vec<Call> = (0..30).map(|_| drawn_call(&mut chance)).collect();
        check(&calls);
    }
}

#[test]
fn by_hand() {
    let two = entry(2, 0, 2, 0);
    let calls = [
        Call::Write(512),
        Call::Add(entry(5, 0, 1, 0)),
        Call::Add(entry(1, 1, 7, 0)),
        Call::Name(65_535),
        Call::TakeOff,
        Call::Add(two),
        Call::Name(3),
        Call::GoBack(65_535),
        Call::Name(3),
        Call::TakeOff,
        Call::TakeOff,
        Call::TakeOff,
        Call::GoBack(3),
        Call::Drop(3),
        Call::GoBack(3),
        Call::Write(600),
    ];
    let found = desk_answers(&calls);
    let answers: Vec<_> = found.iter().map(|outcome| outcome.answer).collect();
    let (none, unknown) = (refusal(17, 1, 0), refusal(18, 1, 0));
    let counts = [0, 1, 2, 2, 1, 2, 2, 2, 2, 1, 0, 0, 2, 2, 0, 2];
    let mut due = counts.map(Ok);
    (due[11], due[14]) = (Err(none), Err(unknown));
    assert_eq!(answers, due);
    assert_eq!(decode(&found[15].written), entries("5,1 [1,7]"));
    assert_eq!(found[0].written, encode(&[]));
}

/// Four stands; a name used again replaces its stand and is no fifth.
#[test]
fn stands_of_a_desk() {
    assert_eq!(Desk::default().name(0), Err(refusal(18, 1, 0)));
    let mut desk = desk(&[1, 2, 3, 65_535].map(Call::Name));
    for stand in [0, 4, 65_534] {
        assert_eq!(desk.name(stand), Err(refusal(18, 1, 0)));
        assert_eq!(desk.go_back(stand), Err(refusal(18, 1, 0)));
        assert_eq!(desk.drop_stand(stand), Err(refusal(18, 1, 0)));
    }
    desk.add(HAS).unwrap();
    assert_eq!(desk.name(2), Ok(1));
    assert_eq!(desk.go_back(1), Ok(0));
    assert_eq!(desk.go_back(2), Ok(1));
    assert_eq!(desk.drop_stand(1), Ok(1));
    assert_eq!(desk.name(4), Ok(1));
    assert_eq!(desk.name(1), Err(refusal(18, 1, 0)));
}

/// 16 before all that an entry can be refused for.
#[test]
fn a_full_desk() {
    let mut desk = full(1008);
    desk.name(7).unwrap();
    let before = desk.clone();
    for added in [HAS, entry(0, 0, 0, 0), entry(1, 1, 1, 0)] {
        assert_eq!(desk.add(added), Err(refusal(16, 1, 0)));
    }
    assert_eq!(desk, before);
    assert_eq!(desk.take_off(), Ok(1007));
    assert_eq!(desk.add(entry(0, 0, 0, 0)), Err(refusal(4, 1, 1008)));
    assert_eq!(desk.add(entry(2, 0, 1, 0)), Ok(1008));
    assert_eq!(desk.go_back(7), Ok(1008));
    assert_eq!(held(&desk), vec![HAS; 1008]);
}

/// An entry is refused at the number that it would have.
#[test]
fn adding() {
    let mut desk = desk(&chain(33).into_iter().map(Call::Add).collect::<Vec<_>>());
    let before = desk.clone();
    let mut zero = HAS;
    zero.zero = 1;
    for (added, number) in [
        (zero, 4),
        (entry(0, 0, 1, 0), 4),
        (entry(7, 0, 1, 0), 4),
        (entry(8, 0, 1, 1), 4),
        (entry(9, 0, 1, 0), 4),
        (entry(1, 0, 0, 0), 4),
        (entry(1, 99, 1, 1), 4),
        (entry(1, 34, 1, 0), 5),
        (entry(1, 65_535, 1, 0), 5),
        (entry(1, 33, 1, 0), 6),
        (entry(5, 33, 1, 0), 6),
    ] {
        assert_eq!(desk.add(added), Err(refusal(number, 1, 34)));
        assert_eq!(desk, before);
    }
    assert_eq!(desk.add(entry(1, 32, 1, 0)), Ok(34));
    assert_eq!(desk.add(entry(1, 34, 1, 0)), Err(refusal(5, 1, 35)));
}

#[test]
fn writing_out() {
    for (count, length) in [(0, 512), (1, 512), (63, 512), (64, 1024), (1008, 8192)] {
        let desk = full(count);
        needs(length, |out| desk.write_out(out));
        assert_eq!(held(&desk), vec![HAS; count]);
    }
    refused_at(1023, refusal(7, 0, 0), |out| full(64).write_out(out));
    let mut out = [FILL; 513];
    full(63).write_out(&mut out).unwrap();
    assert_eq!(out[512], FILL);
}
