//! The drafting desk: drawn lists of calls, damaged bytes, and each counter at each of its borders.

use super::*;
use differential::agree::{bytes_of, desk_bytes, is_given, Drafting};
use goltximen::{Desk, DESK_BYTES};
use reference::notation::entries;
use reference::Call;

/// A desk with this description, four stands of one entry more each, and numbers 9, 8, 7, 6.
fn four_stands(text: &str) -> Desk {
    let mut desk = Desk::new();
    for (number, entry) in [9, 8, 7, 6]
        .into_iter()
        .zip(entries("1,1; 5,1; 3,2,2; 1,4"))
    {
        desk.add(bytes_of(entry)).unwrap();
        desk.name(number).unwrap();
    }
    while desk.take_off().is_ok() {}
    for entry in entries(text) {
        desk.add(bytes_of(entry)).unwrap();
    }
    desk
}

#[test]
fn lists_of_calls() {
    let run = made(150, Rounds::desks);
    for call in ["add", "take off", "name", "go back", "drop", "write"] {
        let call: &'static str = match call {
            "add" => "desk, add",
            "take off" => "desk, take off",
            "name" => "desk, name",
            "go back" => "desk, go back",
            "drop" => "desk, drop",
            _ => "desk, write",
        };
        assert!(run.tally.count(call, "count") > 50, "{call}");
    }
    for number in [4, 5] {
        let answer = format!("refused {number} input 1");
        assert!(run.tally.count("desk, add", &answer) > 5, "{answer}");
    }
    assert!(run.tally.count("desk, take off", "refused 17 input 1") > 5);
    for call in ["desk, name", "desk, go back", "desk, drop"] {
        assert!(run.tally.count(call, "refused 18 input 1") > 20, "{call}");
    }
    assert!(run.tally.count("desk, write", "refused 7 input 0") > 20);
}

#[test]
fn damaged_bytes() {
    let run = made(80, Rounds::damaged_desks);
    assert!(run.tally.count("desk, damaged", "refused 20 input 1") > 200);
    assert!(run.tally.count("desk, damaged", "count") > 200);
}

/// Each counter of a desk with four stands and of one with two at each value near its borders.
#[test]
fn each_counter() {
    let four = four_stands("2,7; 5,3; 5,3");
    let mut two = four.clone();
    two.drop_stand(9).unwrap();
    two.drop_stand(7).unwrap();
    for desk in [four, two, Desk::new()] {
        for counter in 0..10 {
            for value in [
                0u16, 1, 2, 3, 4, 5, 6, 7, 8, 9, 10, 255, 256, 1007, 1008, 1009, 65_535,
            ] {
                let mut bytes = desk.bytes().to_vec();
                bytes[2 * counter..2 * counter + 2].copy_from_slice(&value.to_le_bytes());
                agreed(desk_bytes(&bytes));
            }
        }
    }
}

/// Each byte of the first entries of each area, and those behind them, which are no part of the desk.
#[test]
fn each_byte_of_an_entry() {
    let desk = four_stands("2,7; 5,3; 5,3");
    for area in 0..5 {
        for at in (0..48).chain(8000..8064) {
            for value in [0u8, 1, 5, 7, 9, 255] {
                let mut bytes = desk.bytes().to_vec();
                bytes[20 + 8064 * area + at] = value;
                agreed(desk_bytes(&bytes));
            }
        }
    }
}

/// Every length near the desk's, and each shorter one by the bytes of the counters.
#[test]
fn each_length() {
    let bytes = [four_stands("1,1").bytes(), &[165; 40]].concat();
    for length in (0..60).chain(DESK_BYTES - 30..DESK_BYTES + 30) {
        assert_eq!(is_given(&bytes[..length]), length >= DESK_BYTES);
        agreed(desk_bytes(&bytes[..length]));
    }
}

/// To 1,008 entries none can be added, also none that is wrong; and depth 33 is refused where it would stand.
#[test]
fn borders_of_adding() {
    let mut desk = Drafting::with_past(&[]);
    desk.add_all(&mixed(1008)).unwrap();
    let refused = |number| Answer::Refused(number, 1);
    for entry in [entry(1, 0, 1, 0), entry(9, 0, 0, 0), entry(1, 2000, 0, 0)] {
        assert_eq!(agreed(desk.call(Call::Add(entry))), refused(16));
    }
    assert_eq!(agreed(desk.call(Call::TakeOff)), Answer::Count(1007));
    assert_eq!(agreed(desk.call(Call::Add(entry(9, 0, 0, 0)))), refused(4));
    assert_eq!(
        agreed(desk.call(Call::Add(entry(1, 0, 1, 0)))),
        Answer::Count(1008)
    );
    let mut deep = Drafting::with_past(&[7; 9]);
    for owner in 0..33 {
        let added = deep.call(Call::Add(entry(5, owner, 1, 0)));
        assert_eq!(agreed(added), Answer::Count(usize::from(owner) + 1));
    }
    assert_eq!(agreed(deep.call(Call::Add(entry(1, 33, 1, 0)))), refused(6));
    assert_eq!(agreed(deep.call(Call::Add(entry(1, 34, 1, 0)))), refused(5));
    assert_eq!(agreed(deep.call(Call::Add(entry(1, 35, 1, 0)))), refused(5));
}

/// Four stands, a fifth, one again, one dropped from each place, and back to each.
#[test]
fn stands() {
    let numbers = [65_535, 1, 300, 2];
    for dropped in numbers {
        let mut desk = Drafting::with_past(&[1]);
        for (length, number) in (1..).zip(numbers) {
            let added = desk.call(Call::Add(entry(1, 0, number, 0)));
            assert_eq!(agreed(added), Answer::Count(length));
            assert_eq!(agreed(desk.call(Call::Name(number))), Answer::Count(length));
        }
        assert_eq!(agreed(desk.call(Call::Name(3))), Answer::Refused(18, 1));
        assert_eq!(agreed(desk.call(Call::Name(0))), Answer::Refused(18, 1));
        assert_eq!(agreed(desk.call(Call::Drop(dropped))), Answer::Count(4));
        assert_eq!(
            agreed(desk.call(Call::Drop(dropped))),
            Answer::Refused(18, 1)
        );
        for number in numbers {
            let due = match number == dropped {
                true => Answer::Refused(18, 1),
                false => Answer::Count(1 + numbers.iter().position(|&n| n == number).unwrap()),
            };
            assert_eq!(agreed(desk.call(Call::GoBack(number))), due);
        }
        assert_eq!(
            agreed(desk.call(Call::Name(3))),
            Answer::Count(desk.entries())
        );
        assert_eq!(
            agreed(desk.call(Call::Name(1))).clone(),
            match dropped {
                1 => Answer::Refused(18, 1),
                _ => Answer::Count(desk.entries()),
            }
        );
    }
}
