//! The drafting desk.

use super::*;
use goltximen::{Desk, DESK_BYTES};

fn row(kind: u8, owner: u8, name: u8) -> [u8; 8] {
    [kind, 0, owner, 0, name, 0, 0, 0]
}

/// A stand is a copy: what is done to the description later does not reach it.
#[test]
fn a_stand_is_kept() {
    let mut desk = Desk::new();
    assert_eq!(desk.add(row(5, 0, 1)), Ok(1));
    assert_eq!(desk.add(row(1, 1, 7)), Ok(2));
    assert_eq!(desk.name(3), Ok(2));
    assert_eq!(desk.take_off(), Ok(1));
    assert_eq!(desk.add(row(2, 1, 8)), Ok(2));
    let mut out = [FILL; 513];
    assert_eq!(desk.write_out(&mut out), Ok(2));
    assert_eq!(out[..512], blocks(&[[5, 0, 1, 0], [2, 1, 8, 0]]));
    assert_eq!(desk.go_back(3), Ok(2));
    assert_eq!(desk.write_out(&mut out), Ok(2));
    assert_eq!(out[..512], blocks(&[[5, 0, 1, 0], [1, 1, 7, 0]]));
    assert_eq!(out[512], FILL);
    assert_eq!(
        desk.write_out(&mut out[..511]),
        refusal(Reason::Output, 0, 0)
    );
}

#[test]
fn refusals_of_a_desk() {
    let mut desk = Desk::default();
    assert_eq!(desk.take_off(), refusal(Reason::DeskEmpty, 1, 0));
    assert_eq!(desk.go_back(1), refusal(Reason::Stand, 1, 0));
    assert_eq!(desk.drop_stand(0), refusal(Reason::Stand, 1, 0));
    assert_eq!(desk.name(0), refusal(Reason::Stand, 1, 0));
    for number in 1..=4 {
        assert_eq!(desk.name(number), Ok(0));
    }
    assert_eq!(desk.name(5), refusal(Reason::Stand, 1, 0));
    assert_eq!(desk.name(4), Ok(0));
    assert_eq!(desk.add(row(9, 0, 1)), refusal(Reason::Form, 1, 1));
    assert_eq!(desk.add(row(1, 1, 1)), refusal(Reason::Owner, 1, 1));
    let before = desk.clone();
    for _ in 0..1008 {
        desk.add(row(1, 0, 7)).unwrap();
    }
    assert_eq!(desk.add(row(0, 0, 0)), refusal(Reason::DeskFull, 1, 0));
    assert_eq!(desk.go_back(4), Ok(0));
    // What was added stands there still, and is no part of the desk.
    assert_eq!(desk.bytes()[..20], before.bytes()[..20]);
    assert_eq!(desk.take_off(), refusal(Reason::DeskEmpty, 1, 0));
}

#[test]
fn damaged_desks() {
    let twenty = refusal(Reason::Desk, 1, 0);
    let mut desk = Desk::new();
    desk.add(row(1, 0, 7)).unwrap();
    assert_eq!(desk.bytes().len(), DESK_BYTES);
    let short = Desk::from_bytes(&desk.bytes()[..DESK_BYTES - 1]);
    assert_eq!(short.write_out(&mut [0; 512]), twenty);
    let mut bytes = desk.bytes().to_vec();
    bytes[20] = 8;
    let mut damaged = Desk::from_bytes(&bytes);
    assert_eq!(damaged.take_off(), twenty);
    assert_eq!(damaged.bytes(), bytes);
    // A byte behind the entries is no part of the desk.
    bytes[20] = 1;
    bytes[28] = 8;
    assert_eq!(Desk::from_bytes(&bytes).take_off(), Ok(0));
}

#[test]
fn a_small_stack_has_room_for_a_desk() {
    on_a_small_stack(|| {
        let mut desk = Desk::new();
        for _ in 0..1008 {
            desk.add(row(1, 0, 7)).unwrap();
        }
        assert_eq!(desk.name(1), Ok(1008));
        assert_eq!(desk.write_out(&mut [0; 8192]), Ok(1008));
    });
}
