//! The rows of the drafting desk: each call on a desk with four stands, all of so many entries.

use std::hint::black_box;

use bench::drafting::{full_desk, FIRST_STAND};
use bench::inputs::{Chance, Shape};
use bench::plain::desk;
use bench::plain::Refusal;
use goltximen::Desk;

use crate::{best, grouped, print_row, shape_name};

/// The entries of the description and of each stand. To 1,008 none can be added.
const SIZES: [usize; 3] = [40, 1007, 1008];
/// "has property 9", in its bytes.
const ENTRY: [u8; 8] = [1, 0, 0, 0, 9, 0, 0, 0];

/// What a call answers on either side: how many entries are left, or the refusal's number.
type Answer = Result<usize, u8>;

/// One call, as a row names it, by the library and in plain Rust.
struct Call {
    name: &'static str,
    product: fn(&mut Desk) -> Result<u16, goltximen::Refusal>,
    plain: fn(&mut [u8]) -> Result<usize, Refusal>,
}

/// Calls after which the same call has as much to do again.
const CALLS: [Call; 4] = [
    Call {
        name: "name, again",
        product: |on| on.name(FIRST_STAND),
        plain: |on| desk::name(on, FIRST_STAND),
    },
    Call {
        name: "go back",
        product: |on| on.go_back(FIRST_STAND + 3),
        plain: |on| desk::go_back(on, FIRST_STAND + 3),
    },
    Call {
        name: "drop, and name again",
        product: |on| {
            on.drop_stand(FIRST_STAND)
                .and_then(|_| on.name(FIRST_STAND))
        },
        plain: |on| desk::drop_stand(on, FIRST_STAND).and_then(|_| desk::name(on, FIRST_STAND)),
    },
    Call {
        name: "take off, and add again",
        product: |on| on.take_off().and_then(|_| on.add(ENTRY)),
        plain: |on| desk::take_off(on).and_then(|_| desk::add(on, u64::from_le_bytes(ENTRY))),
    },
];

pub fn rows() {
    let mut chance = Chance::new(0xde5c);
    for size in SIZES {
        for shape in [Shape::Wide, Shape::Deep] {
            let mut bytes = full_desk(size, shape, &mut chance);
            desk::take_off(&mut bytes).expect("an entry to take off");
            desk::add(&mut bytes, u64::from_le_bytes(ENTRY)).expect("room for an entry");
            for call in &CALLS {
                row(call, size, shape, &bytes);
            }
            refused_row(size, shape, &bytes);
            writing_row(size, shape, &bytes);
        }
    }
}

fn of_product(answer: Result<u16, goltximen::Refusal>) -> Answer {
    answer
        .map(usize::from)
        .map_err(|refusal| refusal.reason.number())
}

fn of_plain(answer: Result<usize, Refusal>) -> Answer {
    answer.map_err(|refusal| refusal.number)
}

/// The times of a call on desks of their own, on which both sides leave the same bytes.
fn row(call: &Call, size: usize, shape: Shape, bytes: &[u8]) {
    let (mut ours, mut other) = (Desk::from_bytes(bytes), bytes.to_vec());
    assert_eq!(of_product((call.product)(&mut ours)), Ok(size));
    assert_eq!(of_plain((call.plain)(&mut other)), Ok(size));
    assert!(ours.bytes() == other);
    let times = best(
        &[()],
        |()| (call.product)(black_box(&mut ours)),
        |()| (call.plain)(black_box(&mut other[..])),
    );
    print_row("desk", &grouped(size), shape_name(shape), call.name, times);
}

/// The check of the whole desk alone: going back to a stand that is not known.
fn refused_row(size: usize, shape: Shape, bytes: &[u8]) {
    let (mut ours, mut other) = (Desk::from_bytes(bytes), bytes.to_vec());
    assert_eq!(of_product(ours.go_back(1)), Err(18));
    let times = best(
        &[()],
        |()| black_box(&mut ours).go_back(1),
        |()| desk::go_back(black_box(&mut other[..]), 1),
    );
    print_row(
        "desk",
        &grouped(size),
        shape_name(shape),
        "the check alone",
        times,
    );
}

fn writing_row(size: usize, shape: Shape, bytes: &[u8]) {
    let ours = Desk::from_bytes(bytes);
    let mut outs = [vec![0; 512 * 16], vec![0; 512 * 16]];
    let [out, other] = &mut outs;
    assert_eq!(of_product(ours.write_out(out)), Ok(size));
    assert_eq!(of_plain(desk::write_out(bytes, other)), Ok(size));
    assert!(out == other);
    let times = best(
        &[()],
        |()| black_box(&ours).write_out(black_box(&mut out[..])),
        |()| desk::write_out(black_box(bytes), black_box(&mut other[..])),
    );
    print_row(
        "desk",
        &grouped(size),
        shape_name(shape),
        "write out",
        times,
    );
}
