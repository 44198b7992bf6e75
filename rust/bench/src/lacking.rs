//! The rows of what a description lacks.

use bench::inputs::{entry, Chance, Model, Shape};
use bench::plain;
use reference::{encode, Entry};

use super::{checked_times, print_row, shape_name, Pair, SHAPES};

/// Each has half of the entries of both together.
const SIZES: [usize; 2] = [40, 504];

pub fn rows() {
    let mut chance = Chance::new(0x901f);
    for shape in SHAPES {
        for size in SIZES {
            model_rows(shape, size, &mut chance);
        }
    }
    all_needed();
}

/// A model's description as the service, for a supplier who says all of it, all but each other entry, and nothing.
fn model_rows(shape: Shape, size: usize, chance: &mut Chance) {
    let d = Model::new(size, shape, chance).description();
    let half: Vec<Entry> = (0..)
        .zip(&d)
        .map(|(at, e)| match at % 2 == 0 && e.kind != 5 {
            true => entry(3, e.owner.into(), 1, 0),
            false => *e,
        })
        .collect();
    let cases = [
        ("none", d.clone()),
        ("half", half),
        ("all", vec![entry(3, 0, 1, 0); size]),
    ];
    for (situation, c) in cases {
        let (c, d) = (encode(&c), encode(&d));
        row(
            &format!("{size} and {size}"),
            shape_name(shape),
            situation,
            &[(&c, &d)],
        );
    }
}

/// As many properties as there is room for, none of which the supplier says.
fn all_needed() {
    let named = |from: u16| {
        let all = (from..from + 504).map(|name| entry(1, 0, name, 0));
        encode(&all.collect::<Vec<_>>())
    };
    let (c, d) = (named(1), named(505));
    row("504 and 504", "properties", "all needed", &[(&c, &d)]);
}

fn row(size: &str, input: &str, situation: &str, pairs: &[Pair]) {
    let times = checked_times(
        pairs,
        1008,
        Option::is_some,
        |(c, d), out| {
            goltximen::missing(&[], c, d, out)
                .ok()
                .map(|lack| lack as u8)
        },
        |(c, d), out| plain::missing(&[], c, d, out).ok().map(|lack| lack as u8),
    );
    print_row("missing", size, input, situation, times);
}
