//! The rows of the calls with a dictionary.

use std::hint::black_box;

use bench::inputs::Chance;
use bench::naming::{deep_chain, empty_chain, flat, nested_among_properties, staircase, Case};
use bench::plain;
use goltximen::{unfold, Under};
use reference::{encode, Entry};

use crate::listed::writing;
use crate::print_row;

/// How many names a description has, and how many entries each stands for: 1,008 entries unfolded.
const FLAT: [(usize, usize); 2] = [(63, 16), (16, 63)];

pub fn rows() {
    let mut chance = Chance::new(0x8a17);
    let flat = FLAT.map(|(names, entries)| {
        let input = format!("{names} names of {entries}");
        (input, flat(names, entries, &mut chance))
    });
    for (input, case) in &flat {
        print_row("unfold", "1,008", input, "64 named", unfold_times(case));
    }
    for (input, case) in &flat {
        let other: Vec<Entry> = case.description.iter().rev().copied().collect();
        let times = compare_times(case, &other);
        print_row("compare", "1,008", input, "contained", times);
    }
    for (size, situation, case) in [
        ("0", "chain of empty names", empty_chain()),
        ("1", "deep chain", deep_chain()),
    ] {
        print_row(
            "unfold",
            size,
            "1,008 names",
            situation,
            unfold_times(&case),
        );
    }
    chosen_rows();
}

/// Rows of inputs that are chosen to be slow: names that stand for each other, in descriptions full of names that stand for nothing.
fn chosen_rows() {
    for (size, input, case) in [
        ("63", "staircase", staircase(1)),
        ("1,008", "staircase, 16 times", staircase(16)),
        ("1,007", "nested among 944", nested_among_properties()),
    ] {
        print_row("unfold", size, input, "chosen", unfold_times(&case));
        print_row("normal form", size, input, "chosen", normal_times(&case));
        let times = compare_times(&case, &case.description);
        print_row("compare", size, input, "chosen", times);
    }
}

fn unfold_times(case: &Case) -> (f64, f64) {
    let (dictionary, d) = (&case.dictionary[..], &encode(&case.description)[..]);
    writing(
        16 * 512,
        |out| unfold(black_box(dictionary), black_box(d), out).expect("accepted"),
        |out| plain::unfold(black_box(dictionary), black_box(d), out).expect("accepted"),
    )
}

fn normal_times(case: &Case) -> (f64, f64) {
    let (dictionary, d) = (&case.dictionary[..], &encode(&case.description)[..]);
    let with = |dictionary| Under {
        pairs: &[],
        dictionary,
    };
    writing(
        16 * 512,
        |out| with(black_box(dictionary)).normal_form(black_box(d), out),
        |out| plain::normal_with(&[], black_box(dictionary), black_box(d), out),
    )
}

fn compare_times(case: &Case, other: &[Entry]) -> (f64, f64) {
    let dictionary = &case.dictionary[..];
    let (c, d) = (&encode(&case.description)[..], &encode(other)[..]);
    let with = |dictionary| Under {
        pairs: &[],
        dictionary,
    };
    writing(
        2 * 16 * 512,
        |out| with(black_box(dictionary)).compare(black_box(c), black_box(d), out),
        |out| plain::compare_with(&[], black_box(dictionary), black_box(c), black_box(d), out),
    )
}
