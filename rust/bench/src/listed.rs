//! The rows of the calls under a list of properties that exclude each other.

use std::hint::black_box;

use bench::catalogue::MOST_SERVICES;
use bench::excluding::{
    again, asked_again, given_again, one_bucket, star, star_places, Case, BESIDE, FAR_BESIDE,
};
use bench::inputs::Chance;
use bench::plain;
use goltximen::Under;
use reference::{encode, Entry};

use crate::{checked_times, failing_last, grouped, print_row, shape_name, shaped};

/// The sizes of the descriptions, and how many pairs the lists have.
const SIZES: [usize; 2] = [250, 1008];
const PAIRS: [usize; 3] = [0, 8, 64];
/// The sizes of the worst list's descriptions.
const STAR: &str = "504 places";

pub fn rows() {
    let mut chance = Chance::new(0x7a17);
    for (shape, size) in shaped(SIZES) {
        for pairs in PAIRS {
            let case = Case::new(size, shape, pairs, &mut chance);
            let input = format!("{}, {pairs} pairs", shape_name(shape));
            case_rows(&case, &grouped(size), &input);
        }
    }
    star_rows();
    chosen_rows("one pair, 64 times", &again(), BESIDE);
    chosen_rows("pairs in one bucket", &one_bucket(), FAR_BESIDE);
}

fn case_rows(case: &Case, size: &str, input: &str) {
    let Case {
        pairs,
        c,
        d,
        specimen,
    } = case;
    let owner = c.last().map_or(0, |last| last.owner);
    let failing = failing_last(owner.into(), d);
    let row = |call, situation, times| print_row(call, size, input, situation, times);
    row("compare", "contained", compare_times(pairs, c, d));
    row("compare", "failing last", compare_times(pairs, c, &failing));
    row("normal form", "mixed", normal_times(pairs, c));
    row("fit", "yes", fit_times(pairs, specimen, d));
}

fn star_rows() {
    let (pairs, (have, lack)) = (star(), star_places());
    let row = |call, situation, times| print_row(call, "1,008", STAR, situation, times);
    row("compare", "worst list", compare_times(&pairs, &have, &lack));
    row("normal form", "worst list", normal_times(&pairs, &lack));
}

/// A list whose hub costs the most, and its lack asked for 1,008 times, and given 2,016 times.
fn chosen_rows(input: &str, pairs: &[u8], beside: u16) {
    let (have, lack) = asked_again(beside);
    let row = |call, size, times| print_row(call, size, input, "chosen", times);
    row("compare", "1,008", compare_times(pairs, &have, &lack));
    row("normal form", "1,008", normal_times(pairs, &have));
    row(
        "fit",
        "2,016 and 1,008",
        fit_times(pairs, &given_again(), &lack),
    );
    row(
        "catalogue",
        "64 × 1,008",
        catalogue_times(pairs, &have, &lack),
    );
}

/// 64 services that all ask for the same.
fn catalogue_times(pairs: &[u8], c: &[Entry], d: &[Entry]) -> (f64, f64) {
    let (c, list) = (&encode(c)[..], &encode(d).repeat(MOST_SERVICES)[..]);
    writing(
        MOST_SERVICES,
        |out| under(black_box(pairs)).catalogue(black_box(c), black_box(list), out),
        |out| plain::catalogue(black_box(pairs), &[], black_box(c), black_box(list), out),
    )
}

fn under(pairs: &[u8]) -> Under<'_> {
    Under {
        pairs,
        dictionary: &[],
    }
}

/// The times of two calls with an output of this length, which write the same.
pub fn writing<A, B>(
    length: usize,
    mut product: impl FnMut(&mut [u8]) -> A,
    mut plain: impl FnMut(&mut [u8]) -> B,
) -> (f64, f64) {
    checked_times(
        &[()],
        length,
        |_| true,
        |_, out| {
            black_box(product(out));
        },
        |_, out| {
            black_box(plain(out));
        },
    )
}

fn compare_times(pairs: &[u8], c: &[Entry], d: &[Entry]) -> (f64, f64) {
    let (c, d) = (&encode(c)[..], &encode(d)[..]);
    writing(
        c.len() + d.len(),
        |out| under(black_box(pairs)).compare(black_box(c), black_box(d), out),
        |out| plain::compare_with(black_box(pairs), &[], black_box(c), black_box(d), out),
    )
}

fn normal_times(pairs: &[u8], d: &[Entry]) -> (f64, f64) {
    let d = &encode(d)[..];
    writing(
        d.len(),
        |out| under(black_box(pairs)).normal_form(black_box(d), out),
        |out| plain::normal_with(black_box(pairs), &[], black_box(d), out),
    )
}

fn fit_times(pairs: &[u8], s: &[Entry], d: &[Entry]) -> (f64, f64) {
    let (s, d) = (&encode(s)[..], &encode(d)[..]);
    writing(
        0,
        |_| under(black_box(pairs)).fit(black_box(s), black_box(d)),
        |_| plain::fit_with(black_box(pairs), &[], black_box(s), black_box(d)),
    )
}
