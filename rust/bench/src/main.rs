//! Times the proved library beside the plain Rust, on the same bytes in the same run, and prints a table.

#![forbid(unsafe_code)]

mod classes;
mod delivered;
mod desks;
mod earned;
mod failings;
mod lacking;
mod listed;
mod named;
mod narrowed;
mod ranked;
mod services;
mod sheets;
mod stores;
mod turns;

use std::fmt::Debug;
use std::hint::black_box;
use std::path::Path;
use std::time::Instant;

use bench::inputs::{
    entry, every_of_owning, one_bucket, one_cell, one_every_of_owning, one_link_at_least,
    one_link_every, one_link_place, single_links, with_first, with_last, worst_fit, Chance, Model,
    Shape,
};
use bench::plain;
use reference::{encode, Entry};

const SIZES: [usize; 4] = [16, 63, 250, 1008];
const SHAPES: [Shape; 2] = [Shape::Wide, Shape::Deep];
/// The turns of each side, and the repetitions in a turn, of which the best is taken. One more before them warms up.
const TURNS: usize = 6;
const ROUNDS: usize = 50;
/// A repetition makes as many calls as take at least this long.
const ROUND_NANOSECONDS: u128 = 20_000;
/// Where there are many inputs, a repetition is one pass through them all. A turn then has as many repetitions as take at least
/// this long, and at least so many.
const TURN_NANOSECONDS: u128 = 1_000_000;
const LEAST_ROUNDS: usize = 3;
/// A property that no model has.
const STRANGE: u16 = 65_500;
/// A specimen whose groups are by a link that leads to one item only.
const SINGLE_LINK: &str = "link to one item";

/// A model, and what a row says of it.
struct Timed {
    size: usize,
    input: String,
    model: Model,
    /// Whether its normal form has as many entries, so that there are rows in that order too.
    sorted_too: bool,
}

/// How the calls of a turn are laid out.
#[derive(Clone, Copy)]
struct Plan {
    /// The passes through the inputs that make a repetition.
    passes: usize,
    /// The repetitions.
    rounds: usize,
}

/// The two inputs of a call.
type Pair<'a> = (&'a [u8], &'a [u8]);

fn main() {
    if let [_, word, folder] = &std::env::args().collect::<Vec<String>>()[..] {
        if word == "ontologies" {
            return classes::write(Path::new(folder)).expect("a folder to write to");
        }
    }
    print_heading();
    // With a word, the rows of one call alone.
    match std::env::args().nth(1).as_deref() {
        Some("hierarchy") => return ranked::rows(),
        Some("worst-list") => return ranked::chosen_rows(),
        Some("delivered") => return delivered::rows(),
        Some("names") => return named::rows(),
        Some("links") => return one_link_rows(),
        Some("sheets") => return sheets::rows(),
        Some("stored") => return stores::rows(),
        Some("desk") => return desks::rows(),
        Some("earning") => return earned::rows(),
        Some("tellers") => return earned::teller_rows(),
        Some("failing") => return failings::rows(),
        Some("missing") => return lacking::rows(),
        Some("narrowest") => return narrowed::rows(),
        _ => {}
    }
    model_rows();
    listed::rows();
    named::rows();
    services::rows();
    ranked::rows();
    desks::rows();
    stores::rows();
    sheets::rows();
    failings::rows();
    delivered::rows();
    earned::rows();
    earned::teller_rows();
    lacking::rows();
    narrowed::rows();
    turns::rows();
}

/// The rows of single calls with no list and no dictionary.
fn model_rows() {
    let mut chance = Chance::new(0x901d);
    let models = models(&mut chance);
    // Drawn apart, so that the inputs of the other rows stay.
    let mut apart = Chance::new(0x901e);
    let single_models = single_models(&mut apart);
    for timed in &models {
        compare_rows(timed, &mut chance);
    }
    for timed in &single_models {
        compare_rows(timed, &mut apart);
    }
    for timed in models.iter().chain(&single_models) {
        normal_rows(timed);
    }
    for timed in &models {
        fit_rows(timed, &mut chance);
    }
    one_link_rows();
    let (specimen, description) = single_links();
    let times = fit_times(&[(&specimen, &description)], true);
    print_row("fit", "2,016 and 65", SINGLE_LINK, "yes", times);
    for timed in &models {
        read_rows(timed);
    }
    let row = |input, situation, specimen: &[u8]| {
        let times = specimen_times(&[specimen], 2016);
        print_row("read specimen", "2,016", input, situation, times);
    };
    row(SINGLE_LINK, "accepted", &specimen);
    row("links to one item", "one cell", &one_cell());
}

fn models(chance: &mut Chance) -> Vec<Timed> {
    let models = shaped(SIZES).map(|(shape, size)| Timed {
        size,
        input: shape_name(shape).to_string(),
        model: Model::new(size, shape, chance),
        sorted_too: true,
    });
    models.collect()
}

/// Models all of whose links lead to one item only.
fn single_models(chance: &mut Chance) -> [Timed; 2] {
    SHAPES.map(|shape| Timed {
        size: 1008,
        input: format!("{}, links to one item", shape_name(shape)),
        model: Model::single(1008, shape, chance),
        sorted_too: false,
    })
}

/// Each shape with each of these sizes.
fn shaped<const N: usize>(sizes: [usize; N]) -> impl Iterator<Item = (Shape, usize)> {
    let shapes = SHAPES.into_iter();
    shapes.flat_map(move |shape| sizes.map(|size| (shape, size)))
}

/// The times of two calls on the inputs in turn, with an output of this length. It first checks that on each input both give the
/// same right answer and write the same bytes.
fn checked_times<I, A: PartialEq + Debug>(
    inputs: &[I],
    length: usize,
    right: impl Fn(&A) -> bool,
    mut product: impl FnMut(&I, &mut [u8]) -> A,
    mut plain: impl FnMut(&I, &mut [u8]) -> A,
) -> (f64, f64) {
    let mut outs = [vec![0; length], vec![0; length]];
    let [ours, other] = &mut outs;
    for input in inputs {
        // What the input before left there could hide a byte that one side doesn't write.
        ours.fill(0);
        other.fill(0);
        let answer = product(input, ours);
        assert!(right(&answer));
        assert_eq!(plain(input, other), answer);
        assert!(ours == other);
    }
    best(
        inputs,
        |input| product(input, black_box(&mut ours[..])),
        |input| plain(input, black_box(&mut other[..])),
    )
}

/// The best times of two calls in nanoseconds, on the inputs in turn; the two sides take turns, too.
fn best<I, A, B>(
    inputs: &[I],
    mut product: impl FnMut(&I) -> A,
    mut plain: impl FnMut(&I) -> B,
) -> (f64, f64) {
    let plans = (plan(inputs, &mut product), plan(inputs, &mut plain));
    let mut best = (f64::MAX, f64::MAX);
    for _ in 0..TURNS {
        best.0 = best.0.min(turn(inputs, &mut product, plans.0));
        best.1 = best.1.min(turn(inputs, &mut plain, plans.1));
    }
    best
}

/// One input is called again and again; many are gone through once in each repetition.
fn plan<I, A>(inputs: &[I], call: &mut impl FnMut(&I) -> A) -> Plan {
    match inputs {
        [_] => Plan {
            passes: passes_for(inputs, call, ROUND_NANOSECONDS),
            rounds: ROUNDS,
        },
        _ => Plan {
            passes: 1,
            rounds: passes_for(inputs, call, TURN_NANOSECONDS).max(LEAST_ROUNDS),
        },
    }
}

fn turn<I, A>(inputs: &[I], call: &mut impl FnMut(&I) -> A, plan: Plan) -> f64 {
    round(inputs, call, plan.passes);
    let rounds = (0..plan.rounds).map(|_| round(inputs, call, plan.passes));
    rounds.fold(f64::MAX, f64::min)
}

/// The time of one call, as the mean of this many passes through the inputs.
fn round<I, A>(inputs: &[I], call: &mut impl FnMut(&I) -> A, passes: usize) -> f64 {
    let each = (0..passes).flat_map(|_| inputs);
    let start = Instant::now();
    each.for_each(|input| {
        black_box(call(black_box(input)));
    });
    start.elapsed().as_nanos() as f64 / (passes * inputs.len()) as f64
}

/// Warms up, and answers how many passes through the inputs take this long.
fn passes_for<I, A>(inputs: &[I], call: &mut impl FnMut(&I) -> A, nanoseconds: u128) -> usize {
    let mut passes = 1;
    loop {
        let start = Instant::now();
        round(inputs, call, passes);
        if start.elapsed().as_nanos() >= nanoseconds {
            return passes;
        }
        passes *= 2;
    }
}

fn print_heading() {
    println!(
        "| Call | Entries | Input | Situation | Product, µs | Plain Rust, µs | Product / plain |"
    );
    println!("|---|---:|---|---|---:|---:|---:|");
}

fn print_row(call: &str, size: &str, input: &str, situation: &str, times: (f64, f64)) {
    let (product, plain) = (times.0 / 1000.0, times.1 / 1000.0);
    let ratio = product / plain;
    println!(
        "| {call} | {size} | {input} | {situation} | {product:.2} | {plain:.2} | {ratio:.2} |"
    );
}

impl Timed {
    fn leaves_out(&self, situation: &str) -> bool {
        situation.ends_with("sorted") && !self.sorted_too
    }

    fn print(&self, call: &str, situation: &str, times: (f64, f64)) {
        print_row(call, &grouped(self.size), &self.input, situation, times);
    }
}

/// A number with a comma before its last three digits.
fn grouped(number: usize) -> String {
    match number {
        0..1000 => number.to_string(),
        _ => format!("{},{:03}", number / 1000, number % 1000),
    }
}

fn shape_name(shape: Shape) -> &'static str {
    match shape {
        Shape::Wide => "wide",
        Shape::Deep => "deep",
    }
}

/// Entries in the order of the normal form.
fn sorted(entries: &[Entry]) -> Vec<u8> {
    let bytes = encode(entries);
    let mut out = vec![0; bytes.len()];
    let entries = plain::normal_form(&bytes, &mut out).expect("an accepted description");
    out.truncate(512 * entries.div_ceil(63).max(1));
    out
}

/// The entries, of which the first asks for a property that no model has.
fn failing_first(entries: &[Entry]) -> Vec<Entry> {
    with_first(entry(1, 0, STRANGE, 0), entries)
}

/// The entries, of which the last asks this owner for a property that no model has.
fn failing_last(owner: usize, entries: &[Entry]) -> Vec<Entry> {
    with_last(entry(1, owner, STRANGE, 0), entries)
}

fn compare_rows(timed: &Timed, chance: &mut Chance) {
    let model = &timed.model;
    let (c, looser) = (model.description(), model.looser(chance));
    let last = failing_last(model.last_place(), &looser);
    let cases = [
        ("contained", encode(&c), encode(&looser)),
        ("contained, sorted", sorted(&c), sorted(&looser)),
        ("failing first", encode(&c), encode(&failing_first(&looser))),
        ("failing last", encode(&c), encode(&last)),
        ("failing last, sorted", sorted(&c), encode(&last)),
    ];
    for (situation, c, d) in cases {
        if timed.leaves_out(situation) {
            continue;
        }
        let times = compare_times(&[(&c, &d)], situation.starts_with("contained"));
        timed.print("compare", situation, times);
    }
}

fn compare_times(pairs: &[Pair], contained: bool) -> (f64, f64) {
    let lengths = pairs.iter().map(|(c, d)| c.len() + d.len());
    checked_times(
        pairs,
        lengths.max().unwrap_or(0),
        |&answer| answer == Some(contained),
        |(c, d), out| {
            let answer = goltximen::compare(c, d, out).ok();
            answer.map(|answer| answer == goltximen::Comparison::Contained)
        },
        |(c, d), out| {
            let answer = plain::compare(c, d, out).ok();
            answer.map(|answer| answer == plain::Comparison::Contained)
        },
    )
}

fn normal_rows(timed: &Timed) {
    let d = timed.model.description();
    for (situation, d) in [("mixed", encode(&d)), ("sorted", sorted(&d))] {
        if timed.leaves_out(situation) {
            continue;
        }
        timed.print("normal form", situation, normal_times(&[&d]));
    }
}

fn normal_times(descriptions: &[&[u8]]) -> (f64, f64) {
    let lengths = descriptions.iter().map(|d| d.len());
    checked_times(
        descriptions,
        lengths.max().unwrap_or(0),
        Option::is_some,
        |d, out| goltximen::normal_form(d, out).ok().map(usize::from),
        |d, out| plain::normal_form(d, out).ok(),
    )
}

fn fit_rows(timed: &Timed, chance: &mut Chance) {
    let model = &timed.model;
    let specimen = encode(&model.specimen());
    let looser = model.looser(chance);
    let last = failing_last(model.last_place(), &looser);
    let cases = [
        ("yes", encode(&looser)),
        ("yes, sorted", sorted(&looser)),
        ("no, entry first", encode(&failing_first(&looser))),
        ("no, entry last", encode(&last)),
    ];
    for (situation, description) in cases {
        let times = fit_times(&[(&specimen, &description)], situation.starts_with("yes"));
        timed.print("fit", situation, times);
    }
}

/// Specimens, each beside a description.
fn fit_times(pairs: &[Pair], fits: bool) -> (f64, f64) {
    checked_times(
        pairs,
        0,
        |&answer| answer == Some(fits),
        |(s, d), _| {
            let answer = goltximen::fit(s, d).ok();
            answer.map(|answer| answer == goltximen::Fit::Yes)
        },
        |(s, d), _| plain::fit(s, d).ok(),
    )
}

fn one_link_rows() {
    let rows = [
        ("2,016 and 1,008", "at least", one_link_at_least()),
        ("2,000 and 1,008", "every", one_link_every()),
        ("2,016 and 1,008", "one every", one_link_place()),
        ("2,016 and 1,008", "worst case", worst_fit()),
    ];
    for (sizes, situation, (specimen, description)) in rows {
        let times = fit_times(&[(&specimen, &description)], true);
        print_row("fit", sizes, "one link", situation, times);
    }
    for (input, (specimen, description)) in [
        ("one bucket", one_bucket()),
        ("one every of owning", one_every_of_owning()),
        ("every of owning", every_of_owning()),
    ] {
        let times = fit_times(&[(&specimen, &description)], true);
        print_row("fit", "2,016 and 1,008", input, "chosen", times);
    }
}

fn read_rows(timed: &Timed) {
    let description = encode(&timed.model.description());
    let times = description_times(&[&description], timed.size);
    timed.print("read description", "accepted", times);
    let specimen = encode(&timed.model.specimen());
    let times = specimen_times(&[&specimen], timed.size);
    timed.print("read specimen", "accepted", times);
}

fn description_times(descriptions: &[&[u8]], entries: usize) -> (f64, f64) {
    read_times(
        descriptions,
        entries,
        |d| goltximen::read_description(d).ok().map(usize::from),
        |d| plain::read_description(d).ok(),
    )
}

fn specimen_times(specimens: &[&[u8]], entries: usize) -> (f64, f64) {
    read_times(
        specimens,
        entries,
        |s| goltximen::read_specimen(s).ok().map(usize::from),
        |s| plain::read_specimen(s).ok(),
    )
}

/// Both sides read each input, and find this many entries.
fn read_times(
    inputs: &[&[u8]],
    entries: usize,
    product: impl Fn(&[u8]) -> Option<usize>,
    plain: impl Fn(&[u8]) -> Option<usize>,
) -> (f64, f64) {
    checked_times(
        inputs,
        0,
        |&read| read == Some(entries),
        |bytes, _| product(bytes),
        |bytes, _| plain(bytes),
    )
}
