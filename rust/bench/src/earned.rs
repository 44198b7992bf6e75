//! The rows of the entries that earn a yes: where all is needed of what the service asks, half of it, or none; on one
//! pair, and on several in turn. And the same by first tellers, in plain Rust alone, beside the trials of plain Rust.

use std::hint::black_box;

use bench::earning::{alternate, asked, Needed};
use bench::inputs::{Chance, Shape};
use bench::plain;
use reference::{encode, Entry};

use crate::{checked_times, grouped, print_heading, print_row, shape_name, SHAPES};

/// The entries of both, and how many pairs take turns.
const SIZES: [((usize, usize), usize); 3] = [((40, 40), 64), ((1008, 40), 8), ((1008, 1008), 4)];

type Pair = (Vec<u8>, Vec<u8>);

pub fn rows() {
    println!();
    print_heading();
    let mut chance = Chance::new(0xea51);
    for (sizes, in_turn) in SIZES {
        for shape in SHAPES {
            for needed in Needed::ALL {
                row(sizes, in_turn, shape, needed, &mut chance);
            }
        }
    }
    let chosen = encoded(alternate(1008, &mut chance));
    print((1008, 1008), Shape::Wide, "chosen", &[chosen]);
}

fn row(sizes: (usize, usize), in_turn: usize, shape: Shape, needed: Needed, chance: &mut Chance) {
    let pairs: Vec<Pair> = (0..in_turn)
        .map(|_| encoded(asked(sizes, shape, needed, chance)))
        .collect();
    print(sizes, shape, needed.name(), &pairs[..1]);
    let situation = format!("{}, in turn", needed.name());
    print(sizes, shape, &situation, &pairs);
}

fn encoded((c, d): (Vec<Entry>, Vec<Entry>)) -> Pair {
    (encode(&c), encode(&d))
}

fn print((entries, asked): (usize, usize), shape: Shape, situation: &str, pairs: &[Pair]) {
    let size = format!("{} and {}", grouped(entries), grouped(asked));
    let times = earning_times(pairs, entries);
    print_row("earning", &size, shape_name(shape), situation, times);
}

fn earning_times(pairs: &[Pair], entries: usize) -> (f64, f64) {
    checked_times(
        pairs,
        entries,
        |&answer| answer == Some(true),
        |(c, d), out| goltximen::earning(&[], black_box(c), black_box(d), out).ok(),
        |(c, d), out| plain::earning(&[], black_box(c), black_box(d), out).ok(),
    )
}

/// The rows of the two ways of plain Rust.
pub fn teller_rows() {
    println!();
    println!(
        "| Entries | Input | Situation | First tellers, µs | Trials, µs | Trials / first tellers |"
    );
    println!("|---:|---|---|---:|---:|---:|");
    let mut chance = Chance::new(0x7e11);
    for (sizes, _) in SIZES {
        for shape in SHAPES {
            for needed in Needed::ALL {
                let pair = encoded(asked(sizes, shape, needed, &mut chance));
                print_ways(sizes, shape, needed.name(), &pair);
            }
        }
    }
    let chosen = encoded(alternate(1008, &mut chance));
    print_ways((1008, 1008), Shape::Wide, "chosen", &chosen);
}

fn print_ways((entries, asked): (usize, usize), shape: Shape, situation: &str, pair: &Pair) {
    let size = format!("{} and {}", grouped(entries), grouped(asked));
    let (tellers, trials) = checked_times(
        std::slice::from_ref(pair),
        entries,
        |&answer| answer == Some(true),
        |(c, d), out| plain::first_tellers(&[], black_box(c), black_box(d), out).ok()?,
        |(c, d), out| plain::earning(&[], black_box(c), black_box(d), out).ok(),
    );
    let (input, ratio) = (shape_name(shape), trials / tellers);
    let (tellers, trials) = (tellers / 1000.0, trials / 1000.0);
    println!("| {size} | {input} | {situation} | {tellers:.2} | {trials:.2} | {ratio:.1} |");
}
