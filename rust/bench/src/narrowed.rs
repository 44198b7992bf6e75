//! The rows of the narrowest description of two: one and what asks less in another order, one and another one; under lists of pairs, one and
//! what asks less of all of its names, and of half of them; on one pair of descriptions, and on several in turn. And beside the normal forms of
//! both.

use std::hint::black_box;

use bench::excluding::{half_renamed, Case};
use bench::inputs::{Chance, Model, Shape};
use bench::plain;
use goltximen::Under;
use reference::encode;

use crate::{best, checked_times, grouped, print_heading, print_row, shape_name, SHAPES};

/// The entries of each side, and how many pairs of descriptions take turns.
const SIZES: [(usize, usize); 4] = [(16, 128), (63, 64), (250, 16), (504, 8)];
/// The pairs of the lists.
const LISTS: [usize; 3] = [0, 8, 64];

type Pair = (Vec<u8>, Vec<u8>);

/// Two descriptions under a list of pairs, and what a row says of them.
struct Listed {
    entries: usize,
    shape: Shape,
    situation: String,
    list: Vec<u8>,
    pair: Pair,
}

pub fn rows() {
    println!();
    print_heading();
    let mut chance = Chance::new(0x9a44);
    for (entries, in_turn) in SIZES {
        for shape in SHAPES {
            let like: Vec<Pair> = (0..in_turn)
                .map(|_| looser(entries, shape, &mut chance))
                .collect();
            print(entries, shape, "with a looser one", &like[..1]);
            print(entries, shape, "with a looser one, in turn", &like);
            let other = apart(entries, shape, &mut chance);
            print(entries, shape, "with another", &[other]);
        }
    }
    let mut chance = Chance::new(0x9a45);
    let mut all = Vec::new();
    for (entries, _) in SIZES {
        for shape in SHAPES {
            for pairs in LISTS {
                all.extend(Listed::both(entries, shape, pairs, &mut chance));
            }
        }
    }
    all.iter().for_each(Listed::row);
    println!("\nThe second time is that of the normal forms of both, by the library:\n");
    print_heading();
    all.iter().for_each(Listed::beside_normal_forms);
}

/// A description and one that asks less.
fn looser(entries: usize, shape: Shape, chance: &mut Chance) -> Pair {
    let model = Model::new(entries, shape, chance);
    (encode(&model.description()), encode(&model.looser(chance)))
}

/// Two that are drawn by themselves, and have little in common.
fn apart(entries: usize, shape: Shape, chance: &mut Chance) -> Pair {
    let mut one = || encode(&Model::new(entries, shape, chance).description());
    (one(), one())
}

fn print(entries: usize, shape: Shape, situation: &str, pairs: &[Pair]) {
    let times = narrowest_times(&[], pairs);
    print_row(
        "narrowest",
        &grouped(entries),
        shape_name(shape),
        situation,
        times,
    );
}

fn narrowest_times(list: &[u8], pairs: &[Pair]) -> (f64, f64) {
    let lengths = pairs.iter().map(|(a, b)| a.len() + b.len());
    checked_times(
        pairs,
        lengths.max().unwrap_or(0),
        Option::is_some,
        |(a, b), out| {
            let answer = under(black_box(list)).narrowest(black_box(a), black_box(b), out);
            answer.ok().map(usize::from)
        },
        |(a, b), out| plain::narrowest(black_box(list), black_box(a), black_box(b), out).ok(),
    )
}

fn under(pairs: &[u8]) -> Under<'_> {
    Under {
        pairs,
        dictionary: &[],
    }
}

impl Listed {
    /// The first description beside one that asks less of the same names, and of half of them.
    fn both(entries: usize, shape: Shape, pairs: usize, chance: &mut Chance) -> [Listed; 2] {
        let case = Case::new(entries, shape, pairs, chance);
        let of = |names: &str, b| Listed {
            entries,
            shape,
            situation: format!("{names}, {pairs} pairs"),
            list: case.pairs.clone(),
            pair: (encode(&case.c), b),
        };
        [
            of("same names", encode(&case.d)),
            of("half of them", encode(&half_renamed(&case.d))),
        ]
    }

    fn print(&self, times: (f64, f64)) {
        print_row(
            "narrowest",
            &grouped(self.entries),
            shape_name(self.shape),
            &self.situation,
            times,
        );
    }

    fn row(&self) {
        self.print(narrowest_times(
            &self.list,
            std::slice::from_ref(&self.pair),
        ));
    }

    fn beside_normal_forms(&self) {
        let (a, b) = &self.pair;
        let mut out = vec![0; a.len() + b.len()];
        let (mut first, mut second) = (vec![0; a.len()], vec![0; b.len()]);
        let times = best(
            &[()],
            |()| {
                let list = under(black_box(&self.list));
                list.narrowest(black_box(a), black_box(b), black_box(&mut out))
            },
            |()| {
                let list = under(black_box(&self.list));
                let one = list.normal_form(black_box(a), black_box(&mut first));
                (one, list.normal_form(black_box(b), black_box(&mut second)))
            },
        );
        self.print(times);
    }
}
