//! The rows of the entries that fail, where none does, half of them and all; and beside the comparison of the same pair.

use std::hint::black_box;

use bench::inputs::{Chance, Model, Shape};
use bench::plain;
use reference::encode;

use crate::{
    best, checked_times, compare_times, grouped, print_heading, print_row, shape_name, shaped, Pair,
};

const SIZES: [usize; 4] = [16, 40, 504, 1008];

/// Two descriptions, and what a row says of them.
struct Judged {
    shape: Shape,
    size: usize,
    situation: &'static str,
    c: Vec<u8>,
    d: Vec<u8>,
}

pub fn rows() {
    println!();
    print_heading();
    let mut chance = Chance::new(0xfa11);
    let mut all = Vec::new();
    for (shape, size) in shaped(SIZES) {
        all.extend(Judged::each(shape, size, &mut chance));
    }
    all.iter().for_each(Judged::rows);
    println!("\nThe second time is that of the comparison of the same pair, by the library:\n");
    print_heading();
    all.iter().for_each(Judged::beside_comparison);
}

impl Judged {
    /// A pair where none of the entries fails, one where half of them do, and one where all but 'every' do.
    fn each(shape: Shape, size: usize, chance: &mut Chance) -> [Judged; 3] {
        let model = Model::new(size, shape, chance);
        let entries = model.description();
        let (whole, looser) = (encode(&entries), encode(&model.looser(chance)));
        let half = encode(&entries[..entries.len() / 2]);
        [
            ("none", whole.clone(), looser),
            ("half", half, whole.clone()),
            ("all", encode(&[]), whole),
        ]
        .map(|(situation, c, d)| Judged {
            shape,
            size,
            situation,
            c,
            d,
        })
    }

    fn print(&self, call: &str, times: (f64, f64)) {
        let (size, shape) = (grouped(self.size), shape_name(self.shape));
        print_row(call, &size, shape, self.situation, times);
    }

    fn rows(&self) {
        let (pair, contained): (Pair, _) = ((&self.c, &self.d), self.situation == "none");
        self.print("compare", compare_times(&[pair], contained));
        self.print("failing", times(pair, contained));
    }

    fn beside_comparison(&self) {
        let (c, d) = (&self.c[..], &self.d[..]);
        let mut bytes = [0; 1008];
        let mut out = vec![0; c.len() + d.len()];
        let times = best(
            &[()],
            |()| goltximen::failing(&[], black_box(c), black_box(d), black_box(&mut bytes)),
            |()| goltximen::compare(black_box(c), black_box(d), black_box(&mut out)),
        );
        self.print("failing", times);
    }
}

fn times(pair: Pair, contained: bool) -> (f64, f64) {
    checked_times(
        &[pair],
        1008,
        |&answer| answer == Some(contained),
        |(c, d), out| goltximen::failing(&[], c, d, out).ok(),
        |(c, d), out| plain::failing(&[], c, d, out).ok(),
    )
}
