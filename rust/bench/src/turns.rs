//! The rows of the calls on many inputs in turn: the first, the second and so on, and after the last the first again.
//!
//! In all other rows a call gets the same bytes again and again, and a processor learns by heart the jumps that depend on them. Of
//! so many inputs it can't keep all jumps.

use bench::inputs::{Chance, Model, Shape};
use reference::encode;

use crate::{
    compare_times, description_times, failing_first, failing_last, fit_times, grouped,
    normal_times, print_heading, print_row, shape_name, shaped, specimen_times, SIZES,
};

/// How many inputs take turns in each row.
const INPUTS: usize = 200;

/// What the calls get that is made of one model.
struct Input {
    description: Vec<u8>,
    looser: Vec<u8>,
    failing_first: Vec<u8>,
    failing_last: Vec<u8>,
    specimen: Vec<u8>,
}

/// The inputs of one shape and size.
struct Set {
    shape: Shape,
    size: usize,
    inputs: Vec<Input>,
}

pub fn rows() {
    println!();
    print_heading();
    let mut chance = Chance::new(0x901f);
    let sets: Vec<Set> = shaped(SIZES)
        .map(|(shape, size)| Set::new(shape, size, &mut chance))
        .collect();
    sets.iter().for_each(compare_rows);
    sets.iter().for_each(normal_row);
    sets.iter().for_each(fit_row);
    sets.iter().for_each(read_rows);
}

impl Input {
    fn new(shape: Shape, size: usize, chance: &mut Chance) -> Input {
        let model = Model::new(size, shape, chance);
        let looser = model.looser(chance);
        Input {
            description: encode(&model.description()),
            failing_first: encode(&failing_first(&looser)),
            failing_last: encode(&failing_last(model.last_place(), &looser)),
            specimen: encode(&model.specimen()),
            looser: encode(&looser),
        }
    }
}

impl Set {
    fn new(shape: Shape, size: usize, chance: &mut Chance) -> Set {
        let inputs = (0..INPUTS).map(|_| Input::new(shape, size, chance));
        Set {
            shape,
            size,
            inputs: inputs.collect(),
        }
    }

    /// What a row takes of each input.
    fn each<'a, T>(&'a self, of: impl Fn(&'a Input) -> T) -> Vec<T> {
        self.inputs.iter().map(of).collect()
    }

    fn print(&self, call: &str, situation: &str, times: (f64, f64)) {
        let (size, shape) = (grouped(self.size), shape_name(self.shape));
        print_row(call, &size, shape, situation, times);
    }
}

fn compare_rows(set: &Set) {
    let row = |situation: &str, second: fn(&Input) -> &Vec<u8>| {
        let pairs = set.each(|input| (&input.description[..], &second(input)[..]));
        let times = compare_times(&pairs, situation == "contained");
        set.print("compare", situation, times);
    };
    row("contained", |input| &input.looser);
    row("failing first", |input| &input.failing_first);
    row("failing last", |input| &input.failing_last);
}

fn normal_row(set: &Set) {
    let times = normal_times(&set.each(|input| &input.description[..]));
    set.print("normal form", "mixed", times);
}

fn fit_row(set: &Set) {
    let pairs = set.each(|input| (&input.specimen[..], &input.looser[..]));
    set.print("fit", "yes", fit_times(&pairs, true));
}

fn read_rows(set: &Set) {
    let descriptions = set.each(|input| &input.description[..]);
    let times = description_times(&descriptions, set.size);
    set.print("read description", "accepted", times);
    let specimens = set.each(|input| &input.specimen[..]);
    let times = specimen_times(&specimens, set.size);
    set.print("read specimen", "accepted", times);
}
