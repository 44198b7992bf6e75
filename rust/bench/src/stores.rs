//! The rows of the shorter stored form, both ways.

use std::hint::black_box;

use bench::inputs::{entry, Chance, Model, Shape};
use bench::plain;
use goltximen::{from_stored, stored_bytes, to_stored};
use reference::{encode, Entry};

use crate::{checked_times, grouped, print_row, shape_name, SHAPES};

const SIZES: [usize; 4] = [16, 40, 250, 1008];
/// How many inputs are gone through in turn.
const IN_TURN: usize = 64;

pub fn rows() {
    let mut chance = Chance::new(0x570d);
    for shape in SHAPES {
        for size in SIZES {
            let models: Vec<Vec<Entry>> = (0..IN_TURN)
                .map(|_| mixed(size, shape, &mut chance))
                .collect();
            row(size, shape_name(shape), "one", &models[..1]);
            row(size, shape_name(shape), "in turn", &models);
        }
    }
    // A chain of 33 'every', and of 1,008 none that owns nothing.
    let chain: Vec<Entry> = (0..33).map(|n| entry(5, n, 1 + n as u16, 0)).collect();
    row(33, "a chain", "one", std::slice::from_ref(&chain));
    let alone = vec![entry(5, 0, 7, 0); 1008];
    row(
        1008,
        "'every' that own nothing",
        "one",
        std::slice::from_ref(&alone),
    );
}

/// The entries of a model, in a drawn order.
fn mixed(size: usize, shape: Shape, chance: &mut Chance) -> Vec<Entry> {
    let model = Model::new(size, shape, chance);
    let mut d = model.description();
    model.shuffle(&mut d, chance);
    d
}

fn row(size: usize, input: &str, situation: &str, all: &[Vec<Entry>]) {
    let old: Vec<Vec<u8>> = all.iter().map(|d| encode(d)).collect();
    let times = checked_times(
        &old,
        stored_bytes(size),
        Option::is_some,
        |d, out| to_stored(black_box(d), out).ok(),
        |d, out| plain::to_stored(black_box(d), out).ok(),
    );
    print_row("to stored", &grouped(size), input, situation, times);
    let new: Vec<Vec<u8>> = old.iter().map(|d| stored(d, size)).collect();
    let times = checked_times(
        &new,
        old[0].len(),
        Option::is_some,
        |s, out| from_stored(black_box(s), out).ok(),
        |s, out| plain::from_stored(black_box(s), out).ok(),
    );
    print_row("from stored", &grouped(size), input, situation, times);
}

fn stored(d: &[u8], size: usize) -> Vec<u8> {
    let mut out = vec![0; stored_bytes(size)];
    plain::to_stored(d, &mut out).expect("accepted");
    out
}
