//! The rows of field sheets: one sheet, and several in turn, read as a sheet, and the same bytes read as any description.

use bench::inputs::{sheet, Chance, Shape};
use bench::plain;
use reference::encode;

use crate::{
    description_times, grouped, print_heading, print_row, read_times, shape_name, shaped, SIZES,
};

/// How many sheets take turns.
const SHEETS: usize = 200;

pub fn rows() {
    println!();
    print_heading();
    let mut chance = Chance::new(0x1a1a);
    for (shape, size) in shaped(SIZES) {
        for count in [1, SHEETS] {
            row(shape, size, count, &mut chance);
        }
    }
}

fn row(shape: Shape, size: usize, count: usize, chance: &mut Chance) {
    let sheets: Vec<Vec<u8>> = (0..count)
        .map(|_| encode(&sheet(size, shape, chance)))
        .collect();
    let sheets: Vec<&[u8]> = sheets.iter().map(Vec::as_slice).collect();
    let situation = match count {
        1 => "one sheet",
        _ => "200 in turn",
    };
    let print = |call, times| print_row(call, &grouped(size), shape_name(shape), situation, times);
    print("read sheet", sheet_times(&sheets, size));
    print("read description", description_times(&sheets, size));
}

fn sheet_times(sheets: &[&[u8]], entries: usize) -> (f64, f64) {
    read_times(
        sheets,
        entries,
        |d| goltximen::read_sheet(d).ok().map(usize::from),
        |d| plain::read_sheet(d).ok(),
    )
}
