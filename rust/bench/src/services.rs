//! The rows of the catalogue: 64 services in one call, and the same one by one.

use std::hint::black_box;

use bench::catalogue::{Case, MOST_SERVICES};
use bench::inputs::Chance;
use bench::naming::flat;
use bench::plain;
use goltximen::{compare, Comparison, Under};
use reference::encode;

use crate::listed::writing;
use crate::{grouped, print_row, shape_name, shaped, STRANGE};

/// The entries of the supplier's description and of each service.
const SIZES: [usize; 4] = [16, 40, 250, 1008];
/// What the services say to the supplier, and the property that they ask for in the middle.
const SITUATIONS: [(&str, Option<u16>); 2] =
    [("contained", None), ("failing middle", Some(STRANGE))];
/// How many names a description has, and how many entries each stands for, with a dictionary of 64 descriptions.
const NAMED: [(usize, usize); 2] = [(4, 4), (63, 16)];

pub fn rows() {
    let mut chance = Chance::new(0x1a17);
    for (shape, size) in shaped(SIZES) {
        let sizes = format!("64 × {}", grouped(size));
        for (situation, strange) in SITUATIONS {
            let case = Case::new(size, shape, strange, &mut chance);
            let row = |situation: &str, times| {
                print_row("catalogue", &sizes, shape_name(shape), situation, times);
            };
            row(situation, catalogue_times(&case, strange.is_none()));
            row(&format!("{situation}, one by one"), single_times(&case));
        }
    }
    for (names, entries) in NAMED {
        let sizes = format!("64 × {}", grouped(names * entries));
        let input = format!("{names} names of {entries}");
        let times = named_times(names, entries);
        print_row("catalogue", &sizes, &input, "contained", times);
    }
}

fn catalogue_times(case: &Case, contained: bool) -> (f64, f64) {
    let (c, list) = (&case.supplier[..], &case.list()[..]);
    let mut out = [9; MOST_SERVICES];
    let count = plain::catalogue(&[], &[], c, list, &mut out);
    assert_eq!(count, Ok(MOST_SERVICES));
    assert_eq!(out, [u8::from(contained); MOST_SERVICES]);
    writing(
        MOST_SERVICES,
        |out| Under::default().catalogue(black_box(c), black_box(list), out),
        |out| plain::catalogue(&[], &[], black_box(c), black_box(list), out),
    )
}

/// Services that name the same as the supplier's description, each from another one on.
fn named_times(names: usize, entries: usize) -> (f64, f64) {
    let case = flat(names, entries, &mut Chance::new(0x1a18));
    let (dictionary, c) = (&case.dictionary[..], &encode(&case.description)[..]);
    let service = |first: usize| {
        let mut service = case.description.clone();
        service.rotate_left(first % names);
        encode(&service)
    };
    let list = &(0..MOST_SERVICES).flat_map(service).collect::<Vec<u8>>()[..];
    let under = |dictionary| Under {
        pairs: &[],
        dictionary,
    };
    let mut out = [9; MOST_SERVICES];
    let count = plain::catalogue(&[], dictionary, c, list, &mut out);
    assert_eq!(count, Ok(MOST_SERVICES));
    assert_eq!(out, [1; MOST_SERVICES]);
    writing(
        MOST_SERVICES,
        |out| under(black_box(dictionary)).catalogue(black_box(c), black_box(list), out),
        |out| {
            plain::catalogue(
                &[],
                black_box(dictionary),
                black_box(c),
                black_box(list),
                out,
            )
        },
    )
}

/// 64 comparisons of the library, beside 64 of the plain Rust.
fn single_times(case: &Case) -> (f64, f64) {
    let (c, services) = (&case.supplier[..], &case.services[..]);
    writing(
        2 * c.len(),
        |out| {
            let each = services.iter();
            each.filter(|d| compare(black_box(c), black_box(d), out) == Ok(Comparison::Contained))
                .count()
        },
        |out| {
            let yes = Ok(plain::Comparison::Contained);
            let each = services.iter();
            each.filter(|d| plain::compare(black_box(c), black_box(d), out) == yes)
                .count()
        },
    )
}
