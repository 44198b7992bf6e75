//! The rows of the hierarchy: 64 services ranked in one call, on one list and on several in turn; beside 64 calls of the catalogue; and
//! chosen ones under a list of pairs.

use std::hint::black_box;

use bench::catalogue::MOST_SERVICES;
use bench::excluding::{asked_of_itself, one_bucket, FAR_BESIDE};
use bench::hierarchy::{services, Kinship};
use bench::inputs::{Chance, Shape};
use bench::plain;
use goltximen::{hierarchy, hierarchy_bytes, Under};
use reference::encode;

use crate::{checked_times, grouped, print_heading, print_row, shape_name, shaped};

/// The entries of each service, and how many lists take turns.
const SIZES: [usize; 4] = [16, 40, 250, 1008];
const LISTS: [usize; 4] = [20, 20, 8, 4];
/// The bytes that are written for 64 services.
const LENGTH: usize = hierarchy_bytes(MOST_SERVICES);

/// The lists of one row, each as its services.
struct Lists {
    size: usize,
    shape: Shape,
    kinship: Kinship,
    lists: Vec<Vec<Vec<u8>>>,
}

pub fn rows() {
    let mut chance = Chance::new(0x1a19);
    let mut all = Vec::new();
    for (shape, size) in shaped(SIZES) {
        let count = SIZES.iter().zip(LISTS).find(|(&of, _)| of == size);
        let count = count.map_or(1, |(_, count)| count);
        for kinship in Kinship::ALL {
            let one = |_| services(size, shape, kinship, &mut chance);
            all.push(Lists {
                size,
                shape,
                kinship,
                lists: (0..count).map(one).collect(),
            });
        }
    }
    for lists in &all {
        lists.row(1, "");
        lists.row(lists.lists.len(), ", in turn");
    }
    println!("\nThe second time is that of 64 calls of the catalogue, one for each service:\n");
    print_heading();
    all.iter().for_each(Lists::beside_catalogues);
    println!("\nThe worst list of pairs, beside the ordinary rows of its size:\n");
    chosen_rows();
}

/// 64 services of 1,008 entries: ordinary ones, all equal, with no pairs and under the worst list, and 64 that are chosen against it.
pub fn chosen_rows() {
    print_heading();
    let mut chance = Chance::new(0x1a1a);
    let ordinary = services(1008, Shape::Wide, Kinship::Equal, &mut chance).concat();
    let chosen = encode(&asked_of_itself(FAR_BESIDE)).repeat(MOST_SERVICES);
    let worst = one_bucket();
    for (input, situation, pairs, list) in [
        ("wide", "all equal", &[][..], &ordinary),
        (
            "wide, 64 pairs in one bucket",
            "all equal",
            &worst,
            &ordinary,
        ),
        ("pairs in one bucket", "chosen", &worst, &chosen),
    ] {
        let times = ranking_times(pairs, list);
        print_row("hierarchy", "64 × 1,008", input, situation, times);
    }
}

/// One list of 64 services, ranked under a list of pairs. It is given twice, as two in turn, since these get fewer repetitions.
fn ranking_times(pairs: &[u8], list: &[u8]) -> (f64, f64) {
    checked_times(
        &[list, list],
        LENGTH,
        |&count| count == Some(LENGTH),
        |list, out| {
            let ranked = hierarchy(black_box(pairs), black_box(list), out).ok();
            ranked.map(|ranked| ranked.written().len())
        },
        |list, out| plain::hierarchy(black_box(pairs), black_box(list), out).ok(),
    )
}

impl Lists {
    fn print(&self, call: &str, more: &str, times: (f64, f64)) {
        let size = format!("64 × {}", grouped(self.size));
        let situation = format!("{}{more}", self.kinship.name());
        print_row(call, &size, shape_name(self.shape), &situation, times);
    }

    /// So many of the lists, laid end to end.
    fn laid(&self, count: usize) -> Vec<Vec<u8>> {
        let first = self.lists.iter().take(count);
        first.map(|services| services.concat()).collect()
    }

    fn row(&self, count: usize, more: &str) {
        let laid = self.laid(count);
        self.check(&laid);
        let times = checked_times(
            &laid,
            LENGTH,
            |&count| count == Some(LENGTH),
            |list, out| {
                let ranked = hierarchy(&[], black_box(list), out).ok();
                ranked.map(|ranked| ranked.written().len())
            },
            |list, out| plain::hierarchy(&[], black_box(list), out).ok(),
        );
        self.print("hierarchy", more, times);
    }

    /// The lists are what they are called.
    fn check(&self, laid: &[Vec<u8>]) {
        let mut out = vec![9; LENGTH];
        for list in laid {
            let ranked = hierarchy(&[], list, &mut out).expect("an accepted list");
            let all = (0..MOST_SERVICES).flat_map(|c| (0..MOST_SERVICES).map(move |d| (c, d)));
            for (c, d) in all {
                assert_eq!(ranked.is_contained(c, d), self.kinship.contained(c, d));
            }
        }
    }

    fn beside_catalogues(&self) {
        let (services, laid) = (&self.lists[0], self.laid(1));
        let mut ranks = [9; LENGTH];
        let times = checked_times(
            &laid,
            MOST_SERVICES * MOST_SERVICES,
            |&count| count == MOST_SERVICES,
            |list, out| {
                let ranked = hierarchy(&[], black_box(list), &mut ranks);
                ranked.map_or(0, |ranked| {
                    out.copy_from_slice(ranked.table());
                    ranked.count()
                })
            },
            |list, out| {
                let rows = out.chunks_exact_mut(MOST_SERVICES).zip(services);
                let call = |(row, c): (&mut [u8], &Vec<u8>)| {
                    Under::default().catalogue(black_box(c), black_box(list), row)
                };
                rows.map(call).filter(Result::is_ok).count()
            },
        );
        self.print("hierarchy", "", times);
    }
}
