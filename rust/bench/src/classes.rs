//! The lists of the hierarchy's rows written as ontologies for reasoners, into a folder: `bench/reasoners` times them.

use std::hint::black_box;
use std::path::Path;

use bench::catalogue::MOST_SERVICES;
use bench::hierarchy::{services, Kinship};
use bench::inputs::Chance;
use bench::ontology::{ontology, FACT, OWL};
use goltximen::{hierarchy, hierarchy_bytes};
use reference::{decode, encode, Entry};

use crate::{best, shape_name, shaped};

/// The entries of each service.
const SIZES: [usize; 4] = [16, 40, 250, 1008];
/// A reasoner may make as many items as a number says. So numbers are at most this, but for the one that makes a chain.
const MOST_NUMBER: u16 = 9;
/// The most that the number which makes a chain may be. Smaller numbers stay as they are.
const MOST_KEPT: u16 = MOST_SERVICES as u16;

/// Writes each list as SHAPE-SIZE-SITUATION.ofn and .lisp, and a file `library` with a line for each, those of few entries first: its name,
/// and the milliseconds that the library takes to rank it.
pub fn write(folder: &Path) -> std::io::Result<()> {
    std::fs::create_dir_all(folder)?;
    let mut chance = Chance::new(0x1a19);
    let mut lines = Vec::new();
    for (shape, size) in shaped(SIZES) {
        for kinship in Kinship::ALL {
            let services = services(size, shape, kinship, &mut chance);
            let small: Vec<Vec<Entry>> = services.iter().map(|s| countable(&decode(s))).collect();
            let situation = kinship.name().replace(' ', "-");
            let name = format!("{}-{size}-{situation}", shape_name(shape));
            let put = |ending: &str, text: &str| {
                std::fs::write(folder.join(format!("{name}.{ending}")), text)
            };
            put("ofn", &ontology(&OWL, &small))?;
            put("lisp", &ontology(&FACT, &small))?;
            let milliseconds = ranking_time(&small, kinship) / 1e6;
            lines.push((size, format!("{name} {milliseconds:.2}\n")));
        }
    }
    lines.sort_by_key(|&(size, _)| size);
    let lines: String = lines.into_iter().map(|(_, line)| line).collect();
    std::fs::write(folder.join("library"), lines)
}

/// The entries with smaller numbers, the same for the same ones.
fn countable(entries: &[Entry]) -> Vec<Entry> {
    let small = |&e: &Entry| match e.number {
        0..=MOST_KEPT => e,
        number => Entry {
            number: number % (MOST_NUMBER + 1),
            ..e
        },
    };
    entries.iter().map(small).collect()
}

/// The nanoseconds that the library takes, once its answer is what the services are called.
fn ranking_time(services: &[Vec<Entry>], kinship: Kinship) -> f64 {
    let list: Vec<u8> = services.iter().flat_map(|s| encode(s)).collect();
    let mut out = vec![9; hierarchy_bytes(MOST_SERVICES)];
    let ranked = hierarchy(&[], &list, &mut out).expect("an accepted list");
    for (c, d) in (0..MOST_SERVICES).flat_map(|c| (0..MOST_SERVICES).map(move |d| (c, d))) {
        assert_eq!(ranked.is_contained(c, d), kinship.contained(c, d));
    }
    let mut rank = || hierarchy(&[], black_box(&list), black_box(&mut out)).is_ok();
    best(&[()], |()| rank(), |()| ()).0
}
