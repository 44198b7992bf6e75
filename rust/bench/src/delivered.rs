//! The rows of the items of a delivered record.

use std::hint::black_box;

use bench::inputs::{entry, Chance};
use bench::plain;
use goltximen::{Under, MOST_ITEMS};
use reference::{encode, Entry};

use crate::{checked_times, grouped, print_row};

/// The records of a row that take turns.
const TURNS: usize = 20;

/// A record and a description.
type Case = (Vec<u8>, Vec<u8>);

pub fn rows() {
    let mut chance = Chance::new(0x1a20);
    for (entries, facts, links) in [(40, 40, 20), (40, 2016, 20), (1008, 2016, 200)] {
        let mut cases: Vec<Case> = Vec::new();
        for _ in 0..TURNS {
            let record = record(facts, links, &mut chance);
            cases.push((record, description(entries, links, &mut chance)));
        }
        let input = format!("{} facts of {links} links", grouped(facts));
        row(entries, &input, "mixed", &cases[..1]);
        row(entries, &input, "mixed, in turn", &cases);
    }
    let record = record(2016, 1, &mut chance);
    let least: Vec<Entry> = (0..1008).map(|_| entry(3, 0, 1, 1)).collect();
    let every: Vec<Entry> = (0..1008).map(|_| entry(5, 0, 1, 0)).collect();
    for (situation, description) in [("at least", least), ("every", every)] {
        let case = (record.clone(), encode(&description));
        row(1008, "2,016 facts of one link", situation, &[case]);
    }
    let record = of_one_item();
    for (situation, kind, number) in [("at least, chosen", 3, 1), ("every, chosen", 5, 0)] {
        let description = vec![entry(kind, 0, 1, number); 1008];
        let case = (record.clone(), encode(&description));
        row(1008, "2,016 facts of one item", situation, &[case]);
    }
}

/// 2,016 facts of one item and one link, which leads to each of 256 items seven or eight times. Each is counted into the number of the
/// one before it, and left in the mark of the one before it, so each waits for that one.
fn of_one_item() -> Vec<u8> {
    let facts = (0..2016).map(|n| entry(8, 1, 1, 1 + (n % MOST_ITEMS) as u16));
    encode(&facts.collect::<Vec<Entry>>())
}

/// So many facts of 256 items, a fourth of them properties.
fn record(facts: usize, links: usize, chance: &mut Chance) -> Vec<u8> {
    let facts = (0..facts).map(|_| {
        let owner = 1 + chance.below(MOST_ITEMS);
        match chance.below(4) * usize::from(links > 1) {
            3 => entry(1, owner, chance.name(links), 0),
            _ => entry(8, owner, chance.name(links), chance.name(MOST_ITEMS)),
        }
    });
    encode(&facts.collect::<Vec<Entry>>())
}

/// So many entries on these links and properties, in places up to four deep, that ask for little.
fn description(entries: usize, links: usize, chance: &mut Chance) -> Vec<u8> {
    let mut all: Vec<Entry> = Vec::new();
    let mut owners = vec![(0, 0)];
    for number in 1..=entries {
        let (owner, depth) = owners[chance.below(owners.len())];
        let name = chance.name(links);
        all.push(match chance.below(8) {
            0 => entry(2, owner, name, 0),
            1..=2 => entry(3, owner, name, chance.below(2) as u16),
            3..=5 => entry(4, owner, name, 8 + chance.below(9) as u16),
            _ => {
                if depth < 4 {
                    owners.push((number, depth + 1));
                }
                entry(5, owner, name, 0)
            }
        });
    }
    encode(&all)
}

fn row(entries: usize, input: &str, situation: &str, cases: &[Case]) {
    let times = checked_times(
        cases,
        MOST_ITEMS,
        |&count| count == Some(MOST_ITEMS),
        |(record, d), out| {
            let under = Under::default();
            under
                .fit_all_into(MOST_ITEMS, black_box(record), black_box(d), out)
                .ok()
        },
        |(record, d), out| {
            plain::fit_all(&[], &[], MOST_ITEMS, black_box(record), black_box(d), out).ok()
        },
    );
    print_row("fit all", &grouped(entries), input, situation, times);
}
