//! Rounds of delivered records.

use goltximen::MOST_ITEMS;
use reference::notation::entry;
use reference::{encode, Entry};

use super::{Found, Rounds};
use crate::agree::{self, Answer, Difference};
use crate::chance::Chance;
use crate::damage::{damaged, Sort};
use crate::{excluding, word, MOST_SPECIMEN};

/// The first link that leads to one item only.
const SINGLE: u16 = 32_768;

impl Rounds {
    pub(super) fn fit_all(
        &mut self,
        total: usize,
        record: &[u8],
        d: &[u8],
        length: usize,
    ) -> Result<Answer, Difference> {
        let under = self.given.under();
        let answer = agree::fit_all(&mut self.chance, under, total, record, d, length)?;
        Ok(self.count("fit all", answer))
    }

    /// A record drawn for a description, with links that go round and what is said twice, judged by it and by another, with outputs
    /// of lengths around the number of items.
    ///
    /// # Errors
    ///
    /// The difference.
    pub fn deliveries(&mut self) -> Found {
        self.draw_dictionary();
        let d = self.description();
        let other = self.description();
        let named = self.dictionary.descriptions.concat();
        self.give_list(&[&d[..], &other].concat());
        let said = [&d[..], &other, &named].concat();
        let total = self.chance.one_of([1, 2, 3, 5, 12, 255, MOST_ITEMS]);
        let keeps = !self.chance.once_in(4);
        let pairs = excluding::pairs_of(&self.given.pairs);
        let record = encode(&delivered(&mut self.chance, &said, total, keeps, &pairs));
        for description in [encode(&d), encode(&other)] {
            for length in [total, MOST_ITEMS, total - 1] {
                self.fit_all(total, &record, &description, length)?;
            }
        }
        Ok(())
    }

    /// The same with a wrong total, with bytes that are damaged, with entries that name an item that is not there, and with a wrong
    /// list of pairs.
    ///
    /// # Errors
    ///
    /// The difference.
    pub fn wrong_deliveries(&mut self) -> Found {
        self.draw_dictionary();
        let d = self.description();
        self.give_list(&d);
        let total = self.chance.one_of([1, 2, 3, 12, MOST_ITEMS]);
        let mut entries = delivered(&mut self.chance, &d, total, true, &[]);
        let right = encode(&entries);
        let description = encode(&d);
        for wrong in [0, MOST_ITEMS + 1, 65_792, usize::MAX] {
            self.fit_all(wrong, &right, &description, MOST_ITEMS)?;
            self.fit_all(wrong, &[], &description, MOST_ITEMS)?;
        }
        let record = damaged(&mut self.chance, Sort::Specimen, &entries);
        self.fit_all(total, &record, &description, MOST_ITEMS)?;
        for _ in 0..3 {
            spoil(&mut self.chance, &mut entries, total);
            self.fit_all(total, &encode(&entries), &description, MOST_ITEMS)?;
        }
        let damaged_description = damaged(&mut self.chance, Sort::Description, &d);
        self.fit_all(total, &right, &damaged_description, MOST_ITEMS)?;
        self.given.pairs = excluding::wrong(&mut self.chance, &self.given.pairs.clone());
        self.fit_all(0, &right, &description, MOST_ITEMS)?;
        Ok(())
    }
}

/// A record of so many items that says of them what these entries speak of, now and then twice. Where it is to keep the rules, no
/// item is linked to two by a link that leads to one only, nor has both of a pair.
fn delivered(
    chance: &mut Chance,
    said: &[Entry],
    total: usize,
    keeps: bool,
    pairs: &[(u16, u16)],
) -> Vec<Entry> {
    let names = |kinds: [u8; 3]| {
        let named = said.iter().filter(|e| kinds.contains(&e.kind));
        let mut names: Vec<u16> = named.map(|e| e.name).collect();
        names.push(1);
        names
    };
    let (properties, links) = (names([1, 2, 2]), names([3, 4, 5]));
    let count = chance.one_of([0, 1, 5, 40, 40, 63, 64, 200, MOST_SPECIMEN]);
    let near = chance.one_of([2, 5, MOST_ITEMS]);
    let item = |chance: &mut Chance| 1 + word(chance.below(total.min(near)));
    let mut all: Vec<Entry> = Vec::new();
    for _ in 0..count {
        let owner = item(chance);
        let next = match (chance.below(8), chance.any(&all)) {
            (0, Some(earlier)) => earlier,
            (1..=3, _) => entry(1, owner, chance.any(&properties).unwrap_or(1), 0),
            _ => entry(8, owner, chance.any(&links).unwrap_or(1), item(chance)),
        };
        if !keeps || fits_beside(&all, next, pairs) {
            all.push(next);
        }
    }
    all
}

/// Whether a record keeps the rules with this entry too.
fn fits_beside(all: &[Entry], next: Entry, pairs: &[(u16, u16)]) -> bool {
    let excludes = |p, q| pairs.contains(&(p, q)) || pairs.contains(&(q, p));
    all.iter()
        .filter(|e| e.owner == next.owner && e.kind == next.kind)
        .all(|e| match e.kind {
            1 => !excludes(e.name, next.name),
            _ => e.name != next.name || e.name < SINGLE || e.number == next.number,
        })
}

/// Breaks an entry, if there is one.
fn spoil(chance: &mut Chance, entries: &mut [Entry], total: usize) {
    let count = entries.len();
    let Some(wrong) = entries.get_mut(chance.below(count)) else {
        return;
    };
    let past = word(total + 1);
    match chance.below(7) {
        0 => wrong.owner = chance.one_of([0, past]),
        1 => wrong.number = chance.one_of([0, past, 1]),
        2 => wrong.kind = chance.one_of([0, 2, 7, 9]),
        3 => wrong.zero = 1,
        4 => wrong.name = 0,
        5 => *wrong = entry(8, 1, SINGLE, 1 + word(chance.below(total))),
        _ => wrong.kind = 9 - wrong.kind.min(8),
    }
}
