//! Small records, to look for an item by trying all. They have cycles, and items that are linked to by several.

use std::collections::BTreeSet;

use goltximen::Under;
use reference::notation::entry;
use reference::record::{fits, fits_named, specimen_record, Record};
use reference::{encode, Entry, Link, Property};

use crate::agree::{found, Answer, Difference};
use crate::chance::Chance;
use crate::draw::Names;
use crate::naming::Dictionary;

/// How many items, properties and links a record has.
#[derive(Clone, Copy, Debug)]
pub struct Size {
    /// The items.
    pub items: usize,
    /// The properties.
    pub properties: u16,
    /// The links.
    pub links: u16,
    /// The names of both.
    pub names: Names,
}

impl Size {
    /// How many yes or no a record of this size is made of.
    fn bits(self) -> usize {
        self.items * (usize::from(self.properties) + usize::from(self.links) * self.items)
    }
}

/// A list of records, which keep the rule on links that lead to one item only.
pub struct Pool {
    records: Vec<Record>,
}

impl Pool {
    /// No record.
    pub fn empty() -> Pool {
        Pool {
            records: Vec::new(),
        }
    }

    /// How many records there are.
    pub fn count(&self) -> usize {
        self.records.len()
    }

    /// Adds all records of this size that keep the rule, of at most 65,536.
    pub fn add_all(&mut self, size: Size) {
        let all = (0..1 << size.bits().min(16)).map(|pattern| record(size, pattern));
        self.records.extend(all.filter(Record::keeps_the_rule));
    }

    /// Adds drawn records of this size, in which an item keeps one item by a link that leads to one item only.
    pub fn add_drawn(&mut self, chance: &mut Chance, size: Size, count: usize) {
        for _ in 0..count {
            // Of three patterns: about half of the pairs linked, fewer, more.
            let (one, other) = (chance.number(), chance.number());
            let pattern = chance.one_of([one, one & other, one | other]);
            self.records.push(kept(record(size, pattern)));
        }
    }

    /// All records of up to three items with so many properties and links that keep the rule and the list, as the first item sees them:
    /// each item is reached from it, and of two that differ by exchanging the other two items there is one. What the first item fits in
    /// another record of up to three items it fits in one of these.
    pub fn seen_from_first(names: Names, properties: u16, links: u16, pairs: &[u8]) -> Pool {
        let sizes = (1..=3).map(|items| Size {
            items,
            properties,
            links,
            names,
        });
        let all = sizes.flat_map(|size| {
            let patterns = 0..1u64 << size.bits().min(16);
            let first = patterns.filter(move |&pattern| pattern <= exchanged(size, pattern));
            first.map(move |pattern| record(size, pattern))
        });
        let seen = all.filter(|record| {
            reaches_all(record) && record.keeps_the_rule() && record.keeps_the_list(pairs)
        });
        Pool {
            records: seen.collect(),
        }
    }

    /// For each record whether its first item fits the accepted description, a bit for each.
    pub fn first_fitting(&self, d: &[Entry]) -> Vec<u64> {
        let word = |records: &[Record]| {
            let bits = records
                .iter()
                .map(|record| u64::from(fits(record, 0, d, 0)));
            bits.fold(0, |word, bit| word << 1 | bit)
        };
        self.records.chunks(64).map(word).collect()
    }

    /// Those of these records that keep the list.
    pub fn keeping(&self, pairs: &[u8]) -> Pool {
        let records = self.records.iter();
        let kept = records.filter(|record| record.keeps_the_list(pairs));
        Pool {
            records: kept.cloned().collect(),
        }
    }

    /// So many drawn ones of these records.
    pub fn some(&self, chance: &mut Chance, count: usize) -> Pool {
        let drawn = (0..count).map(|_| self.records.get(chance.below(self.records.len())));
        Pool {
            records: drawn.flatten().cloned().collect(),
        }
    }

    /// For each item of each record, whether it fits the accepted description.
    pub fn fitting(&self, d: &[Entry]) -> Vec<bool> {
        self.fitting_named(&Dictionary::default(), d)
    }

    /// The same by what the names of this dictionary mean.
    pub fn fitting_named(&self, dictionary: &Dictionary, d: &[Entry]) -> Vec<bool> {
        let (names, items) = (&dictionary.descriptions, |record: &Record| 0..record.items);
        self.records
            .iter()
            .flat_map(|record| items(record).map(move |item| fits_named(record, item, names, d, 0)))
            .collect()
    }

    /// Whether no item of these records fits C and misses D.
    pub fn contained(&self, c: &[Entry], d: &[Entry]) -> bool {
        self.records.iter().all(|record| {
            let mut items = 0..record.items;
            items.all(|item| !fits(record, item, c, 0) || fits(record, item, d, 0))
        })
    }
}

/// Whether the first item leads to each, at once or by others.
fn reaches_all(record: &Record) -> bool {
    let mut reached = BTreeSet::from([0]);
    for _ in 0..record.items {
        let linked = |&item| {
            record
                .links
                .keys()
                .flat_map(move |&link| record.linked(item, link))
        };
        let further: Vec<usize> = reached.iter().flat_map(linked).collect();
        reached.extend(further);
    }
    reached.len() == record.items
}

/// The pattern of the record of this size in which the second and the third item, if there is one, are exchanged.
fn exchanged(size: Size, pattern: u64) -> u64 {
    if size.items != 3 {
        return pattern;
    }
    let (properties, links) = (usize::from(size.properties), usize::from(size.links));
    let stride = properties + 3 * links;
    let mut whole = 0;
    for (item, to) in [(0, 0), (1, 2), (2, 1)] {
        let of_item = pattern >> (stride * item);
        let mut bits = of_item & ((1 << properties) - 1);
        for at in (0..links).map(|link| properties + 3 * link) {
            let linked = of_item >> at & 7;
            bits |= (linked & 1 | (linked & 2) << 1 | (linked & 4) >> 1) << at;
        }
        whole |= bits << (stride * to);
    }
    whole
}

/// The record without the pairs that break the rule.
fn kept(mut record: Record) -> Record {
    for (link, pairs) in &mut record.links {
        let mut led = BTreeSet::new();
        pairs.retain(|&(item, _)| led.insert(item) || !link.is_single());
    }
    record
}

/// The record of this size with the properties and pairs that the bits of the pattern say.
fn record(size: Size, pattern: u64) -> Record {
    let mut record = Record::of_items(size.items);
    let mut left = pattern;
    let mut set = || {
        let bit = left & 1 == 1;
        left >>= 1;
        bit
    };
    for item in 0..size.items {
        for property in 1..=size.properties {
            if set() {
                record.add_property(Property(size.names.name(property)), item);
            }
        }
        for link in 1..=size.links {
            for to in 0..size.items {
                if set() {
                    record.add_link(Link(size.names.name(link)), item, to);
                }
            }
        }
    }
    record
}

/// All descriptions of at most two entries over so many properties and links, with numbers up to 2.
pub fn tiny_descriptions(names: Names, properties: u16, links: u16) -> Vec<Vec<Entry>> {
    let firsts = tiny_entries(names, properties, links, 0);
    let mut all = vec![Vec::new()];
    for &first in &firsts {
        all.push(vec![first]);
        all.extend(firsts.iter().map(|&second| vec![first, second]));
        if first.kind == 5 {
            let below = tiny_entries(names, properties, links, 1);
            all.extend(below.iter().map(|&second| vec![first, second]));
        }
    }
    all
}

/// All entries of this owner over so many properties and links, with numbers up to 2.
fn tiny_entries(names: Names, properties: u16, links: u16, owner: u16) -> Vec<Entry> {
    let mut all = Vec::new();
    for property in (1..=properties).map(|property| names.name(property)) {
        all.extend([1, 2].map(|kind| entry(kind, owner, property, 0)));
    }
    for link in (1..=links).map(|link| names.name(link)) {
        all.push(entry(5, owner, link, 0));
        for number in 0..=2 {
            all.extend([3, 4].map(|kind| entry(kind, owner, link, number)));
        }
    }
    all.push(entry(6, owner, 0, 0));
    all
}

/// All lists of so many groups by these links, each with one item or with two and owned by the top or an earlier group.
pub fn tiny_groups(links: &[u16], groups: u16) -> Vec<Vec<Entry>> {
    let mut all = vec![Vec::new()];
    for owners in 0..groups {
        let mut longer = Vec::new();
        for (shorter, &link) in all.iter().flat_map(|s| links.iter().map(move |l| (s, l))) {
            for (owner, number) in (0..=owners).flat_map(|owner| [(owner, 0), (owner, 1)]) {
                let mut entries: Vec<Entry> = shorter.clone();
                entries.push(entry(7, owner, link, number));
                longer.push(entries);
            }
        }
        all = longer;
    }
    all
}

/// All lists of so many properties, 1 to 3, and groups of two items by link 1, each owned by the top or an earlier group.
pub fn tiny_items(entries: u16) -> Vec<Vec<Entry>> {
    let mut all = vec![Vec::new()];
    for _ in 0..entries {
        all = all.iter().flat_map(|s| with_one_entry(s)).collect();
    }
    all
}

/// The list with each entry that may follow.
fn with_one_entry(s: &[Entry]) -> Vec<Vec<Entry>> {
    let groups = (1..).zip(s).filter(|(_, e)| e.kind == 7);
    let owners = std::iter::once(0).chain(groups.map(|(number, _)| number));
    let mut all = Vec::new();
    for owner in owners {
        let properties = (1..=3).map(|property| entry(1, owner, property, 0));
        for e in properties.chain([entry(7, owner, 1, 1)]) {
            all.push([s, &[e]].concat());
        }
    }
    all
}

/// The first entry of a list of groups and properties whose record, item by item, no longer keeps this; the counts are small.
pub fn first_that_breaks(s: &[Entry], keeps: impl Fn(&Record) -> bool) -> Option<usize> {
    (1..=s.len()).find(|&count| !keeps(&specimen_record(&s[..count])))
}

/// Looks at an answer of the comparison in records: 'contained' is so in each of the pool, 'not contained' in the specimen's, which
/// keeps the rule and the list.
///
/// # Errors
///
/// The difference.
pub fn confirm(
    pool: &Pool,
    under: Under,
    c: &[Entry],
    d: &[Entry],
    answer: Answer,
) -> Result<(), Difference> {
    match answer {
        Answer::Contained if !pool.contained(c, d) => Err(found(
            "compare: an item of a record fits C and misses D",
            under,
            &[c, d],
        )),
        Answer::NotContained(_, entries) => {
            let (c_bytes, d_bytes) = (encode(c), encode(d));
            let mut out = vec![0; c_bytes.len() + d_bytes.len()];
            let again = under.compare(&c_bytes, &d_bytes, &mut out);
            let shown = reference::decode(out.get(..crate::length_of(entries)).unwrap_or(&[]));
            let record = specimen_record(&shown);
            let shows = fits(&record, 0, c, 0) && !fits(&record, 0, d, 0);
            let keeps = record.keeps_the_rule() && record.keeps_the_list(under.pairs);
            if again.is_ok() && keeps && shows {
                return Ok(());
            }
            Err(found(
                "compare: the specimen's record does not show it",
                under,
                &[c, d],
            ))
        }
        _ => Ok(()),
    }
}

/// Looks at an unfolding in records: the same items fit the description, by what its names mean, and what is unfolded.
///
/// # Errors
///
/// The difference.
pub fn confirm_unfolded(
    pool: &Pool,
    dictionary: &Dictionary,
    d: &[Entry],
    plain: &[Entry],
) -> Result<(), Difference> {
    let same = pool.records.iter().all(|record| {
        let named = |item| fits_named(record, item, &dictionary.descriptions, d, 0);
        (0..record.items).all(|item| named(item) == fits(record, item, plain, 0))
    });
    if same {
        return Ok(());
    }
    let bytes = dictionary.bytes();
    let under = Under {
        pairs: &[],
        dictionary: &bytes,
    };
    Err(found(
        "unfold: an item of a record fits one of the two",
        under,
        &[d, plain],
    ))
}

/// The fit answer is the one in the specimen's record, item by item; 9 exactly where this record breaks the rule, and else 12
/// exactly where it breaks the list. The specimen's counts are small.
///
/// # Errors
///
/// The difference.
pub fn confirm_fit(
    under: Under,
    s: &[Entry],
    d: &[Entry],
    answer: Answer,
) -> Result<(), Difference> {
    let record = specimen_record(s);
    let listed = record.keeps_the_list(under.pairs);
    let expected = match (record.keeps_the_rule(), listed, fits(&record, 0, d, 0)) {
        (false, ..) => Answer::Refused(9, 1),
        (_, false, _) => Answer::Refused(12, 1),
        (.., true) => Answer::Yes,
        (.., false) => Answer::No,
    };
    if answer == expected {
        return Ok(());
    }
    Err(found(
        "fit: the specimen's record says otherwise",
        under,
        &[s, d],
    ))
}
