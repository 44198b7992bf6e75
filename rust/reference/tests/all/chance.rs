//! A small deterministic generator.

use reference::record::Record;
use reference::{Entry, Link, Property};

use crate::notation::entry;

/// A generator of numbers.
pub struct Chance(u64);

impl Chance {
    /// A generator that starts here.
    pub fn from(start: u64) -> Chance {
        Chance(start.wrapping_mul(0x9E37_79B9_7F4A_7C15) | 1)
    }

    /// The next number.
    pub fn next(&mut self) -> u64 {
        self.0 ^= self.0 << 13;
        self.0 ^= self.0 >> 7;
        self.0 ^= self.0 << 17;
        self.0.wrapping_mul(0x2545_F491_4F6C_DD1D) >> 16
    }

    /// A number below the limit.
    pub fn below(&mut self, limit: usize) -> usize {
        (self.next() % limit as u64) as usize
    }

    /// A number from 1 to the limit.
    pub fn name(&mut self, limit: usize) -> u16 {
        self.below(limit) as u16 + 1
    }

    /// Yes once in so many times.
    pub fn once_in(&mut self, times: usize) -> bool {
        self.below(times) == 0
    }

    /// One of these.
    pub fn one_of<T: Copy>(&mut self, list: &[T]) -> T {
        list[self.below(list.len())]
    }
}

/// How large a drawn description, specimen or record may be.
#[derive(Clone, Copy)]
pub struct Size {
    pub entries: usize,
    pub properties: usize,
    /// The names of the links begin after this.
    pub links_after: u16,
    pub links: usize,
    pub number: usize,
}

impl Size {
    /// A drawn link.
    fn link(self, chance: &mut Chance) -> u16 {
        self.links_after + chance.name(self.links)
    }
}

/// Draws an accepted description.
pub fn description(chance: &mut Chance, size: Size) -> Vec<Entry> {
    let count = chance.below(size.entries + 1);
    exact_description(chance, size, count)
}

/// Draws an accepted description with this number of entries.
pub fn exact_description(chance: &mut Chance, size: Size, count: usize) -> Vec<Entry> {
    let mut entries: Vec<Entry> = Vec::new();
    let mut owners = vec![(0u16, 0usize)];
    for number in 1..=count {
        let (owner, depth) = owner(chance, &owners);
        let kind = chance.one_of(&[1, 1, 2, 2, 3, 3, 4, 4, 5, 5, 5]);
        let kind = if chance.once_in(25) { 6 } else { kind };
        let link = size.link(chance);
        let n = bound(chance, size, kind, link);
        entries.push(match kind {
            1 | 2 => entry(kind, owner, chance.name(size.properties), 0),
            3 | 4 => entry(kind, owner, link, n),
            5 => entry(5, owner, link, 0),
            _ => entry(6, owner, 0, 0),
        });
        if kind == 5 && depth < 32 {
            owners.push((number as u16, depth + 1));
        }
    }
    entries
}

/// The number of an at least or at most. Of a link that never leads to two
/// items few at least are above 1, so that not all descriptions become
/// impossible.
fn bound(chance: &mut Chance, size: Size, kind: u8, link: u16) -> u16 {
    let seldom = 2 * size.entries;
    let most = if kind == 3 && Link(link).is_single() && !chance.once_in(seldom) {
        1
    } else {
        size.number
    };
    chance.below(most + 1) as u16
}

/// Draws an accepted specimen.
pub fn specimen(chance: &mut Chance, size: Size) -> Vec<Entry> {
    let mut entries: Vec<Entry> = Vec::new();
    let mut owners = vec![(0u16, 0usize)];
    for number in 1..=chance.below(size.entries + 1) {
        let (owner, depth) = owner(chance, &owners);
        if chance.once_in(2) {
            entries.push(entry(1, owner, chance.name(size.properties), 0));
            continue;
        }
        let link = size.link(chance);
        let group = entry(7, owner, link, chance.below(size.number) as u16);
        entries.push(if brings_two(&entries, &group) {
            entry(1, owner, chance.name(size.properties), 0)
        } else {
            group
        });
        if depth < 32 && entries[number - 1].kind == 7 {
            owners.push((number as u16, depth + 1));
        }
    }
    entries
}

/// Whether the group would bring its owner a second item by a link that never
/// leads to two.
fn brings_two(entries: &[Entry], group: &Entry) -> bool {
    let same = |e: &Entry| (e.kind, e.owner, e.name) == (7, group.owner, group.name);
    Link(group.name).is_single() && (group.number > 0 || entries.iter().any(same))
}

/// One of the owners so far, the last ones more often.
fn owner(chance: &mut Chance, owners: &[(u16, usize)]) -> (u16, usize) {
    if chance.once_in(2) {
        return chance.one_of(owners);
    }
    owners[owners.len() - 1]
}

/// Draws a record with this number of items, which keeps the rule on links
/// that never lead to two items.
pub fn record(chance: &mut Chance, size: Size, items: usize) -> Record {
    let mut record = Record::of_items(items);
    let thin = 1 + chance.below(4);
    for item in 0..items {
        for property in 1..=size.properties as u16 {
            if chance.once_in(2) {
                record.add_property(Property(property), item);
            }
        }
        for number in 1..=size.links as u16 {
            let link = Link(size.links_after + number);
            let mut left = if link.is_single() { 1 } else { items };
            let first = chance.below(items);
            for to in (0..items).map(|step| (first + step) % items) {
                if left > 0 && chance.once_in(thin) {
                    record.add_link(link, item, to);
                    left -= 1;
                }
            }
        }
    }
    record
}

/// The record without some of its properties, so that it keeps the list of
/// excluding pairs: of a pair that an item has, the second goes.
pub fn keeping(mut record: Record, pairs: &[u8]) -> Record {
    for pair in pairs.chunks_exact(4) {
        let property = |at: usize| Property(u16::from_le_bytes([pair[at], pair[at + 1]]));
        for item in 0..record.items {
            if record.has(item, property(0)) {
                let items = record.properties.entry(property(2)).or_default();
                items.remove(&item);
            }
        }
    }
    record
}

/// All records of this many items with properties 1 up to this and these links
/// that keep the rule on links that never lead to two items.
pub fn all_records(items: usize, properties: usize, links: &[Link]) -> Vec<Record> {
    let bits = items * items * links.len() + items * properties;
    (0u32..1 << bits)
        .map(|pattern| numbered_record(items, properties, links, pattern))
        .filter(Record::keeps_the_rule)
        .collect()
}

fn numbered_record(items: usize, properties: usize, links: &[Link], pattern: u32) -> Record {
    let mut record = Record::of_items(items);
    let mut bit = 0;
    let mut set = || {
        bit += 1;
        pattern >> (bit - 1) & 1 == 1
    };
    for item in 0..items {
        for &link in links {
            for to in 0..items {
                if set() {
                    record.add_link(link, item, to);
                }
            }
        }
        for property in 1..=properties as u16 {
            if set() {
                record.add_property(Property(property), item);
            }
        }
    }
    record
}

/// Of records of up to three items those in which links lead from item 0 to
/// all others; of two that differ only in which item is 1 and which is 2, one.
///
/// What item 0 fits in another record, it fits in one of these or in one with
/// fewer items.
pub fn seen_from_item_0(records: Vec<Record>) -> Vec<Record> {
    let mut kept = records;
    kept.retain(|record| reaches_all(record) && is_first_of_two(record));
    kept
}

fn reaches_all(record: &Record) -> bool {
    let mut reached = vec![0];
    for step in 0..record.items {
        let Some(&from) = reached.get(step) else {
            return false;
        };
        for &(_, to) in record
            .links
            .values()
            .flatten()
            .filter(|pair| pair.0 == from)
        {
            if !reached.contains(&to) {
                reached.push(to);
            }
        }
    }
    true
}

/// Whether the record comes no later than with items 1 and 2 exchanged.
fn is_first_of_two(record: &Record) -> bool {
    let other = |item: usize| {
        if item == 0 || record.items < 3 {
            item
        } else {
            3 - item
        }
    };
    let mut exchanged = Record::of_items(record.items);
    for (&property, items) in &record.properties {
        items
            .iter()
            .for_each(|&item| exchanged.add_property(property, other(item)));
    }
    for (&link, pairs) in &record.links {
        for &(from, to) in pairs {
            exchanged.add_link(link, other(from), other(to));
        }
    }
    let key = |record: &Record| (record.properties.clone(), record.links.clone());
    key(record) <= key(&exchanged)
}

/// The same entries in another order: a drawn order in which each owner is
/// still earlier than what it owns.
pub fn reordered(chance: &mut Chance, entries: &[Entry]) -> Vec<Entry> {
    let mut new_number = vec![0u16; entries.len() + 1];
    let mut left: Vec<usize> = (1..=entries.len()).collect();
    let mut order: Vec<Entry> = Vec::new();
    while !left.is_empty() {
        let at = chance.below(left.len());
        let taken = entries[left[at] - 1];
        let owner = usize::from(taken.owner);
        if owner != 0 && new_number[owner] == 0 {
            continue;
        }
        order.push(Entry {
            owner: new_number[owner],
            ..taken
        });
        new_number[left[at]] = order.len() as u16;
        left.remove(at);
    }
    order
}
