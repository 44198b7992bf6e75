//! The inputs on which the calls are timed and tested: made from a fixed seed, so each run has the same bytes.

use reference::{encode, Entry};

/// A small generator of random numbers (xorshift).
pub struct Chance(u64);

impl Chance {
    pub fn new(seed: u64) -> Chance {
        Chance(seed | 1)
    }

    /// A number below the limit.
    pub fn below(&mut self, limit: usize) -> usize {
        self.0 ^= self.0 << 13;
        self.0 ^= self.0 >> 7;
        self.0 ^= self.0 << 17;
        ((self.0 >> 11) % limit as u64) as usize
    }

    /// A name from 1 to the most.
    pub fn name(&mut self, most: usize) -> u16 {
        1 + self.below(most) as u16
    }
}

/// An entry by kind, owner, name and number.
pub fn entry(kind: u8, owner: usize, name: u16, number: u16) -> Entry {
    Entry {
        kind,
        zero: 0,
        owner: owner as u16,
        name,
        number,
    }
}

/// Whether an input's entries all stand at the top, or are spread over a chain of 33 places.
#[derive(Clone, Copy, Debug, PartialEq, Eq)]
pub enum Shape {
    Wide,
    Deep,
}

/// The links of a chain.
const CHAIN: usize = 32;

/// The first link that leads to one item only, and the largest name of a model.
const SINGLE: u16 = 32_768;
pub const MOST_NAME: u16 = 32_767;

/// A specimen and the entries that a description may have of it, one for one: a chain of groups and 'every' entries, and then
/// for each entry owner, name and number.
pub struct Model {
    /// The links of the chain, none where the shape is wide.
    chain: Vec<u16>,
    /// Owner in the chain, kind as in a description (1 to 4), name, number.
    rows: Vec<(usize, u8, u16, u16)>,
}

impl Model {
    /// A model of this many entries. No two names are equal, and no link leads to one item only.
    pub fn new(entries: usize, shape: Shape, chance: &mut Chance) -> Model {
        let links = match shape {
            Shape::Wide => 0,
            Shape::Deep => CHAIN.min(entries / 2),
        };
        let mut names = distinct_names(entries, chance);
        let rows = names.split_off(links).into_iter().map(|name| {
            let kind = 1 + chance.below(4) as u8;
            let number = if kind > 2 { chance.below(999) } else { 0 };
            (chance.below(links + 1), kind, name, 1 + number as u16)
        });
        Model {
            rows: rows.collect(),
            chain: names,
        }
    }

    /// A model of which all links lead to one item only. At least 1 of each that is asked for; at most 0, or at most 1, which always
    /// holds. It is no model of a specimen.
    pub fn single(entries: usize, shape: Shape, chance: &mut Chance) -> Model {
        let mut model = Model::new(entries, shape, chance);
        for link in &mut model.chain {
            *link += SINGLE;
        }
        for (_, kind, name, number) in &mut model.rows {
            *name += if *kind > 2 { SINGLE } else { 0 };
            *number = match *kind {
                3 => 1,
                _ => chance.below(2) as u16,
            };
        }
        model
    }

    /// The model as a description: has, lacks, at least and at most, behind the chain of 'every' entries.
    pub fn description(&self) -> Vec<Entry> {
        let rows = self.rows.iter().map(|&(owner, kind, name, number)| {
            let number = if kind > 2 { number } else { 0 };
            entry(kind, owner, name, number)
        });
        self.chained(5).into_iter().chain(rows).collect()
    }

    /// The same said more loosely and in another order: contained in any description that holds the first.
    pub fn looser(&self, chance: &mut Chance) -> Vec<Entry> {
        let mut entries = self.description();
        for entry in &mut entries {
            entry.number = match entry.kind {
                3 => entry.number - 1,
                4 => entry.number + 1,
                _ => 0,
            };
        }
        self.shuffle(&mut entries, chance);
        entries
    }

    /// The chain, and an item or a property for each has and at least, and also for as many other names as there are lacks
    /// and at most.
    pub fn specimen(&self) -> Vec<Entry> {
        let rows = self.rows.iter().map(|&(owner, kind, name, number)| {
            // The model's names are at most 32,767, so these are others.
            let other = 60_001 + name % 5_000;
            match kind {
                1 => entry(1, owner, name, 0),
                2 => entry(1, owner, other, 0),
                3 => entry(7, owner, name, number),
                _ => entry(7, owner, name, number - 1),
            }
        });
        self.chained(7).into_iter().chain(rows).collect()
    }

    /// Entries that begin with the chain of the model, the others in another order.
    pub fn shuffle(&self, entries: &mut [Entry], chance: &mut Chance) {
        shuffle(&mut entries[self.chain.len()..], chance);
    }

    fn chained(&self, kind: u8) -> Vec<Entry> {
        let links = self.chain.iter().enumerate();
        links
            .map(|(owner, &link)| entry(kind, owner, link, 0))
            .collect()
    }

    /// The last place of the chain.
    pub fn last_place(&self) -> usize {
        self.chain.len()
    }
}

fn distinct_names(count: usize, chance: &mut Chance) -> Vec<u16> {
    let mut names = Vec::new();
    while names.len() < count {
        let name = chance.name(MOST_NAME.into());
        if !names.contains(&name) {
            names.push(name);
        }
    }
    names
}

fn shuffle(entries: &mut [Entry], chance: &mut Chance) {
    for last in (1..entries.len()).rev() {
        entries.swap(last, chance.below(last + 1));
    }
}

/// The entries with one more at the front; the last is left out, so that as many remain.
pub fn with_first(first: Entry, entries: &[Entry]) -> Vec<Entry> {
    let later = entries[..entries.len() - 1].iter().map(|&(mut entry)| {
        entry.owner += u16::from(entry.owner > 0);
        entry
    });
    std::iter::once(first).chain(later).collect()
}

/// The entries with another in the place of the last.
pub fn with_last(last: Entry, entries: &[Entry]) -> Vec<Entry> {
    let mut entries = entries.to_vec();
    entries.pop();
    entries.push(last);
    entries
}

/// The entries with another kind and name in the middle, at the same place. No model has its chain there.
pub fn with_middle(kind: u8, name: u16, entries: &[Entry]) -> Vec<Entry> {
    let mut entries = entries.to_vec();
    let middle = entries.len() / 2;
    entries[middle] = entry(kind, entries[middle].owner.into(), name, 0);
    entries
}

/// A field sheet of this many entries: has, at least and at most with numbers of at most 99, all at the top, or spread over the top
/// and a chain of three 'every'.
pub fn sheet(entries: usize, shape: Shape, chance: &mut Chance) -> Vec<Entry> {
    let chain = match shape {
        Shape::Wide => 0,
        Shape::Deep => 3,
    };
    let every = (0..chain).map(|owner| entry(5, owner, 1, 0));
    let mut sheet: Vec<Entry> = every.collect();
    while sheet.len() < entries {
        let kind = [1, 3, 4][chance.below(3)];
        let number = if kind == 1 { 0 } else { chance.below(100) };
        let (owner, name) = (chance.below(chain + 1), chance.name(65_535));
        sheet.push(entry(kind, owner, name, number as u16));
    }
    sheet
}

/// An 'every' of link 1 that owns 1,007 at most of different links.
fn every_at_most() -> Vec<u8> {
    let owned = (1..=1007).map(|link| entry(4, 1, link, 0));
    let every: Vec<Entry> = std::iter::once(entry(5, 0, 1, 0)).chain(owned).collect();
    encode(&every)
}

/// 2,016 groups of one link that own nothing, and an 'every' of that link that owns 1,007 at most of different links.
pub fn one_link_place() -> (Vec<u8>, Vec<u8>) {
    let groups = vec![entry(7, 0, 1, 0); 2016];
    (encode(&groups), every_at_most())
}

/// The fit answer's worst case: the same for 1,008 groups of which each owns a property.
pub fn worst_fit() -> (Vec<u8>, Vec<u8>) {
    let groups = (0..1008).map(|_| entry(7, 0, 1, 0));
    let owned = (1..=1008).map(|owner| entry(1, owner, 1, 0));
    let specimen: Vec<Entry> = groups.chain(owned).collect();
    (encode(&specimen), every_at_most())
}

/// 2,016 properties of the top whose looks all begin in one bucket of the library's index, 15 different ones, and 1,008 times the lack of one
/// more that does.
pub fn one_bucket() -> (Vec<u8>, Vec<u8>) {
    let named = |turn: usize| 1 + 2048 * turn as u16;
    let given: Vec<Entry> = (0..2016).map(|i| entry(1, 0, named(i % 15), 0)).collect();
    (encode(&given), encode(&[entry(2, 0, named(15), 0); 1008]))
}

/// 1,008 groups of one link, each of which owns a property of its own.
fn owning_groups() -> Vec<u8> {
    let groups = (0..1008).map(|_| entry(7, 0, 1, 0));
    let owned = (1..=1008).map(|owner| entry(1, owner, owner as u16, 0));
    encode(&groups.chain(owned).collect::<Vec<Entry>>())
}

/// These, and one 'every' of the link, which owns the lacks of 1,007 other properties.
pub fn one_every_of_owning() -> (Vec<u8>, Vec<u8>) {
    let lacks = (0..1007).map(|i| entry(2, 1, 2000 + i, 0));
    let description: Vec<Entry> = [entry(5, 0, 1, 0)].into_iter().chain(lacks).collect();
    (owning_groups(), encode(&description))
}

/// And 504 'every' of the link, each with one such lack.
pub fn every_of_owning() -> (Vec<u8>, Vec<u8>) {
    let every = (0..504).map(|_| entry(5, 0, 1, 0));
    let lacks = (1..=504).map(|owner| entry(2, owner, 2000 + owner as u16, 0));
    (
        owning_groups(),
        encode(&every.chain(lacks).collect::<Vec<Entry>>()),
    )
}

/// 2,016 groups of one link, and 1,008 at least of it.
pub fn one_link_at_least() -> (Vec<u8>, Vec<u8>) {
    let groups = vec![entry(7, 0, 1, 0); 2016];
    let at_least: Vec<Entry> = (0..1008).map(|number| entry(3, 0, 1, number)).collect();
    (encode(&groups), encode(&at_least))
}

/// 2,000 groups of one link that own nothing, and 504 'every' of it, each with an at most.
pub fn one_link_every() -> (Vec<u8>, Vec<u8>) {
    let groups = vec![entry(7, 0, 1, 0); 2000];
    let every = (0..504).map(|_| entry(5, 0, 1, 0));
    let at_most = (1..=504).map(|owner| entry(4, owner, 2, 0));
    let description: Vec<Entry> = every.chain(at_most).collect();
    (encode(&groups), encode(&description))
}

/// A specimen of 2,016 groups, of which all but 62 are by one link that leads to one item only, each with an owner of its own:
/// chains of 32 below groups by another link. And a description of 65 entries that goes down the chains, at most 1 of that link at
/// each place.
pub fn single_links() -> (Vec<u8>, Vec<u8>) {
    let groups = (0..2016).map(|before| match before % 33 {
        0 => entry(7, 0, 1, 0),
        _ => entry(7, before, SINGLE, 0),
    });
    let every = (0..=CHAIN).map(|owner| {
        let link = if owner == 0 { 1 } else { SINGLE };
        entry(5, owner, link, 0)
    });
    let at_most = (1..=CHAIN).map(|owner| entry(4, owner, SINGLE, 1));
    let groups: Vec<Entry> = groups.collect();
    let description: Vec<Entry> = every.chain(at_most).collect();
    (encode(&groups), encode(&description))
}

/// A specimen of 2,016 groups by links that lead to one item only, no two of one owner and link, chosen so that the search for each
/// begins at one cell of the library's table of groups met. Each owner has all such links.
pub fn one_cell() -> Vec<u8> {
    let groups = (0..).flat_map(|owner| {
        let links = (SINGLE..=u16::MAX).filter(move |&link| first_cell(owner, link) == 0);
        links.map(move |link| entry(7, owner, link, 0))
    });
    encode(&groups.take(2016).collect::<Vec<Entry>>())
}

/// The cells of the library's table of groups met at which a search may begin, where a specimen has more than 63 entries.
const CELLS: u64 = 4096;

/// The cell where the search for an owner and a link begins, as `start_of` of crates/firsts/src/firsts.rt has it.
pub fn first_cell(owner: usize, link: u16) -> u64 {
    let key = (owner as u64) << 16 | u64::from(link);
    2_654_435_769 * key / 1_048_576 % CELLS
}
