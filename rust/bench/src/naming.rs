//! Inputs of the calls with a dictionary.

use reference::{encode, Entry};

use crate::inputs::{entry, Chance, Model, Shape};

/// The most descriptions of a dictionary.
pub const MOST_NAMES: usize = 64;

/// An entry that stands for the description with this name.
pub fn named(owner: usize, name: usize) -> Entry {
    entry(9, owner, name as u16, 0)
}

/// A dictionary, and a description that names what is in it.
pub struct Case {
    pub dictionary: Vec<u8>,
    pub description: Vec<Entry>,
}

/// A dictionary of 64 descriptions of so many entries, and a description of so many names, each of another one. A description of
/// the dictionary is an 'every' and other entries, by turns below it and beside it; no two names of these are equal, so
/// that nothing merges.
pub fn flat(names: usize, entries: usize, chance: &mut Chance) -> Case {
    let model = Model::new(names * entries, Shape::Wide, chance);
    let mut parts: Vec<Vec<u8>> = model
        .description()
        .chunks(entries)
        .map(|chunk| encode(&below_an_every(chunk)))
        .collect();
    let first = parts[0].clone();
    parts.resize(MOST_NAMES, first);
    Case {
        dictionary: parts.concat(),
        description: (1..=names).map(|name| named(0, name)).collect(),
    }
}

/// The entries with the first as an 'every' that owns half of the others.
fn below_an_every(entries: &[Entry]) -> Vec<Entry> {
    let mut entries = entries.to_vec();
    entries[0] = entry(5, 0, entries[0].name, 0);
    for owned in entries.iter_mut().skip(1).step_by(2) {
        owned.owner = 1;
    }
    entries
}

/// 63 descriptions, of which the first is empty and each other names the one before 1,008 times; and 1,008 names of the last.
pub fn empty_chain() -> Case {
    let mut dictionary = encode(&[]);
    for name in 1..63 {
        dictionary.extend(encode(&[named(0, name); 1008]));
    }
    Case {
        dictionary,
        description: vec![named(0, 63); 1008],
    }
}

/// An empty description, one of one property, and 62 of which each names the empty one 1,007 times and then the one before; and
/// the same of the last.
pub fn deep_chain() -> Case {
    let once = |name| {
        let mut entries = vec![named(0, 1); 1007];
        entries.push(named(0, name));
        entries
    };
    let mut dictionary = [encode(&[]), encode(&[entry(1, 0, 7, 0)])].concat();
    for name in 2..MOST_NAMES {
        dictionary.extend(encode(&once(name)));
    }
    Case {
        dictionary,
        description: once(MOST_NAMES),
    }
}

/// An empty description, one of one property, and 62 of which each names the empty one 1,007 times and then the one before: each
/// stands for one entry. And so many times the names of all of them but the empty one.
pub fn staircase(times: usize) -> Case {
    let names: Vec<Entry> = (2..=MOST_NAMES).map(|name| named(0, name)).collect();
    Case {
        dictionary: deep_chain().dictionary,
        description: names.repeat(times),
    }
}

/// An empty description, one of one property, and 62 of which each names the empty one 1,006 times and then the one before, and has
/// a property of its own. And 944 properties, and the last name.
pub fn nested_among_properties() -> Case {
    let mut dictionary = [encode(&[]), encode(&[entry(1, 0, 7, 0)])].concat();
    for name in 2..MOST_NAMES {
        let mut entries = vec![named(0, 1); 1006];
        entries.extend([named(0, name), entry(1, 0, 1000 + name as u16, 0)]);
        dictionary.extend(encode(&entries));
    }
    let mut description: Vec<Entry> = (0..944).map(|i| entry(1, 0, 2000 + i, 0)).collect();
    description.push(named(0, MOST_NAMES));
    Case {
        dictionary,
        description,
    }
}
