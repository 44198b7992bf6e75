//! Inputs of the entries that earn a yes.

use reference::Entry;

use crate::inputs::{entry, Chance, Model, Shape};

/// How much of what the service asks the supplier's entries have to say.
#[derive(Clone, Copy, Debug, PartialEq, Eq)]
pub enum Needed {
    /// All of it: each entry of the service is an entry of the supplier's, more loosely.
    All,
    /// Every second: between two there is an entry that every item meets.
    Half,
    /// None of it.
    None,
}

impl Needed {
    /// Each.
    pub const ALL: [Needed; 3] = [Needed::All, Needed::Half, Needed::None];

    /// What a row calls it.
    pub fn name(self) -> &'static str {
        match self {
            Needed::All => "all needed",
            Needed::Half => "half needed",
            Needed::None => "none needed",
        }
    }

    /// Whether the entry with this index is one that has to be said.
    fn takes(self, index: usize) -> bool {
        match self {
            Needed::All => true,
            Needed::Half => index % 2 == 0,
            Needed::None => false,
        }
    }
}

/// A supplier's description of so many entries and a service's, which begins with the same chain of 'every' and asks in any order for
/// some of what the supplier's says of its places.
pub fn asked(
    (entries, asked): (usize, usize),
    shape: Shape,
    needed: Needed,
    chance: &mut Chance,
) -> (Vec<Entry>, Vec<Entry>) {
    let model = Model::new(entries, shape, chance);
    let mut d = model.looser(chance);
    d.truncate(asked);
    for (index, e) in d[model.last_place()..].iter_mut().enumerate() {
        if !needed.takes(index) {
            *e = met(*e);
        }
    }
    (model.description(), d)
}

/// The same where the service asks for every second of the supplier's entries in their order: that takes the most trials, three for
/// each two entries.
pub fn alternate(entries: usize, chance: &mut Chance) -> (Vec<Entry>, Vec<Entry>) {
    let c = Model::new(entries, Shape::Wide, chance).description();
    let second = |(index, &e): (usize, &Entry)| match index % 2 {
        0 => e,
        _ => met(e),
    };
    let d = c.iter().enumerate().map(second).collect();
    (c, d)
}

/// An entry of the same place that every item meets.
fn met(e: Entry) -> Entry {
    entry(3, e.owner.into(), e.name, 0)
}
