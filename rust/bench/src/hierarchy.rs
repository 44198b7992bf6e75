//! Inputs of the hierarchy.

use reference::{encode, Entry};

use crate::catalogue::MOST_SERVICES;
use crate::inputs::{entry, Chance, Model, Shape};

/// How the services of a list are to each other.
#[derive(Clone, Copy, Debug, PartialEq, Eq)]
pub enum Kinship {
    /// None contains another: each is drawn on its own.
    Different,
    /// All say the same, each in an order of its own.
    Equal,
    /// Each is strictly contained in the next, by one number, and each in an order of its own.
    Chain,
}

impl Kinship {
    pub const ALL: [Kinship; 3] = [Kinship::Different, Kinship::Equal, Kinship::Chain];

    /// The name of a row.
    pub fn name(self) -> &'static str {
        match self {
            Kinship::Different => "all different",
            Kinship::Equal => "all equal",
            Kinship::Chain => "a chain",
        }
    }

    /// Whether service c is contained in service d.
    pub fn contained(self, c: usize, d: usize) -> bool {
        match self {
            Kinship::Different => c == d,
            Kinship::Equal => true,
            Kinship::Chain => c <= d,
        }
    }
}

/// 64 services, all of as many entries.
pub fn services(
    entries: usize,
    shape: Shape,
    kinship: Kinship,
    chance: &mut Chance,
) -> Vec<Vec<u8>> {
    let mut model = Model::new(entries, shape, chance);
    let service = |n: usize| {
        if kinship == Kinship::Different {
            model = Model::new(entries, shape, chance);
        }
        let mut service: Vec<Entry> = model.description();
        if kinship == Kinship::Chain {
            // No other entry has this name.
            let Entry { owner, name, .. } = service.pop().unwrap_or(entry(3, 0, 1, 0));
            service.push(entry(3, owner.into(), name, (MOST_SERVICES - n) as u16));
        }
        model.shuffle(&mut service, chance);
        encode(&service)
    };
    (0..MOST_SERVICES).map(service).collect()
}
