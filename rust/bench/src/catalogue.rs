//! Inputs of the catalogue.

use reference::{encode, Entry};

use crate::inputs::{with_middle, Chance, Model, Shape};

/// The most services of a list.
pub const MOST_SERVICES: usize = 64;

/// A supplier's description and 64 services, all of as many entries.
pub struct Case {
    pub supplier: Vec<u8>,
    pub services: Vec<Vec<u8>>,
}

impl Case {
    /// Services that contain the supplier's description, each in an order of its own. Where a name is given, each asks in the middle
    /// for this property, which no model has.
    pub fn new(entries: usize, shape: Shape, strange: Option<u16>, chance: &mut Chance) -> Case {
        let model = Model::new(entries, shape, chance);
        let service = |_| {
            let looser = model.looser(chance);
            let service: Vec<Entry> = match strange {
                Some(name) => with_middle(1, name, &looser),
                None => looser,
            };
            encode(&service)
        };
        Case {
            services: (0..MOST_SERVICES).map(service).collect(),
            supplier: encode(&model.description()),
        }
    }

    /// The services laid end to end.
    pub fn list(&self) -> Vec<u8> {
        self.services.concat()
    }
}
