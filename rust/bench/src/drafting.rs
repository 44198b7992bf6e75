//! Desks on which the calls are timed.

use reference::Entry;

use crate::inputs::{Chance, Model, Shape};
use crate::plain::desk;

/// The number of the first stand of four.
pub const FIRST_STAND: u16 = 7;

/// The 8 bytes of an entry, as one number.
pub fn number_of(entry: &Entry) -> u64 {
    u64::from(entry.kind)
        | u64::from(entry.zero) << 8
        | u64::from(entry.owner) << 16
        | u64::from(entry.name) << 32
        | u64::from(entry.number) << 48
}

/// A desk with so many entries, and four stands that have as many, each another description.
pub fn full_desk(entries: usize, shape: Shape, chance: &mut Chance) -> Vec<u8> {
    let mut bytes = vec![0; desk::DESK_BYTES];
    for stand in 0..5 {
        while desk::take_off(&mut bytes).is_ok() {}
        for entry in Model::new(entries, shape, chance).description() {
            desk::add(&mut bytes, number_of(&entry)).expect("an entry that is right");
        }
        if stand < 4 {
            desk::name(&mut bytes, FIRST_STAND + stand).expect("a stand that there is room for");
        }
    }
    bytes
}
