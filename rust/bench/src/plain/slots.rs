//! What a description says, by place, class and name.
//!
//! A slot holds what one place says of one property or one link: at least and at most how many. Has is at least 1, lacks is at
//! most 0. The place below a link has the number of the link's slot; the top place is 0. At most 1 or more of a link that leads to
//! one item only says nothing: once settled it is no bound.

use super::entry::{Entry, AT_LEAST, AT_MOST, HAS, LACKS, NOTHING};
use super::pairs::Pairs;
use super::single::FIRST_SINGLE;

/// No bound from above: more than any number of items.
pub const NO_BOUND: u32 = u32::MAX;

/// The cells of the hash table for each entry.
const SPARE: usize = 4;

/// Marks of a place: nothing can fit it; it says something.
pub const BROKEN: u8 = 1;
pub const SAYS: u8 = 2;

/// A slot's place, class and name in one number.
#[derive(Clone, Copy, Default, PartialEq, Eq)]
pub struct Key(u32);

impl Key {
    /// Of a property of no name, which no entry has.
    pub const NONE: Key = Key(0);

    /// The key for what an entry of this kind, not 6, says at a place.
    #[inline]
    pub fn of_kind(place: usize, kind: u16, name: u16) -> Key {
        let class = u32::from(kind >= AT_LEAST);
        Key((place as u32) << 17 | class << 16 | u32::from(name))
    }

    #[inline]
    pub fn link(place: usize, name: u16) -> Key {
        Key::of_kind(place, AT_LEAST, name)
    }

    /// The same class and name at another place.
    #[inline]
    pub fn at(self, place: usize) -> Key {
        Key((place as u32) << 17 | self.class_and_name())
    }

    #[inline]
    pub fn place(self) -> usize {
        (self.0 >> 17) as usize
    }

    #[inline]
    pub fn class_and_name(self) -> u32 {
        self.0 & 0x1_ffff
    }

    #[inline]
    pub fn name(self) -> u16 {
        self.0 as u16
    }

    #[inline]
    pub fn is_property(self) -> bool {
        self.0 & 1 << 16 == 0
    }

    /// The most items that there can be: one by a link that leads to one item only.
    #[inline]
    fn cap(self) -> u32 {
        let single = 1 << 16 | u32::from(FIRST_SINGLE);
        1 | all_if(self.0 & single != single)
    }
}

#[derive(Clone, Copy, Default)]
pub struct Slot {
    pub key: Key,
    pub least: u32,
    pub most: u32,
}

impl Slot {
    /// A slot that says nothing.
    #[inline]
    fn silent(key: Key) -> Slot {
        Slot {
            key,
            least: 0,
            most: NO_BOUND,
        }
    }
}

/// The slots of a description of fewer than N entries; N is a power of two.
pub struct Slots<const N: usize> {
    /// Slots by the hash of their keys, four cells for each entry; 0 is free.
    cells: [[u16; SPARE]; N],
    /// Slots count from 1. Slot 0 says nothing and stands for those that aren't there.
    pub slots: [Slot; N],
    /// The number of slots.
    pub used: usize,
    /// For each entry its slot, which is the place that an 'every' entry owns.
    places: [u16; N],
    /// The marks of each place.
    pub marks: [u8; N],
}

impl<const N: usize> Slots<N> {
    #[inline]
    pub fn new() -> Slots<N> {
        let mut slots = [Slot::default(); N];
        slots[0] = Slot::silent(Key::default());
        Slots {
            cells: [[0; SPARE]; N],
            slots,
            used: 0,
            places: [0; N],
            marks: [0; N],
        }
    }

    /// The slot of a key, or 0, and the cell where it stands or would stand.
    #[inline]
    fn cell(&self, key: Key) -> (usize, usize) {
        let cells = self.cells.as_flattened();
        let bits = (SPARE * N).trailing_zeros();
        let mut cell = (key.0.wrapping_mul(0x9e37_79b1) >> (32 - bits)) as usize;
        loop {
            let slot = usize::from(cells[cell]);
            if slot == 0 || self.slots[slot].key == key {
                return (slot, cell);
            }
            cell = (cell + 1) % (SPARE * N);
        }
    }

    /// The slot of a key, or 0.
    #[inline]
    pub fn find(&self, key: Key) -> usize {
        self.cell(key).0
    }

    /// The slot of a key, made where there is none.
    #[inline]
    pub fn find_or_make(&mut self, key: Key) -> usize {
        let (slot, cell) = self.cell(key);
        if slot != 0 {
            return slot;
        }
        self.used += 1;
        self.cells.as_flattened_mut()[cell] = self.used as u16;
        self.slots[self.used] = Slot::silent(key);
        self.used
    }

    /// Adds a slot that is not looked for by its key.
    #[inline]
    pub fn push(&mut self, key: Key, least: u32, most: u32) {
        self.used += 1;
        self.slots[self.used] = Slot { key, least, most };
    }

    /// Takes in an entry.
    #[inline]
    pub fn enter(&mut self, number: usize, entry: Entry) {
        let place = usize::from(self.places[entry.owner()]);
        let kind = entry.kind();
        if kind == NOTHING {
            self.marks[place] |= BROKEN;
            return;
        }
        let slot = self.find_or_make(Key::of_kind(place, kind, entry.name()));
        self.places[number] = slot as u16;
        let (least, most) = bounds(entry);
        let held = &mut self.slots[slot];
        held.least = held.least.max(least);
        held.most = held.most.min(most);
    }

    /// The slot of an entry that was taken in, 0 for one of kind 6.
    #[inline]
    pub fn slot_of(&self, number: usize) -> usize {
        usize::from(self.places[number])
    }

    /// Whether a place has a property.
    #[inline]
    pub fn has(&self, place: usize, property: u16) -> bool {
        self.slots[self.find(Key::of_kind(place, HAS, property))].least > 0
    }

    /// Where a place has a property that excludes another, has the other gets at most 0, so that nothing fits, and lacks the other
    /// says nothing more. What a place has stays, so no slot's turn matters to another's.
    pub fn restrict(&mut self, pairs: &Pairs) {
        for number in 1..=self.used {
            let key = self.slots[number].key;
            if key.is_property() && pairs.excluded(self, key.place(), key.name()) {
                let slot = &mut self.slots[number];
                slot.most = all_if(slot.least == 0);
            }
        }
    }

    /// From the last slot to the first: a link to a place that nothing fits gets at most 0, and places are marked. Nothing fits
    /// a place that asks for more items than there can be.
    pub fn settle(&mut self) {
        for number in (1..=self.used).rev() {
            let below = self.marks[number];
            let slot = &mut self.slots[number];
            if below & BROKEN != 0 {
                slot.most = 0;
            }
            let cap = slot.key.cap();
            let broken = u8::from(slot.least > slot.most.min(cap)) * BROKEN;
            slot.most |= all_if(slot.most >= cap);
            let says = u8::from((slot.least > 0) | (slot.most < NO_BOUND)) * SAYS;
            self.marks[slot.key.place()] |= broken | says | below & SAYS;
        }
    }

    /// Whether nothing fits the top, once settled.
    pub fn is_broken(&self) -> bool {
        self.marks[0] & BROKEN != 0
    }
}

/// The least and the most that an entry asks for; kind 6 asks for more than there can be. There are no branches, since the
/// kinds of entries come in no order that a processor could foresee.
#[inline]
pub fn bounds(entry: Entry) -> (u32, u32) {
    let number = u32::from(entry.number());
    let kind = entry.kind();
    let has = u32::from(kind == HAS);
    let least = has | number & all_if(kind == AT_LEAST) | all_if(kind == NOTHING);
    // The number of 'lacks' is 0, and so is the most that it asks for.
    let most = number | all_if((kind != LACKS) & (kind != AT_MOST));
    (least, most)
}

/// All bits where the condition holds, otherwise none.
#[inline]
fn all_if(condition: bool) -> u32 {
    0u32.wrapping_sub(u32::from(condition))
}
