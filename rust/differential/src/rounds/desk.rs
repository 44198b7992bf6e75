//! Rounds of the drafting desk.

use goltximen::DESK_BYTES;
use reference::{Call, Entry};

use super::{Found, Rounds};
use crate::agree::{self, Difference, Drafting};
use crate::chance::Chance;
use crate::{draw, length_of, MOST_DESCRIPTION};

/// The numbers of stands that calls name: more than there is room for, 0 and the largest among them.
const NUMBERS: [u16; 7] = [0, 1, 2, 3, 4, 300, 65_535];

impl Rounds {
    /// A list of calls, right and wrong, from the empty desk, and at times from one that is nearly full.
    ///
    /// # Errors
    ///
    /// The difference.
    pub fn desks(&mut self) -> Found {
        let (mut desk, draft) = self.begun()?;
        let mut next = draft.into_iter();
        for _ in 0..60 {
            let call = drawn(&mut self.chance, &mut next, desk.entries());
            self.draft(&mut desk, call)?;
        }
        Ok(())
    }

    /// The bytes of a desk, damaged: its counters, its entries, what stands behind them, and its length.
    ///
    /// # Errors
    ///
    /// The difference.
    pub fn damaged_desks(&mut self) -> Found {
        let (mut desk, draft) = self.begun()?;
        let mut next = draft.into_iter();
        for _ in 0..30 {
            let call = drawn(&mut self.chance, &mut next, desk.entries());
            self.draft(&mut desk, call)?;
        }
        for _ in 0..20 {
            let mut bytes = desk.ours.bytes().to_vec();
            damage(&mut self.chance, &mut bytes);
            let answer = agree::desk_bytes(&bytes)?;
            self.count("desk, damaged", answer);
        }
        Ok(())
    }

    /// A desk, and entries to be added. Now and then the desk is full but for a few entries.
    fn begun(&mut self) -> Result<(Drafting, Vec<Entry>), Difference> {
        let past = self.chance.below(20);
        let mut desk = Drafting::with_past(&self.chance.noise(past));
        let mut shape = draw::shape(&mut self.chance);
        if self.chance.once_in(8) {
            shape.entries = MOST_DESCRIPTION;
        }
        let mut draft = draw::description(&mut self.chance, &shape);
        let rest = draft.split_off(draft.len().min(MOST_DESCRIPTION - 20));
        if !rest.is_empty() {
            desk.add_all(&draft)?;
            return Ok((desk, rest));
        }
        Ok((desk, draft))
    }

    fn draft(&mut self, desk: &mut Drafting, call: Call) -> Found {
        let answer = desk.call(call)?;
        let name = match call {
            Call::Add(_) => "desk, add",
            Call::TakeOff => "desk, take off",
            Call::Name(_) => "desk, name",
            Call::GoBack(_) => "desk, go back",
            Call::Drop(_) => "desk, drop",
            Call::Write(_) => "desk, write",
        };
        self.count(name, answer);
        Ok(())
    }
}

/// A call: mostly the next entry, when there is one; at times one that is wrong there, and any number of a stand.
fn drawn(chance: &mut Chance, next: &mut impl Iterator<Item = Entry>, entries: usize) -> Call {
    let stand = chance.one_of(NUMBERS);
    match chance.below(20) {
        0..=8 => next.next().map_or(Call::TakeOff, Call::Add),
        9 => Call::Add(wrong(chance, entries)),
        10..=11 => Call::TakeOff,
        12..=14 => Call::Name(stand),
        15..=16 => Call::GoBack(stand),
        17 => Call::Drop(stand),
        _ => {
            let needed = length_of(entries);
            Call::Write(chance.one_of([needed, needed, needed - 1, needed + 1, 0]))
        }
    }
}

/// An entry that is wrong in a field, or happens to be right.
fn wrong(chance: &mut Chance, entries: usize) -> Entry {
    let owner = chance.one_of([0, 0, 1, entries, entries + 1, 65_535]);
    Entry {
        kind: chance.one_of([0, 1, 2, 3, 4, 5, 5, 6, 7, 8, 9, 255]),
        zero: chance.one_of([0, 0, 0, 0, 1, 128]),
        owner: (owner & 0xffff) as u16,
        name: chance.one_of([0, 1, 7, 65_535]),
        number: chance.one_of([0, 0, 1, 65_535]),
    }
}

/// A fault or several: a counter at its border, a word anywhere in the counters, a byte of an entry, a byte behind the entries, the length.
fn damage(chance: &mut Chance, bytes: &mut Vec<u8>) {
    for _ in 0..=chance.below(2) {
        match chance.below(6) {
            0..=1 => {
                let at = 2 * chance.below(10);
                let border = [0, 1, 2, 3, 4, 5, 1007, 1008, 1009, 65_535];
                let value: u16 = chance.one_of(border);
                bytes[at..at + 2].copy_from_slice(&value.to_le_bytes());
            }
            2 => bytes[chance.below(20)] = (chance.below(256)) as u8,
            3 => {
                // An entry near the front of an area.
                let at = 20 + 8064 * chance.below(5) + chance.below(200);
                bytes[at] = chance.below(10) as u8;
            }
            4 => {
                let at = 20 + chance.below(DESK_BYTES - 20);
                bytes[at] = chance.below(256) as u8;
            }
            _ => {
                if chance.once_in(3) {
                    let length = chance.one_of([DESK_BYTES - 1, DESK_BYTES, 0, 19, 20, 21]);
                    bytes.resize(length, 0);
                    return;
                }
            }
        }
    }
}
