//! Rounds of the shorter stored form.

use goltximen::stored_bytes;
use reference::{encode, Entry};

use super::{Found, Rounds, With};
use crate::agree;
use crate::damage::{damaged, seal, Sort};
use crate::naming::Dictionary;
use crate::{length_of, BLOCK, MOST_DESCRIPTION};

/// Bytes of a stored entry, and how many a block has room for.
const WIDTH: usize = 6;
const ROOM: usize = 84;

impl Rounds {
    fn stored(&mut self, d: &[u8], length: usize) -> Found {
        let answer = agree::to_stored(&mut self.chance, d, length)?;
        self.tally.add("to stored", With::default(), answer);
        Ok(())
    }

    fn restored(&mut self, s: &[u8], length: usize) -> Found {
        let answer = agree::from_stored(&mut self.chance, s, length)?;
        self.tally.add("from stored", With::default(), answer);
        Ok(())
    }

    fn plainly(&mut self) -> Vec<Entry> {
        self.dictionary = Dictionary::default();
        self.description()
    }

    /// Drawn descriptions, both ways, with outputs of lengths around what is needed.
    ///
    /// # Errors
    ///
    /// The difference.
    pub fn stores(&mut self) -> Found {
        let d = self.plainly();
        let (old, new) = (encode(&d), stored_of(&d));
        for longer in [0, 1, 513] {
            self.stored(&old, new.len() + longer)?;
            self.restored(&new, old.len() + longer)?;
        }
        let (short, none) = (self.chance.below(new.len()), self.chance.below(old.len()));
        self.stored(&old, short)?;
        self.restored(&new, none)?;
        self.stored(&old, new.len() - 1)?;
        self.restored(&new, old.len() - 1)
    }

    /// Damaged descriptions; the one form taken for the other; stored inputs with damaged entries, counts, zeros and checks, with
    /// entries exchanged, and cut short or lengthened.
    ///
    /// # Errors
    ///
    /// The difference.
    pub fn wrong_stores(&mut self) -> Found {
        let d = self.plainly();
        let wrong = damaged(&mut self.chance, Sort::Description, &d);
        self.stored(&wrong, stored_bytes(MOST_DESCRIPTION))?;
        let most = length_of(MOST_DESCRIPTION);
        self.restored(&encode(&d), most)?;
        let right = stored_of(&d);
        for _ in 0..8 {
            let mut s = right.clone();
            for _ in 0..=self.chance.below(3) {
                self.damage_stored(&mut s, d.len());
            }
            self.restored(&s, most)?;
        }
        Ok(())
    }

    /// One fault in a stored input of so many entries.
    fn damage_stored(&mut self, s: &mut Vec<u8>, entries: usize) {
        // One that is cut short stays as it is.
        if s.is_empty() || !s.len().is_multiple_of(BLOCK) {
            return;
        }
        let block = self.chance.below(s.len() / BLOCK) * BLOCK;
        let fault = self.chance.below(16);
        if fault < 10 && entries > 0 {
            let at = place_of(1 + self.chance.below(entries));
            if at + WIDTH > s.len() {
                return;
            }
            match fault {
                0..=4 => s[at + 1] = self.chance.one_of([0, 1, 2, 3, 31, 32, 33, 34, 255]),
                5..=6 => s[at] = self.chance.one_of([0, 1, 3, 5, 5, 6, 7, 9]),
                7 => s[at + 2 + self.chance.below(4)] ^= 1,
                8 => s[at + 1] = s[at + 1].wrapping_add(1),
                _ => s[at + 1] = s[at + 1].wrapping_sub(1),
            }
            let start = at / BLOCK * BLOCK;
            seal(&mut s[start..start + BLOCK]);
            return;
        }
        match fault {
            10 => s[block + self.chance.below(4)] ^= 1,
            11 => s[block + 4 + self.chance.below(504)] ^= 4,
            12 => s[block + 508 + self.chance.below(4)] ^= 1,
            13 => {
                let length = self.chance.below(s.len());
                s.truncate(length);
                return;
            }
            14 => {
                s.extend_from_within(block..block + BLOCK);
                return;
            }
            _ => {
                let used = usize::from(s[block + 2]).clamp(2, ROOM);
                let (one, other) = (self.chance.below(used), self.chance.below(used));
                for byte in 0..WIDTH {
                    s.swap(
                        block + 4 + WIDTH * one + byte,
                        block + 4 + WIDTH * other + byte,
                    );
                }
                return;
            }
        }
        if fault < 12 {
            seal(&mut s[block..block + BLOCK]);
        }
    }
}

/// Where the stored entry with this number begins.
fn place_of(number: usize) -> usize {
    BLOCK * ((number - 1) / ROOM) + 4 + WIDTH * ((number - 1) % ROOM)
}

/// An accepted description in the stored form, by the reference.
fn stored_of(d: &[Entry]) -> Vec<u8> {
    let mut out = vec![0; stored_bytes(d.len())];
    let written = reference::to_stored(&encode(d), &mut out);
    assert_eq!(written, Ok(d.len()));
    out
}
