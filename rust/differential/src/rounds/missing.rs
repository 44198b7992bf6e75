//! Rounds of what a description lacks.

use reference::notation::entry;
use reference::{encode, Entry};

use super::{Found, Rounds};
use crate::agree::{self, Answer, Difference};
use crate::damage::{damaged, Sort};
use crate::derived;
use crate::draw;
use crate::naming::Dictionary;
use crate::{excluding, BLOCK, BLOCK_ENTRIES, MOST_DESCRIPTION};

impl Rounds {
    fn missing(&mut self, c: &[u8], d: &[u8], length: usize) -> Result<Answer, Difference> {
        let pairs = self.given.pairs.clone();
        let answer = agree::missing(&mut self.chance, &pairs, c, d, length)?;
        Ok(self.count("missing", answer))
    }

    fn missing_entries(&mut self, c: &[Entry], d: &[Entry]) -> Result<Answer, Difference> {
        let longer = self.chance.one_of([0, 0, 1, 513]);
        self.missing(&encode(c), &encode(d), d.len() + longer)
    }

    /// What a description lacks for others, and the others for it: one drawn on its own, a weaker one, one that misses by an entry;
    /// with no more entries than a reference that tries each can do.
    ///
    /// # Errors
    ///
    /// The difference.
    pub fn lacks(&mut self) -> Found {
        let (c, d) = (self.few(), self.few());
        self.give_list(&[&c[..], &d].concat());
        let weaker = derived::weaker(&mut self.chance, &c);
        let missed = derived::missed(&mut self.chance, &weaker);
        for other in [d, missed, weaker] {
            self.missing_entries(&c, &other)?;
            self.missing_entries(&other, &c)?;
        }
        Ok(())
    }

    /// Outputs around the length that is needed; inputs of 16 blocks together and of more; damaged inputs and a wrong list.
    ///
    /// # Errors
    ///
    /// The difference.
    pub fn wrong_lacks(&mut self) -> Found {
        let (c, d) = (self.few(), self.few());
        self.give_list(&[&c[..], &d].concat());
        let (first, second) = (encode(&c), encode(&d));
        for length in [0, d.len().saturating_sub(1), d.len(), d.len() + 1] {
            self.missing(&first, &second, length)?;
        }
        // As many entries as input 1 leaves of 16 blocks, with an output that is too short, and one more. All are met by every item.
        let left = MOST_DESCRIPTION / BLOCK_ENTRIES - first.len() / BLOCK;
        for entries in [left * BLOCK_ENTRIES, left * BLOCK_ENTRIES + 1] {
            let met = encode(&vec![entry(3, 0, 1, 0); entries]);
            self.missing(&first, &met, entries - 1)?;
            self.missing(&met, &first, d.len().min(1))?;
        }
        let right = self.given.pairs.clone();
        for part in 0..3 {
            let (mut first, mut second) = (first.clone(), second.clone());
            let chance = &mut self.chance;
            match part {
                0 => first = damaged(chance, Sort::Description, &c),
                1 => second = damaged(chance, Sort::Description, &d),
                _ => self.given.pairs = excluding::wrong(chance, &right),
            }
            self.missing(&first, &second, 2 * MOST_DESCRIPTION)?;
            self.missing(&second, &first, 0)?;
        }
        self.given.pairs = right;
        Ok(())
    }

    /// A description of at most 40 entries, with no names.
    fn few(&mut self) -> Vec<Entry> {
        self.dictionary = Dictionary::default();
        let mut shape = draw::shape(&mut self.chance);
        shape.entries = shape.entries.min(40);
        draw::description(&mut self.chance, &shape)
    }
}
