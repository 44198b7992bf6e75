//! Rounds of the entries that earn a yes.

use reference::notation::entry;
use reference::{encode, Entry};

use super::{Background, Found, Rounds};
use crate::agree::{self, Answer, Difference};
use crate::damage::{damaged, Sort};
use crate::doubles::double;
use crate::naming::Dictionary;
use crate::{derived, draw, excluding};

impl Rounds {
    fn earning(&mut self, c: &[u8], d: &[u8], length: usize) -> Result<Answer, Difference> {
        let pairs = self.given.pairs.clone();
        let answer = agree::earning(&mut self.chance, &pairs, c, d, length)?;
        Ok(self.count("earning", answer))
    }

    /// With an output of the length that is needed or a longer one, and with shorter ones.
    fn earned(&mut self, c: &[Entry], d: &[Entry]) -> Found {
        let (bytes, d) = (encode(c), encode(d));
        let longer = self.chance.one_of([0, 0, 1, 600]);
        self.earning(&bytes, &d, c.len() + longer)?;
        if let Some(border) = c.len().checked_sub(1) {
            let short = self.chance.below(c.len());
            self.earning(&bytes, &d, border)?;
            self.earning(&bytes, &d, short)?;
        }
        Ok(())
    }

    /// A description, and one that says the same in other entries, against what asks less than it, against what misses it by an entry and
    /// against another one, with outputs of lengths around the number of entries.
    ///
    /// # Errors
    ///
    /// The difference.
    pub fn earnings(&mut self) -> Found {
        let (c, other) = self.two_plain();
        let (chance, pairs) = (&mut self.chance, &self.given.pairs);
        let less = derived::weaker(chance, &c);
        let implied = excluding::with_implied_lacks(chance, pairs, &less);
        let missed = derived::missed(chance, &less);
        let few = few_of(chance.below(4), &derived::reordered(chance, &less));
        let past = derived::past_at_most_0(chance, &c);
        let same = double(
            chance,
            Background {
                pairs,
                dictionary: &Dictionary::default(),
            },
            &c,
        );
        for d in [&less, &implied, &few, &missed, &other] {
            self.earned(&c, d)?;
        }
        self.earned(&same, &less)?;
        past.map_or(Ok(()), |past| self.earned(&c, &past))
    }

    /// A description at the limit against what asks less than it.
    ///
    /// # Errors
    ///
    /// The difference.
    pub fn full_earnings(&mut self) -> Found {
        self.dictionary = Dictionary::default();
        let shape = draw::full_shape(&mut self.chance);
        let c = self.shaped(&shape);
        self.give_list(&c);
        let less = derived::weaker(&mut self.chance, &c);
        let few = few_of(3, &less);
        self.earned(&c, &less)?;
        self.earned(&c, &few)
    }

    /// Damaged bytes as either input and as both, an entry of kind 9 in either, and lists of pairs that are refused, with outputs that are
    /// long enough and too short.
    ///
    /// # Errors
    ///
    /// The difference.
    pub fn wrong_earnings(&mut self) -> Found {
        let (mut c, d) = self.two_plain();
        c.truncate(90);
        let chance = &mut self.chance;
        let bad = [&c, &d].map(|entries| damaged(chance, Sort::Description, entries));
        let named = |entries: &[Entry]| encode(&[entries, &[entry(9, 0, 1, 0)]].concat());
        let named = [named(&c), named(&few_of(2, &d))];
        let right = [encode(&c), encode(&d)];
        let [c, d] = &right;
        let inputs = [
            (&bad[0], d),
            (c, &bad[1]),
            (&bad[0], &bad[1]),
            (&named[0], d),
            (c, &named[1]),
            (&named[0], &bad[1]),
        ];
        for (c, d) in inputs {
            let length = self.chance.one_of([0, 1, 1008]);
            self.earning(c, d, length)?;
        }
        self.given.pairs = excluding::wrong(&mut self.chance, &self.given.pairs.clone());
        for (c, d) in [(c, d), (&bad[0], &bad[1]), (&named[0], d)] {
            let length = self.chance.one_of([0, 1008]);
            self.earning(c, d, length)?;
        }
        Ok(())
    }

    /// Two descriptions without names, and a list drawn for them or none.
    fn two_plain(&mut self) -> (Vec<Entry>, Vec<Entry>) {
        self.dictionary = Dictionary::default();
        let (c, d) = (self.description(), self.description());
        self.give_list(&[&c[..], &d].concat());
        (c, d)
    }
}

/// The first so many entries.
fn few_of(count: usize, entries: &[Entry]) -> Vec<Entry> {
    entries[..count.min(entries.len())].to_vec()
}
