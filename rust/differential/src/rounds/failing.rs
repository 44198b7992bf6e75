//! Rounds of the entries that fail.

use reference::encode;
use reference::notation::entry;

use super::{Found, Rounds};
use crate::agree::{self, Answer, Difference};
use crate::damage::{damaged, Sort};
use crate::derived;
use crate::draw;
use crate::excluding;
use crate::naming::Dictionary;

impl Rounds {
    fn failing(&mut self, c: &[u8], d: &[u8], length: usize) -> Result<Answer, Difference> {
        let pairs = self.given.pairs.clone();
        let answer = agree::failing(&mut self.chance, &pairs, c, d, length)?;
        // Which entry is the lowest plays no part in the tally.
        Ok(self.count("failing", answer))
    }

    /// A description against others: drawn on its own, weaker ones, ones that miss by an entry, and one against which nothing holds but
    /// what is asked below an at most 0; one that nothing fits; with outputs of lengths around what is needed.
    ///
    /// # Errors
    ///
    /// The difference.
    pub fn failings(&mut self) -> Found {
        self.dictionary = Dictionary::default();
        let c = self.description();
        let other = self.description();
        self.give_list(&[&c[..], &other].concat());
        let weaker = derived::weaker(&mut self.chance, &c);
        let missed = derived::missed(&mut self.chance, &weaker);
        let implied = excluding::with_implied_lacks(&mut self.chance, &self.given.pairs, &weaker);
        let mut services = vec![other, weaker, missed, implied, c.clone()];
        services.extend(derived::past_at_most_0(&mut self.chance, &c));
        for d in services {
            let needed = d.len();
            let longer = self.chance.one_of([0, 0, 1, 7, 1009]);
            self.failing(&encode(&c), &encode(&d), needed + longer)?;
            if needed > 0 {
                let short = self.chance.below(needed);
                self.failing(&encode(&c), &encode(&d), short)?;
            }
        }
        let impossible = [&c[..], &[entry(6, 0, 0, 0)]].concat();
        let d = self.description();
        self.failing(&encode(&impossible), &encode(&d), d.len())?;
        Ok(())
    }

    /// Inputs that are damaged, and a wrong list of pairs.
    ///
    /// # Errors
    ///
    /// The difference.
    pub fn wrong_failings(&mut self) -> Found {
        self.dictionary = Dictionary::default();
        let shape = draw::shape(&mut self.chance);
        let (c, d) = (self.shaped(&shape), self.shaped(&shape));
        self.give_list(&c);
        let wrong_c = damaged(&mut self.chance, Sort::Description, &c);
        let wrong_d = damaged(&mut self.chance, Sort::Description, &d);
        let (c, d) = (encode(&c), encode(&d));
        for (c, d) in [(&wrong_c, &d), (&c, &wrong_d), (&wrong_c, &wrong_d)] {
            let length = self.chance.one_of([0, 1, 1008]);
            self.failing(c, d, length)?;
        }
        let right = self.given.pairs.clone();
        self.given.pairs = excluding::wrong(&mut self.chance, &right);
        self.failing(&wrong_c, &wrong_d, 0)?;
        self.given.pairs = right;
        Ok(())
    }
}
