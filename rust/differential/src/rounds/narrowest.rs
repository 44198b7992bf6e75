//! Rounds of the narrowest description of two.

use goltximen::Under;
use reference::{encode, Entry};

use super::{Background, Found, Rounds};
use crate::agree::{self, Answer, Difference};
use crate::damage::{damaged, Sort};
use crate::doubles::double;
use crate::naming;
use crate::{derived, draw, excluding, length_of, MOST_DESCRIPTION};

impl Rounds {
    fn narrowest(&mut self, a: &[u8], b: &[u8], length: usize) -> Result<Answer, Difference> {
        let answer = agree::narrowest(&mut self.chance, self.given.under(), a, b, length)?;
        Ok(self.count("narrowest", answer))
    }

    /// With outputs of lengths around the one that both need, with short ones, and with the longest.
    fn narrowed(&mut self, a: &[Entry], b: &[Entry]) -> Found {
        let (a, b) = (encode(a), encode(b));
        let both = self.needed(&a) + self.needed(&b);
        let other = self.chance.one_of([0, 1, both - 512, both + 1, both + 600]);
        for length in [both, both - 1, other, length_of(MOST_DESCRIPTION)] {
            self.narrowest(&a, &b, length)?;
        }
        Ok(())
    }

    /// A description beside one that asks less, one that misses it by an entry, one that says the same in other entries, and another one.
    /// What contains both contains their narrowest, and what does not contain one does not.
    ///
    /// # Errors
    ///
    /// The difference.
    pub fn narrowings(&mut self) -> Found {
        self.draw_dictionary();
        let (a, b) = (self.description(), self.description());
        self.give_list(&[&a[..], &b].concat());
        let background = Background {
            pairs: &self.given.pairs,
            dictionary: &self.dictionary,
        };
        let chance = &mut self.chance;
        let less = derived::weaker(chance, &a);
        let missed = derived::missed(chance, &less);
        let same = double(chance, background, &a);
        for (a, b) in [(&a, &b), (&a, &less), (&a, &missed), (&a, &same)] {
            self.narrowed(a, b)?;
            let beyond = derived::weaker(&mut self.chance, b);
            self.is_the_narrowest(a, b, &[&less, &missed, &beyond])?;
        }
        Ok(())
    }

    /// Each of these contains the narrowest of the two exactly if it contains both, by comparisons of the library.
    fn is_the_narrowest(&mut self, a: &[Entry], b: &[Entry], others: &[&Vec<Entry>]) -> Found {
        let (a, b) = (encode(a), encode(b));
        let under = self.given.under();
        let mut out = vec![0; length_of(MOST_DESCRIPTION)];
        let Ok(entries) = under.narrowest(&a, &b, &mut out) else {
            return Ok(());
        };
        let result = &out[..length_of(usize::from(entries))];
        for d in others.iter().map(|d| encode(d)) {
            if under.normal_form(&d, &mut [0; 8192]).is_err() {
                continue;
            }
            let both = contains(under, &a, &d) && contains(under, &b, &d);
            if contains(under, result, &d) != both {
                let what = "narrowest: another description contains both and not the result, or the result and not both";
                return Err(agree::found(what, under, &[&reference::decode(&d)]));
            }
        }
        Ok(())
    }

    /// Descriptions of half the limit, which have 16 blocks together, and of the limit, which have more.
    ///
    /// # Errors
    ///
    /// The difference.
    pub fn full_narrowings(&mut self) -> Found {
        self.dictionary = naming::Dictionary::default();
        let shape = draw::full_shape(&mut self.chance);
        let (a, b) = (self.shaped(&shape), self.shaped(&shape));
        self.give_list(&[&a[..], &b].concat());
        let half = |d: &[Entry]| d[..d.len().min(MOST_DESCRIPTION / 2)].to_vec();
        let less = derived::weaker(&mut self.chance, &half(&a));
        self.narrowed(&half(&a), &half(&b))?;
        self.narrowed(&half(&a), &half(&less))?;
        self.narrowed(&a, &b)
    }

    /// Damaged bytes as either input and as both, lists of pairs and dictionaries that are refused, with outputs that are long enough and too
    /// short.
    ///
    /// # Errors
    ///
    /// The difference.
    pub fn wrong_narrowings(&mut self) -> Found {
        self.draw_dictionary();
        let (a, b) = (self.description(), self.description());
        self.give_list(&[&a[..], &b].concat());
        let chance = &mut self.chance;
        let bad = [&a, &b].map(|entries| damaged(chance, Sort::Description, entries));
        let right = [encode(&a), encode(&b)];
        let ([a, b], [bad_a, bad_b]) = (&right, &bad);
        for (a, b) in [(bad_a, b), (a, bad_b), (bad_a, bad_b)] {
            let length = self.chance.one_of([0, 1, 8192]);
            self.narrowest(a, b, length)?;
        }
        let right_pairs = self.given.pairs.clone();
        let slip = self.chance.below(naming::SLIPS);
        let slipped = naming::slipped(&mut self.chance, &self.dictionary, slip);
        for (a, b) in [(a, b), (bad_a, bad_b)] {
            let length = self.chance.one_of([0, 8192]);
            self.given.pairs = excluding::wrong(&mut self.chance, &right_pairs);
            self.narrowest(a, b, length)?;
            let dictionary = std::mem::replace(&mut self.given.dictionary, slipped.clone());
            self.narrowest(a, b, length)?;
            self.given.pairs = right_pairs.clone();
            self.narrowest(a, b, length)?;
            self.given.dictionary = dictionary;
        }
        Ok(())
    }
}

/// Whether the first is contained in the second, by the library.
fn contains(under: Under, c: &[u8], d: &[u8]) -> bool {
    let mut out = vec![0; 2 * length_of(MOST_DESCRIPTION)];
    under.compare(c, d, &mut out) == Ok(goltximen::Comparison::Contained)
}
