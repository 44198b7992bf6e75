//! Rounds of the hierarchy.

use goltximen::hierarchy_bytes;
use reference::{decode, encode, Entry};

use super::catalogue::with_one_damaged;
use super::{Background, Found, Rounds};
use crate::agree::{self, Answer, Difference};
use crate::catalogue::{shortened, MOST_SERVICES};
use crate::chance::Chance;
use crate::doubles::double;
use crate::naming::{self, laid, Dictionary};
use crate::{derived, draw, excluding, length_of, BLOCK_ENTRIES, MOST_DESCRIPTION};

impl Rounds {
    pub(super) fn hierarchy(&mut self, list: &[u8], length: usize) -> Result<Answer, Difference> {
        let pairs = self.given.pairs.clone();
        let answer = agree::hierarchy(&mut self.chance, &pairs, list, length)?;
        Ok(self.count("hierarchy", answer))
    }

    /// Lists of services that come of one another, up to 12 and now and then the most and one more, with outputs of lengths around
    /// what is needed.
    ///
    /// # Errors
    ///
    /// The difference.
    pub fn hierarchies(&mut self) -> Found {
        let count = how_many(&mut self.chance);
        let list = laid(&self.ranked_family(count));
        let needed = hierarchy_bytes(count);
        let short = self.chance.below(needed);
        for length in [needed, needed - 1, short, needed + 1, hierarchy_bytes(70)] {
            self.hierarchy(&list, length)?;
        }
        Ok(())
    }

    /// Lists with each slip that a dictionary may have, of which some move the cut; the empty list; one with a service in the
    /// middle that is damaged; a wrong list of pairs.
    ///
    /// # Errors
    ///
    /// The difference.
    pub fn wrong_hierarchies(&mut self) -> Found {
        let count = self.chance.one_of([1, 2, 3, 5, MOST_SERVICES]);
        let all = self.ranked_family(count);
        let right = Dictionary::of(&all);
        let mut lists: Vec<Vec<u8>> = (0..naming::SLIPS)
            .map(|slip| naming::slipped(&mut self.chance, &right, slip))
            .collect();
        lists.extend([Vec::new(), with_one_damaged(&mut self.chance, &all)]);
        let needed = hierarchy_bytes(count);
        for list in lists {
            let length = self
                .chance
                .one_of([0, needed - 1, needed, hierarchy_bytes(70)]);
            self.hierarchy(&list, length)?;
            if self.chance.once_in(4) {
                let right = self.given.pairs.clone();
                self.given.pairs = excluding::wrong(&mut self.chance, &right);
                self.hierarchy(&list, length)?;
                self.given.pairs = right;
            }
        }
        Ok(())
    }

    /// So many services, and pairs drawn for them or none.
    fn ranked_family(&mut self, count: usize) -> Vec<Vec<Entry>> {
        self.dictionary = Dictionary::default();
        let first = self.description();
        self.give_list(&first);
        let all = family(&mut self.chance, &self.given.pairs, first, count);
        let most = self
            .chance
            .one_of([3, BLOCK_ENTRIES, BLOCK_ENTRIES, 2 * BLOCK_ENTRIES]);
        match count > 5 {
            true => shortened(&all, most),
            false => all,
        }
    }
}

/// So many services, each made of one before it: itself again, its normal form, another that means the same, a weaker one, one that
/// misses by an entry, one that nothing fits; or drawn on its own. Those that are made stand in any order.
fn family(chance: &mut Chance, pairs: &[u8], first: Vec<Entry>, count: usize) -> Vec<Vec<Entry>> {
    let dictionary = Dictionary::default();
    let mut all = vec![first];
    while all.len() < count {
        let of = all[chance.below(all.len())].clone();
        let next = match chance.below(9) {
            0 => of,
            1 => normal_form(pairs, &of),
            2 => {
                let background = Background {
                    pairs,
                    dictionary: &dictionary,
                };
                double(chance, background, &of)
            }
            3..=5 => derived::weaker(chance, &of),
            6 => derived::missed(chance, &of),
            7 => vec![reference::notation::entry(6, 0, 0, 0)],
            _ => {
                let shape = draw::shape(chance);
                draw::description(chance, &shape)
            }
        };
        let next = dictionary.within(&next);
        all.insert(chance.below(all.len() + 1), next);
    }
    all
}

/// The entries of the normal form under a list that is accepted, by the library.
fn normal_form(pairs: &[u8], d: &[Entry]) -> Vec<Entry> {
    let under = goltximen::Under {
        pairs,
        dictionary: &[],
    };
    let mut out = vec![0; length_of(MOST_DESCRIPTION)];
    match under.normal_form(&encode(d), &mut out) {
        Ok(entries) => decode(&out[..length_of(entries.into())]),
        Err(_) => d.to_vec(),
    }
}

/// How many services: a few, up to 12, and now and then the most and one more.
fn how_many(chance: &mut Chance) -> usize {
    match chance.below(20) {
        0 => MOST_SERVICES,
        1 => MOST_SERVICES + 1,
        _ => 1 + chance.below(12),
    }
}
