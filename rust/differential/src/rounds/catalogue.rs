//! Rounds of the catalogue.

use reference::encode;

use super::{Found, Rounds};
use crate::agree::{self, Answer, Difference};
use crate::catalogue::{services, shortened, MOST_SERVICES};
use crate::chance::Chance;
use crate::damage::{damaged, Sort};
use crate::naming::{self, laid, Dictionary};
use crate::BLOCK_ENTRIES;

impl Rounds {
    pub(super) fn catalogue(
        &mut self,
        c: &[u8],
        list: &[u8],
        length: usize,
    ) -> Result<Answer, Difference> {
        let answer = agree::catalogue(&mut self.chance, self.given.under(), c, list, length)?;
        Ok(self.count("catalogue", answer))
    }

    /// A description against lists of services drawn for it, with outputs of lengths around the number of services.
    ///
    /// # Errors
    ///
    /// The difference.
    pub fn catalogues(&mut self) -> Found {
        self.draw_dictionary();
        let c = self.description();
        let count = how_many(&mut self.chance);
        let all = services(&mut self.chance, &self.dictionary, &c, count);
        let all = match count > 5 {
            true => shortened(&all, BLOCK_ENTRIES),
            false => all,
        };
        self.give_list(&[&c[..], &all.concat()].concat());
        let (c, list) = (encode(&c), laid(&all));
        for length in [count, count - 1, 0, count + 1, 2 * MOST_SERVICES] {
            self.catalogue(&c, &list, length)?;
        }
        Ok(())
    }

    /// Lists with each slip that a dictionary may have, of which some move the cut; the empty list; one with a service in the
    /// middle that is damaged. The supplier is accepted or damaged too.
    ///
    /// # Errors
    ///
    /// The difference.
    pub fn wrong_lists_of_services(&mut self) -> Found {
        self.draw_dictionary();
        let c = self.description();
        let count = self.chance.one_of([1, 2, 3, 5, MOST_SERVICES]);
        let all = services(&mut self.chance, &self.dictionary, &c, count);
        let all = shortened(
            &all,
            self.chance.one_of([3, BLOCK_ENTRIES, 2 * BLOCK_ENTRIES]),
        );
        self.give_list(&[&c[..], &all.concat()].concat());
        let bad_c = damaged(&mut self.chance, Sort::Description, &c);
        let (c, right) = (encode(&c), Dictionary::of(&all));
        let slips = 0..naming::SLIPS;
        let mut lists: Vec<Vec<u8>> = slips
            .map(|slip| naming::slipped(&mut self.chance, &right, slip))
            .collect();
        lists.extend([Vec::new(), with_one_damaged(&mut self.chance, &all)]);
        for list in lists {
            let length = self.chance.one_of([0, count - 1, count, 2 * MOST_SERVICES]);
            self.catalogue(&c, &list, length)?;
            if self.chance.once_in(4) {
                self.catalogue(&bad_c, &list, length)?;
            }
        }
        Ok(())
    }
}

/// How many services: one, a few, the most and around it.
fn how_many(chance: &mut Chance) -> usize {
    chance.one_of([
        1,
        1,
        2,
        2,
        3,
        5,
        5,
        MOST_SERVICES - 1,
        MOST_SERVICES,
        MOST_SERVICES + 1,
    ])
}

/// The list with one service damaged, and those after it as they are.
pub(super) fn with_one_damaged(chance: &mut Chance, all: &[Vec<reference::Entry>]) -> Vec<u8> {
    let at = chance.below(all.len());
    let bad = damaged(chance, Sort::Description, &all[at]);
    [laid(&all[..at]), bad, laid(&all[at + 1..])].concat()
}
