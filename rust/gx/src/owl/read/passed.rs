//! The mistakes of an ontology in one run.

use super::{Found, Mistake, Reader, Sign};
use crate::text::MOST_MISTAKES;

impl Reader<'_> {
    /// What was found, where no mistake was.
    pub(super) fn found(mut self, read: Result<(), Mistake>) -> Result<Found, Vec<Mistake>> {
        let mut all = std::mem::take(&mut self.passed);
        all.extend(read.err());
        if !all.is_empty() {
            all.sort_by_key(|mistake| mistake.at);
            all.dedup_by_key(|mistake| mistake.at);
            all.truncate(MOST_MISTAKES);
            return Err(all);
        }
        Ok(Found {
            words: self.words(),
            entries: self.entries,
            positions: self.positions,
            pairs: self.pairs,
        })
    }

    /// Goes on after an axiom or an expression that begins here and has a mistake; unless its end is not to be found, or there are
    /// enough: a class that names itself twice would have ever more.
    pub(super) fn passing(
        &mut self,
        begin: usize,
        read: Result<(), Mistake>,
    ) -> Result<(), Mistake> {
        let Err(mistake) = read else {
            return Ok(());
        };
        if self.passed.len() == MOST_MISTAKES {
            return Err(mistake);
        }
        self.at = begin;
        if !matches!(self.next().sign, Sign::Open) {
            self.take();
        }
        let ends = match self.next().sign {
            Sign::Open => self.pass_over(),
            Sign::End => return Err(mistake),
            _ => Ok(()),
        };
        if ends.is_err() {
            return Err(mistake);
        }
        self.passed.push(mistake);
        Ok(())
    }
}
