//! Delivered records: which of their items fit a description.

use crate::{ffi, packed, Refusal, Under};

/// The most items of a delivered record.
pub const MOST_ITEMS: usize = 256;

impl Under<'_> {
    /// Judges each of the `total` items of a delivered record, input 1, by a description, input 2, fills one byte of the output for
    /// each, 1 where it fits and 0 where it does not, and returns the number of items. Later bytes of the output stay.
    ///
    /// A delivered record is no specimen: its items are numbered 1 to `total`, they may be shared, and links may go round. It has 1
    /// to 32 blocks of entries of two kinds. Kind 1, with number 0, gives its owner, an item, the property of its name; kind 8 links
    /// its owner by the link of its name to the item of its number. What is said twice counts once, and items of which nothing is
    /// said are there too.
    ///
    /// # Errors
    ///
    /// The refusal of the list of pairs and of the dictionary, the first that applies. Then
    /// [`Reason::Item`](crate::Reason::Item) at place 0, where the total is 0 or above [`MOST_ITEMS`], and the record's; then the
    /// description's. Then [`Reason::Output`](crate::Reason::Output) where the output has fewer bytes than there are items. The
    /// output is then unchanged.
    pub fn fit_all_into(
        &self,
        total: usize,
        record: &[u8],
        description: &[u8],
        out: &mut [u8],
    ) -> Result<usize, Refusal> {
        let filled = ffi::fit_all(self.pairs, self.dictionary, total, record, description, out);
        packed::count(filled).map(usize::from)
    }

    /// The same with an answer for each item, which it allocates.
    ///
    /// ```
    /// use goltximen::{Reason, Refusal, Under};
    ///
    /// // Item 1 is linked by link 3 to item 2, which has property 7.
    /// let mut record = [0u8; 512];
    /// for (at, byte) in [(0, 1), (2, 2), (4, 8), (6, 1), (8, 3), (10, 2), (12, 1), (14, 2), (16, 7)] {
    ///     record[at] = byte;
    /// }
    /// (record[508], record[510]) = (146, 173);
    ///
    /// // "At least 1 by link 3".
    /// let mut description = [0u8; 512];
    /// for (at, byte) in [(0, 1), (2, 1), (4, 3), (8, 3), (10, 1)] {
    ///     description[at] = byte;
    /// }
    /// (description[508], description[510]) = (33, 42);
    ///
    /// // A third item is there, of which nothing is said.
    /// let under = Under::default();
    /// assert_eq!(under.fit_all(3, &record, &description), Ok(vec![true, false, false]));
    ///
    /// // There is no item 2.
    /// let refusal = Refusal { reason: Reason::Item, input: 1, place: 1 };
    /// assert_eq!(under.fit_all(1, &record, &description), Err(refusal));
    /// ```
    ///
    /// # Errors
    ///
    /// As for [`Under::fit_all_into`], which needs no output here.
    pub fn fit_all(
        &self,
        total: usize,
        record: &[u8],
        description: &[u8],
    ) -> Result<Vec<bool>, Refusal> {
        let mut out = [0; MOST_ITEMS];
        let filled = self.fit_all_into(total, record, description, &mut out)?;
        Ok(out.iter().take(filled).map(|byte| *byte == 1).collect())
    }
}
