//! The catalogue: one description against a list of services.

use crate::{ffi, packed, Reason, Refusal, Under};

/// The bytes of a block.
const BLOCK: usize = 512;
/// The most services of a list.
const MOST_SERVICES: usize = 64;
/// A block that begins a service by its number.
const BEGINS: [u8; BLOCK] = {
    let mut block = [0; BLOCK];
    block[0] = 1;
    block
};
/// The output is too short.
const TOO_SHORT: Refusal = Refusal {
    reason: Reason::Output,
    input: 0,
    place: 0,
};

impl Under<'_> {
    /// Compares a supplier's description, input 1, with each service of a list, input 2, fills one byte of the output for each, 1
    /// where the supplier's description is contained in it and 0 where it is not, and returns the number of services. Later bytes of
    /// the output stay.
    ///
    /// A list is 1 to 64 descriptions laid end to end: the first block, and each later one numbered 1, begins a service. Each byte
    /// is what [`Under::compare`] answers for the supplier's description and that service, under the same list of pairs and with
    /// the same dictionary. No specimen is written, so the output needs as many bytes as there are services, and 64 are always
    /// enough.
    ///
    /// ```
    /// use goltximen::{Reason, Refusal, Under};
    ///
    /// // "has property 7", "has property 8", and the empty description, which every item fits.
    /// let mut has_7 = [0u8; 512];
    /// (has_7[0], has_7[2], has_7[4], has_7[8]) = (1, 1, 1, 7);
    /// (has_7[508], has_7[510]) = (41, 51);
    /// let mut has_8 = [0u8; 512];
    /// (has_8[0], has_8[2], has_8[4], has_8[8]) = (1, 1, 1, 8);
    /// (has_8[508], has_8[510]) = (46, 57);
    /// let mut empty = [0u8; 512];
    /// (empty[0], empty[508], empty[510]) = (1, 1, 2);
    ///
    /// let under = Under::default();
    /// let mut out = [9u8; 4];
    /// let mut list = [has_7, has_8, empty].concat();
    /// assert_eq!(under.catalogue(&has_7, &list, &mut out), Ok(3));
    /// assert_eq!(out, [1, 0, 1, 9]);
    ///
    /// // Services are inputs 2 to 65 in their order: a check of the second is wrong.
    /// list[512 + 510] = 0;
    /// let refusal = Refusal { reason: Reason::Check, input: 3, place: 1 };
    /// assert_eq!(under.catalogue(&has_7, &list, &mut out), Err(refusal));
    /// ```
    ///
    /// # Errors
    ///
    /// The refusal of the list of pairs, of the dictionary, and of the supplier's description, the first that applies. Then, of the
    /// list as input 2, [`Reason::Length`] where its length is 0 or no multiple of 512, and [`Reason::TooMany`] where it has more than
    /// 64 services. Then that of each service in turn, in full before the next; its input is 1 plus its position. Then
    /// [`Reason::Output`] where the output has fewer bytes than there are services. The output is then unchanged.
    pub fn catalogue(
        &self,
        supplier: &[u8],
        list: &[u8],
        out: &mut [u8],
    ) -> Result<usize, Refusal> {
        let filled = ffi::catalogue(self.pairs, self.dictionary, supplier, list, out);
        packed::count(filled).map(usize::from)
    }

    /// The same for services that are not laid end to end yet: whether the supplier's description is contained in each. It
    /// allocates the list and the answers.
    ///
    /// There is one answer for each slice. Laid end to end, a slice that is not one description could begin no service, or two; so
    /// it is refused as it is alone.
    ///
    /// ```
    /// use goltximen::{Reason, Refusal, Under};
    ///
    /// // "has property 7", and the empty description, which every item fits.
    /// let mut has_7 = [0u8; 512];
    /// (has_7[0], has_7[2], has_7[4], has_7[8]) = (1, 1, 1, 7);
    /// (has_7[508], has_7[510]) = (41, 51);
    /// let mut empty = [0u8; 512];
    /// (empty[0], empty[508], empty[510]) = (1, 1, 2);
    ///
    /// let under = Under::default();
    /// assert_eq!(under.catalogue_of(&empty, &[&has_7, &empty]), Ok(vec![false, true]));
    ///
    /// // The second service has two blocks of the number 1.
    /// let twice = [has_7, has_7].concat();
    /// let refusal = Refusal { reason: Reason::Frame, input: 3, place: 1 };
    /// assert_eq!(under.catalogue_of(&empty, &[&has_7, &twice]), Err(refusal));
    /// ```
    ///
    /// # Errors
    ///
    /// As for [`Under::catalogue`], which needs no output here. [`Reason::Length`] of an empty slice, or of one whose length is no
    /// multiple of 512, is that of the service; of no slices at all it is that of the list. [`Reason::TooMany`] goes by the
    /// slices.
    pub fn catalogue_of(&self, supplier: &[u8], services: &[&[u8]]) -> Result<Vec<bool>, Refusal> {
        let list = if services.len() > MOST_SERVICES {
            // Too many, by the numbers of blocks alone.
            BEGINS.repeat(MOST_SERVICES + 1)
        } else if services.iter().all(|service| begins_once(service)) {
            services.concat()
        } else {
            return Err(self.first_refusal(supplier, services));
        };
        let mut out = vec![0; services.len()];
        self.catalogue(supplier, &list, &mut out)?;
        Ok(out.into_iter().map(|byte| byte == 1).collect())
    }

    /// The first refusal, where one of at most 64 services is no description by its length or by the numbers of its blocks. The
    /// comparison is given no output, so it refuses that where it refuses nothing else.
    fn first_refusal(&self, supplier: &[u8], services: &[&[u8]]) -> Refusal {
        let mut first = TOO_SHORT;
        for (input, service) in (2..).zip(services) {
            let alone = self.compare(supplier, service, &mut []);
            first = match alone.err().unwrap_or(TOO_SHORT) {
                refusal if refusal.input == 2 => Refusal { input, ..refusal },
                refusal => refusal,
            };
            if first.reason != Reason::Output {
                break;
            }
        }
        first
    }
}

/// Whether these bytes are one service when they stand in a list: whole blocks, of which the first has the number 1 and no other.
fn begins_once(service: &[u8]) -> bool {
    let mut blocks = service.chunks(BLOCK);
    let begins = |block: &[u8]| block.starts_with(&[1, 0]);
    service.len().is_multiple_of(BLOCK) && blocks.next().is_some_and(begins) && !blocks.any(begins)
}
