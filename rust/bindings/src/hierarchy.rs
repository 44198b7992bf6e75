//! The catalogue as a hierarchy: which services contain which, the direct superiors of each, and which say the same.

use crate::{ffi, packed, Refusal};

/// The most services of a list.
const MOST_SERVICES: usize = 64;

/// The bytes that [`hierarchy()`] writes for so many services: twice their square, and their number. For 64, the most, it is 8,256.
pub const fn hierarchy_bytes(services: usize) -> usize {
    2 * services * services + services
}

/// The services of a list, ranked. It is read off the output of [`hierarchy()`]. Services count from 0 here, in the order of the list.
#[derive(Clone, Copy, Debug, PartialEq, Eq, Hash)]
pub struct Hierarchy<'a> {
    written: &'a [u8],
    count: usize,
}

impl<'a> Hierarchy<'a> {
    /// How many services there are, 1 to 64.
    pub fn count(&self) -> usize {
        self.count
    }

    /// All bytes that were written: the table, the superiors, the classes.
    pub fn written(&self) -> &'a [u8] {
        self.written
    }

    /// Which service is contained in which, a row for each, from the first: byte j of row i is 1 where service i is contained in
    /// service j, else 0. The diagonal is 1.
    pub fn table(&self) -> &'a [u8] {
        &self.written[..self.count * self.count]
    }

    /// The direct superiors of each service, a row for each: byte j of row i is 1 where service j strictly contains service i with no
    /// third strictly between, else 0. The diagonal is 0. Where services contain each other, all of them are superiors or none is.
    pub fn superiors(&self) -> &'a [u8] {
        &self.written[self.count * self.count..][..self.count * self.count]
    }

    /// The class of each service: the lowest position, from 1, of the services that contain it and that it contains. Two have one
    /// class exactly if each contains the other.
    pub fn classes(&self) -> &'a [u8] {
        &self.written[2 * self.count * self.count..]
    }

    /// Whether service i is contained in service j; no where one of them is no service of the list.
    pub fn is_contained(&self, i: usize, j: usize) -> bool {
        self.cell(self.table(), i, j)
    }

    /// The direct superiors of service i, in the order of the list.
    pub fn superiors_of(&self, i: usize) -> impl Iterator<Item = usize> + 'a {
        let this = *self;
        (0..this.count).filter(move |&j| this.cell(this.superiors(), i, j))
    }

    /// Whether a byte of a table is 1.
    fn cell(&self, table: &[u8], i: usize, j: usize) -> bool {
        i < self.count && j < self.count && table[self.count * i + j] == 1
    }
}

/// Ranks the services of a list, input 2, from special to general, under a list of pairs of properties that exclude each other. It writes
/// three tables from the start of the output, which the answer reads; later bytes of the output stay.
///
/// A list is 1 to 64 descriptions laid end to end, as for [`Under::catalogue`](crate::Under::catalogue), and the pairs are those of
/// [`Under`](crate::Under). There is no dictionary, so kind 9 is refused as an entry by itself. Whoever follows direct superiors from a
/// service reaches each service that strictly contains it, and no other.
///
/// ```
/// use goltximen::{hierarchy, hierarchy_bytes, Reason, Refusal};
///
/// // "has property 7", twice, and the empty description, which every item fits.
/// let mut has_7 = [0u8; 512];
/// (has_7[0], has_7[2], has_7[4], has_7[8]) = (1, 1, 1, 7);
/// (has_7[508], has_7[510]) = (41, 51);
/// let mut empty = [0u8; 512];
/// (empty[0], empty[508], empty[510]) = (1, 1, 2);
/// let mut list = [has_7, empty, has_7].concat();
///
/// let mut out = [9u8; hierarchy_bytes(64)];
/// let ranked = hierarchy(&[], &list, &mut out).unwrap();
/// assert_eq!(ranked.count(), 3);
/// assert_eq!(ranked.table(), [1, 1, 1, 0, 1, 0, 1, 1, 1]);
/// assert_eq!(ranked.superiors(), [0, 1, 0, 0, 0, 0, 0, 1, 0]);
/// assert_eq!(ranked.classes(), [1, 2, 1]);
/// assert!(ranked.is_contained(0, 1) && !ranked.is_contained(1, 0));
/// assert_eq!(ranked.superiors_of(2).collect::<Vec<_>>(), [1]);
/// assert_eq!(ranked.written().len(), hierarchy_bytes(3));
/// assert_eq!(out[21], 9);
///
/// // Services are inputs 2 to 65 in their order: a check of the second is wrong.
/// list[512 + 510] = 0;
/// let refusal = Refusal { reason: Reason::Check, input: 3, place: 1 };
/// assert_eq!(hierarchy(&[], &list, &mut out), Err(refusal));
/// ```
///
/// # Errors
///
/// The refusal of the list of pairs. Then, of the list as input 2, [`Reason::Length`](crate::Reason::Length) where its length is 0 or no
/// multiple of 512, and [`Reason::TooMany`](crate::Reason::TooMany) where it has more than 64 services. Then that of each service in turn, in
/// full before the next; its input is 1 plus its position. Then [`Reason::Output`](crate::Reason::Output) where the output has fewer than
/// [`hierarchy_bytes`] of the number of services. The output is then unchanged.
pub fn hierarchy<'a>(
    pairs: &[u8],
    list: &[u8],
    out: &'a mut [u8],
) -> Result<Hierarchy<'a>, Refusal> {
    let bytes = usize::from(packed::count(ffi::hierarchy(pairs, list, out))?);
    let count = (1..MOST_SERVICES).find(|&n| hierarchy_bytes(n) == bytes);
    Ok(Hierarchy {
        written: &out[..bytes],
        count: count.unwrap_or(MOST_SERVICES),
    })
}
