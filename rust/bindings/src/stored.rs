//! The shorter stored form: entries of 6 bytes, in walking order.

use crate::{ffi, packed, Refusal};

/// The bytes that `k` entries take in the shorter stored form: blocks of 512 bytes, 84 entries to a block, and one block at least.
pub fn stored_bytes(k: usize) -> usize {
    512 * k.div_ceil(84).max(1)
}

/// Writes a description in the shorter stored form, and returns its number of entries. They stand in walking order: each is followed
/// by what it owns, and those of one owner come by their numbers. An entry has its kind, its depth, its name and its number. Blocks
/// are written from the start of the output; later bytes of the output stay.
///
/// [`from_stored`] takes what is written, and gives these entries back in that order; the same items fit them.
///
/// ```
/// use goltximen::{from_stored, stored_bytes, to_stored};
///
/// // "has property 8, owned by entry 2", which is "every item by link 3": entry 1 is "has property 7", at the top.
/// let mut d = [0u8; 512];
/// (d[0], d[2], d[4], d[8]) = (1, 3, 1, 7);
/// (d[12], d[16]) = (5, 3);
/// (d[20], d[22], d[24]) = (1, 2, 8);
/// d[508] = 246;
/// (d[510], d[511]) = (21, 1);
///
/// let mut stored = [9u8; 600];
/// assert_eq!(to_stored(&d, &mut stored), Ok(3));
/// assert_eq!(stored_bytes(3), 512);
/// // Kind, depth, name and number of the entries: 1,7 at 0; 5,3 at 0; 1,8 at 1.
/// assert_eq!(stored[4..10], [1, 0, 7, 0, 0, 0]);
/// assert_eq!(stored[10..16], [5, 0, 3, 0, 0, 0]);
/// assert_eq!(stored[16..22], [1, 1, 8, 0, 0, 0]);
///
/// let mut back = [0u8; 512];
/// assert_eq!(from_stored(&stored[..512], &mut back), Ok(3));
/// assert_eq!(back, d);
/// ```
///
/// # Errors
///
/// The refusal of the description, input 1; then [`Reason::Output`](crate::Reason::Output) where the output is shorter than what is
/// written. The output is then unchanged.
pub fn to_stored(d: &[u8], out: &mut [u8]) -> Result<usize, Refusal> {
    packed::count(ffi::to_stored(d, out)).map(usize::from)
}

/// Writes the description that an input in the shorter stored form is, and returns its number of entries. The owner of an entry is
/// the nearest earlier entry of lesser depth, and at depth 0 the top. Blocks are written from the start of the output; later bytes of
/// the output stay. [`to_stored`] writes the same stored bytes of it again.
///
/// ```
/// use goltximen::{from_stored, Reason, Refusal};
///
/// // "has property 7" at depth 1, with no entry before it.
/// let mut stored = [0u8; 512];
/// (stored[0], stored[2], stored[4], stored[5], stored[6]) = (1, 1, 1, 1, 7);
/// let first: u16 = 1 + 2 * 1 + 3 * 257 + 4 * 7;
/// stored[508..510].copy_from_slice(&first.to_le_bytes());
/// stored[510..].copy_from_slice(&(1 + 1 + 257 + 7 + first).to_le_bytes());
/// let refusal = Refusal { reason: Reason::Order, input: 1, place: 1 };
/// assert_eq!(from_stored(&stored, &mut [0; 512]), Err(refusal));
/// ```
///
/// # Errors
///
/// The refusal of the input, input 1, the first that applies: a length of more than 12 blocks, the blocks, and then the lowest entry
/// that breaks [`Reason::Form`](crate::Reason::Form), [`Reason::Order`](crate::Reason::Order) or
/// [`Reason::Depth`](crate::Reason::Depth); then [`Reason::Output`](crate::Reason::Output) where the output is shorter than what is
/// written. The output is then unchanged.
pub fn from_stored(s: &[u8], out: &mut [u8]) -> Result<usize, Refusal> {
    packed::count(ffi::from_stored(s, out)).map(usize::from)
}
