//! Unfolding: a plain description in place of one that names others.

use crate::{ffi, packed, Refusal};

/// Writes a description in which each entry that names a description of the dictionary is replaced by the contents, in their
/// order, and returns its number of entries. It means the same. Blocks are written from the start of the output; later bytes of the
/// output stay.
///
/// The contents stand where the named entry stood: their top entries have its owner, and later entries are numbered on. A name of
/// an empty description vanishes. [`Under`](crate::Under) says what a dictionary is.
///
/// ```
/// use goltximen::{unfold, Reason, Refusal};
///
/// // A dictionary of one description: "has property 7".
/// let mut dictionary = [0u8; 512];
/// (dictionary[0], dictionary[2], dictionary[4], dictionary[8]) = (1, 1, 1, 7);
/// dictionary[508] = 1 + 2 * 1 + 3 * 1 + 5 * 7;
/// dictionary[510] = 1 + 1 + 1 + 7 + dictionary[508];
///
/// // "every item by link 3 is as described under number 1": kind 5, and kind 9 with owner 1 and name 1.
/// let mut d = [0u8; 512];
/// (d[0], d[2], d[4], d[8]) = (1, 2, 5, 3);
/// (d[12], d[14], d[16]) = (9, 1, 1);
/// d[508] = 1 + 2 * 2 + 3 * 5 + 5 * 3 + 7 * 9 + 8 * 1 + 9 * 1;
/// d[510] = 1 + 2 + 5 + 3 + 9 + 1 + 1 + d[508];
///
/// let mut out = [9u8; 513];
/// assert_eq!(unfold(&dictionary, &d, &mut out), Ok(2));
/// assert_eq!((out[4], out[8]), (5, 3));
/// assert_eq!((out[12], out[14], out[16], out[512]), (1, 1, 7, 9));
///
/// // Without the dictionary there is no number 1.
/// let refusal = Refusal { reason: Reason::Name, input: 1, place: 2 };
/// assert_eq!(unfold(&[], &d, &mut out), Err(refusal));
/// ```
///
/// # Errors
///
/// The refusal of the dictionary, input 100 and its descriptions 101 to 164, and of the description, input 1, the first that
/// applies; then [`Reason::Output`](crate::Reason::Output) where the output is shorter than what is written. The output is then
/// unchanged.
pub fn unfold(dictionary: &[u8], d: &[u8], out: &mut [u8]) -> Result<usize, Refusal> {
    packed::count(ffi::unfold(dictionary, d, out)).map(usize::from)
}
