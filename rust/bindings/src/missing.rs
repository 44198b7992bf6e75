//! What a description lacks for a yes: a byte for each entry of the other, 1 where it is to be added and 0 where it is not.

use crate::{ffi, packed, Refusal};

/// What a description lacks to be contained in another.
#[derive(Clone, Copy, Debug, PartialEq, Eq, Hash)]
pub enum Lack {
    /// Nothing: it is contained.
    Nothing,
    /// The marked entries, and some item fits both.
    Addable,
    /// No item of any record fits both: the marked entries contradict it.
    Against,
}

/// Marks the entries of `d`, input 2, that `c`, input 1, lacks to be contained in it, under a list of pairs of properties that exclude
/// each other, and returns whether they can be added. It writes one byte for each entry of `d`; later bytes of the output stay.
///
/// Marked are entries of kinds other than 5, and their owners: an item that fits `c` and also `d` cut down to them fits `d`, and without
/// any one marked entry of such a kind that ends. It is one such set: leaving out is tried from the last entry to the first. If `c` is
/// contained all bytes are 0. Both together have at most 16 blocks, so that `c` with what is marked is one description too. There is no
/// dictionary, so kind 9 is refused as an entry by itself.
///
/// ```
/// use goltximen::{missing, Lack, Reason, Refusal};
///
/// // "has property 7, has property 8", and "has property 8".
/// let mut both = [0u8; 512];
/// (both[0], both[2], both[4], both[8], both[12], both[16]) = (1, 2, 1, 7, 1, 8);
/// both[508] = 1 + 2 * 2 + 3 * 1 + 5 * 7 + 7 * 1 + 9 * 8;
/// both[510] = 1 + 2 + 1 + 7 + 1 + 8 + both[508];
/// let mut has_8 = [0u8; 512];
/// (has_8[0], has_8[2], has_8[4], has_8[8]) = (1, 1, 1, 8);
/// (has_8[508], has_8[510]) = (46, 57);
///
/// let mut out = [9u8; 3];
/// assert_eq!(missing(&[], &has_8, &both, &mut out), Ok(Lack::Addable));
/// assert_eq!(out, [1, 0, 9]);
/// assert_eq!(missing(&[], &both, &has_8, &mut out), Ok(Lack::Nothing));
/// assert_eq!(out, [0, 0, 9]);
/// // Where 7 and 8 exclude each other no item fits both.
/// assert_eq!(missing(&[7, 0, 8, 0], &has_8, &both, &mut out), Ok(Lack::Against));
/// assert_eq!(out, [1, 0, 9]);
///
/// let refusal = Refusal { reason: Reason::Output, input: 0, place: 0 };
/// assert_eq!(missing(&[], &has_8, &both, &mut out[..1]), Err(refusal));
/// ```
///
/// # Errors
///
/// The refusal of the list, of `c`, and of `d`, the first that applies; [`Reason::Length`](crate::Reason::Length) of input 2 where both
/// have more than 16 blocks together; then [`Reason::Output`](crate::Reason::Output) where the output has fewer bytes than `d` has
/// entries, whatever is missing. The output is then unchanged.
pub fn missing(pairs: &[u8], c: &[u8], d: &[u8], out: &mut [u8]) -> Result<Lack, Refusal> {
    packed::lack(ffi::missing(pairs, c, d, out))
}
