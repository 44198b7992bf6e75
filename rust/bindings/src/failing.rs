//! The entries that fail: a byte for each entry, 1 where it does and 0 where it does not.

use crate::{ffi, packed, Refusal};

/// Marks the entries of `d`, input 2, that `c`, input 1, does not say, under a list of pairs of properties that exclude each other, and
/// returns whether `c` is contained in `d`. It writes one byte for each entry of `d`; later bytes of the output stay.
///
/// A byte is 1 exactly where `c` is not contained in that entry with its owners alone. All are 0 exactly if `c` is contained in `d`,
/// and the lowest 1 is the entry that [`compare`](crate::compare) names. There is no dictionary, so kind 9 is refused as an entry by
/// itself.
///
/// ```
/// use goltximen::{failing, Reason, Refusal};
///
/// // "has property 7, has property 8", and "has property 8".
/// let mut both = [0u8; 512];
/// (both[0], both[2], both[4], both[8], both[12], both[16]) = (1, 2, 1, 7, 1, 8);
/// both[508] = 1 + 2 * 2 + 3 * 1 + 5 * 7 + 7 * 1 + 9 * 8;
/// both[510] = 1 + 2 + 1 + 7 + 1 + 8 + both[508];
/// let mut has_8 = [0u8; 512];
/// (has_8[0], has_8[2], has_8[4], has_8[8]) = (1, 1, 1, 8);
/// (has_8[508], has_8[510]) = (46, 57);
///
/// let mut out = [9u8; 3];
/// assert_eq!(failing(&[], &has_8, &both, &mut out), Ok(false));
/// assert_eq!(out, [1, 0, 9]);
/// assert_eq!(failing(&[], &both, &has_8, &mut out), Ok(true));
/// assert_eq!(out, [0, 0, 9]);
///
/// let refusal = Refusal { reason: Reason::Output, input: 0, place: 0 };
/// assert_eq!(failing(&[], &both, &both, &mut out[..1]), Err(refusal));
/// ```
///
/// # Errors
///
/// The refusal of the list, of `c`, and of `d`, the first that applies; then [`Reason::Output`](crate::Reason::Output) where the
/// output has fewer bytes than `d` has entries, contained or not. The output is then unchanged.
pub fn failing(pairs: &[u8], c: &[u8], d: &[u8], out: &mut [u8]) -> Result<bool, Refusal> {
    let fields = packed::fields(ffi::failing(pairs, c, d, out))?;
    Ok(fields.answer == 1)
}
