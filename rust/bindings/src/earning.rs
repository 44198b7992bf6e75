//! The entries that earn a yes: a byte for each entry, 1 where it is marked and 0 where it is not.

use crate::{ffi, packed, Refusal};

/// Marks the entries of `c`, input 1, that earn its being contained in `d`, input 2, under a list of pairs of properties that exclude
/// each other, and returns whether it is. It writes one byte for each entry of `c`; later bytes of the output stay.
///
/// Marked are entries of kinds other than 5, and their owners: `c` cut down to them is still contained in `d`, and without any one
/// marked entry of such a kind it is not. It is one such set: leaving out is tried from the last entry to the first. If `c` is not
/// contained all bytes are 0. There is no dictionary, so kind 9 is refused as an entry by itself.
///
/// ```
/// use goltximen::{earning, Reason, Refusal};
///
/// // "has property 7, has property 8", and "has property 8".
/// let mut both = [0u8; 512];
/// (both[0], both[2], both[4], both[8], both[12], both[16]) = (1, 2, 1, 7, 1, 8);
/// both[508] = 1 + 2 * 2 + 3 * 1 + 5 * 7 + 7 * 1 + 9 * 8;
/// both[510] = 1 + 2 + 1 + 7 + 1 + 8 + both[508];
/// let mut has_8 = [0u8; 512];
/// (has_8[0], has_8[2], has_8[4], has_8[8]) = (1, 1, 1, 8);
/// (has_8[508], has_8[510]) = (46, 57);
///
/// let mut out = [9u8; 3];
/// assert_eq!(earning(&[], &both, &has_8, &mut out), Ok(true));
/// assert_eq!(out, [0, 1, 9]);
/// assert_eq!(earning(&[], &has_8, &both, &mut out), Ok(false));
/// assert_eq!(out, [0, 1, 9]);
///
/// let refusal = Refusal { reason: Reason::Output, input: 0, place: 0 };
/// assert_eq!(earning(&[], &both, &has_8, &mut out[..1]), Err(refusal));
/// ```
///
/// # Errors
///
/// The refusal of the list, of `c`, and of `d`, the first that applies; then [`Reason::Output`](crate::Reason::Output) where the
/// output has fewer bytes than `c` has entries, contained or not. The output is then unchanged.
pub fn earning(pairs: &[u8], c: &[u8], d: &[u8], out: &mut [u8]) -> Result<bool, Refusal> {
    let fields = packed::fields(ffi::earning(pairs, c, d, out))?;
    Ok(fields.answer == 1)
}
