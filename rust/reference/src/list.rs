//! Lists of descriptions laid end to end: refusals 1 and 8.

use crate::blocks::{stored_number, BLOCK_BYTES};
use crate::refusal::{Refusal, LENGTH, TOO_MANY};

/// 1 to 64 services laid end to end (L3), and a list of descriptions, or of
/// length 0 (D1)
const MOST_DESCRIPTIONS: usize = 64;

/// The bytes of each description in a list; a list of length 0 has none.
///
/// Or 1 for a list of a length that is no multiple of 512 (L6), then 8 for
/// more than 64 (R8); both at place 0 of this input. Both are about the list
/// and come before all checks of the descriptions in it.
pub(crate) fn cut(list: &[u8], input: u16) -> Result<Vec<&[u8]>, Refusal> {
    if !list.chunks_exact(BLOCK_BYTES).remainder().is_empty() {
        return Err(Refusal::at(LENGTH, input, 0));
    }
    let starts = starts(list);
    if starts.len() > MOST_DESCRIPTIONS {
        return Err(Refusal::at(TOO_MANY, input, 0));
    }
    // Each runs up to the start of the next, the last up to the end.
    let ends = starts.iter().copied().skip(1).chain([list.len()]);
    Ok(starts
        .iter()
        .zip(ends)
        .filter_map(|(&start, end)| list.get(start..end))
        .collect())
}

/// Where the descriptions of a list of whole blocks start: each block
/// numbered 1 begins (L1) one.
///
/// The stored number alone decides, whatever else is right or wrong in the
/// block. The first block begins one whatever its number is.
fn starts(list: &[u8]) -> Vec<usize> {
    list.chunks_exact(BLOCK_BYTES)
        .enumerate()
        .filter(|&(index, block)| index == 0 || stored_number(block) == 1)
        .map(|(index, _)| index.saturating_mul(BLOCK_BYTES))
        .collect()
}
