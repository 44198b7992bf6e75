//! The entries that earn a yes.

use crate::blocks::Entry;
use crate::compare::first_that_fails;
use crate::marks::{fewest, write_marks};
use crate::pairs::Pairs;
use crate::reading::{read, Sort};
use crate::refusal::Refusal;
use crate::rules::normal_place;
use crate::tree::top_place;

/// Marks entries of C that are enough for it to be contained in D, each of them
/// needed, and answers whether C is contained in D.
///
/// One byte for each entry of C: 1 for a set of entries of kinds other than 5,
/// found by leaving out from the last to the first, and for their owners; 0 for
/// the others, and for all if C is not contained in D. Later bytes stay.
/// Refused are, in this order, the pairs (11), input 1, input 2, and fewer
/// bytes than entries of C (7). There is no dictionary.
pub fn earning(pairs: &[u8], c: &[u8], d: &[u8], out: &mut [u8]) -> Result<bool, Refusal> {
    let pairs = Pairs::read(pairs)?;
    let c = read(c, Sort::Description, 1)?;
    let d = read(d, Sort::Description, 2)?;
    let Some(answers) = out.get_mut(..c.len()) else {
        return Err(Refusal::output_too_short());
    };
    let earns = |kept: &[Entry]| is_contained(kept, &d, &pairs);
    let contained = earns(&c);
    let marks = if contained {
        fewest(&c, earns)
    } else {
        vec![false; c.len()]
    };
    write_marks(&marks, answers);
    Ok(contained)
}

/// Whether C is contained in D.
pub(crate) fn is_contained(c: &[Entry], d: &[Entry], pairs: &Pairs) -> bool {
    let n = normal_place(top_place(c), pairs);
    first_that_fails(&n, d, pairs).is_none()
}
