//! All entries of a service's description that a supplier's fails.

use crate::compare::first_that_fails;
use crate::marks::{cut_down, with_owners, write_marks};
use crate::pairs::Pairs;
use crate::reading::{read, Sort};
use crate::refusal::Refusal;
use crate::rules::normal_place;
use crate::tree::top_place;

/// Marks the entries of D that C doesn't entail, and answers whether C is
/// contained in D.
///
/// One byte for each entry of D: 1 exactly where C is not contained in D cut
/// down to that entry and its owners. Later bytes stay. Refused are, in this
/// order, the pairs (11), input 1, input 2, and fewer bytes than entries of D
/// (7). There is no dictionary.
pub fn failing(pairs: &[u8], c: &[u8], d: &[u8], out: &mut [u8]) -> Result<bool, Refusal> {
    let pairs = Pairs::read(pairs)?;
    let c = read(c, Sort::Description, 1)?;
    let d = read(d, Sort::Description, 2)?;
    let Some(answers) = out.get_mut(..d.len()) else {
        return Err(Refusal::output_too_short());
    };
    let n = normal_place(top_place(&c), &pairs);
    let fails = |index: usize| {
        let alone: Vec<bool> = (0..d.len()).map(|other| other == index).collect();
        let left = cut_down(&d, &with_owners(&d, &alone));
        first_that_fails(&n, &left, &pairs).is_some()
    };
    let marks: Vec<bool> = (0..d.len()).map(fails).collect();
    write_marks(&marks, answers);
    Ok(first_that_fails(&n, &d, &pairs).is_none())
}
