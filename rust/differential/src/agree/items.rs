//! The items of a delivered record, against the reference, and with a dictionary against the call on what is unfolded.

use goltximen::{Under, MOST_ITEMS};

use super::{in_form, refused, Answer, Case, Difference, Run};
use crate::chance::Chance;

/// The call on a delivered record of so many items, with an output of this length.
///
/// # Errors
///
/// The difference.
pub fn fit_all(
    chance: &mut Chance,
    under: Under,
    total: usize,
    record: &[u8],
    d: &[u8],
    length: usize,
) -> Result<Answer, Difference> {
    let case = Case {
        call: "fit all",
        under,
        inputs: &[record, d],
    };
    let Under { pairs, dictionary } = under;
    let mut run = Run::new(chance, length);
    let proved = under.fit_all_into(total, record, d, &mut run.proved);
    case.ensure_unfolded([d], |alone, [d]| {
        run.repeats(&proved, |out| alone.fit_all_into(total, record, d, out))
    })?;
    let allocated = under.fit_all(total, record, d).map(|fits| {
        let bytes: Vec<u8> = fits.into_iter().map(u8::from).collect();
        bytes
    });
    let same = match &proved {
        Ok(count) => allocated.as_deref() == Ok(&run.proved[..*count]),
        Err(refusal) => length < MOST_ITEMS || allocated.as_ref() == Err(refusal),
    };
    case.ensure(same, "the call that allocates answers otherwise")?;
    let plain = reference::fit_all(pairs, dictionary, total, record, d, &mut run.plain);
    let answer = case.same(proved.map_err(in_form), plain)?;
    case.same_output(&run, answer.unwrap_or(0))?;
    Ok(answer.map_or_else(refused, Answer::Count))
}
