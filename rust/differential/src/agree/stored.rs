//! The shorter stored form, against the reference, and each call undone by the other.

use goltximen::Under;

use super::{in_form, refused, Answer, Case, Difference, Run};
use crate::chance::Chance;
use crate::{length_of, MOST_DESCRIPTION};

/// A call on an input without pairs and dictionary.
fn case<'a>(call: &'static str, inputs: &'a [&'a [u8]]) -> Case<'a> {
    Case {
        call,
        under: Under::default(),
        inputs,
    }
}

/// A description written in the stored form, with an output of this length. What is written is taken back, by the library, and
/// written again as the same bytes.
///
/// # Errors
///
/// The difference.
pub fn to_stored(chance: &mut Chance, d: &[u8], length: usize) -> Result<Answer, Difference> {
    let inputs = [d];
    let case = case("to stored", &inputs);
    let mut run = Run::new(chance, length);
    let proved = goltximen::to_stored(d, &mut run.proved).map_err(in_form);
    let plain = reference::to_stored(d, &mut run.plain);
    let answer = case.same(proved, plain)?;
    case.same_output(&run, answer.map_or(0, goltximen::stored_bytes))?;
    if let Ok(entries) = answer {
        let stored = &run.proved[..goltximen::stored_bytes(entries)];
        case.ensure(
            goes_round(stored, entries),
            "it is not the same bytes again",
        )?;
        // What is accepted in both forms has no entry, or is kind 6 alone.
        let both = goltximen::read_description(stored).is_ok();
        let alone = entries == 0 || entries == 1 && stored[4] == 6;
        case.ensure(both == alone, "it is accepted in both forms")?;
    }
    Ok(answer.map_or_else(refused, Answer::Count))
}

/// A stored input written as a description, with an output of this length. What is written is accepted as a description, and written
/// in the stored form again it is the same bytes.
///
/// # Errors
///
/// The difference.
pub fn from_stored(chance: &mut Chance, s: &[u8], length: usize) -> Result<Answer, Difference> {
    let inputs = [s];
    let case = case("from stored", &inputs);
    let mut run = Run::new(chance, length);
    let proved = goltximen::from_stored(s, &mut run.proved).map_err(in_form);
    let plain = reference::from_stored(s, &mut run.plain);
    let answer = case.same(proved, plain)?;
    case.same_output(&run, answer.map_or(0, length_of))?;
    if let Ok(entries) = answer {
        let d = &run.proved[..length_of(entries)];
        let read = goltximen::read_description(d).map(usize::from);
        case.ensure(read == Ok(entries), "what is written is refused")?;
        case.ensure(goes_round(s, entries), "it is not the same bytes again")?;
    }
    Ok(answer.map_or_else(refused, Answer::Count))
}

/// Whether the library reads so many entries of a stored input, and writes the same bytes of them.
fn goes_round(stored: &[u8], entries: usize) -> bool {
    let mut d = vec![0; length_of(MOST_DESCRIPTION)];
    let mut again = vec![0; stored.len()];
    goltximen::from_stored(stored, &mut d) == Ok(entries)
        && goltximen::to_stored(&d[..length_of(entries)], &mut again) == Ok(entries)
        && again == stored
}
