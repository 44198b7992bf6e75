//! The catalogue, against the reference and against the single comparisons of the library.

use goltximen::{Reason, Under};
use reference::Refusal;

use super::{
    comparison, in_form, refused, services_of, unfolded, Answer, Case, Difference, Run, TOO_SHORT,
};
use crate::catalogue::cut;
use crate::chance::Chance;
use crate::{length_of, MOST_DESCRIPTION};

/// The catalogue, with an output of this length. Each byte has to be the single comparison of the library, and a refusal the first
/// that single comparisons give.
///
/// # Errors
///
/// The difference.
pub fn catalogue(
    chance: &mut Chance,
    under: Under,
    c: &[u8],
    list: &[u8],
    length: usize,
) -> Result<Answer, Difference> {
    let case = Case {
        call: "catalogue",
        under,
        inputs: &[c, list],
    };
    let mut run = Run::new(chance, length);
    let proved = under.catalogue(c, list, &mut run.proved).map_err(in_form);
    let plain = reference::catalogue(under.pairs, under.dictionary, c, list, &mut run.plain);
    let answer = case.same(proved, plain)?;
    case.same_output(&run, answer.unwrap_or(0))?;
    let bytes = answer.map(|count| run.proved.get(..count).unwrap_or(&[]).to_vec());
    case.ensure(
        bytes == singly(under, c, list, length),
        "single comparisons answer otherwise",
    )?;
    if let Ok(bytes) = &bytes {
        as_slices(&case, c, list, bytes)?;
        as_unfolded(&case, c, list, &run)?;
    }
    Ok(answer.map_or_else(refused, Answer::Count))
}

/// What single comparisons of the library make of a list: a byte for each service, or the first refusal.
fn singly(under: Under, c: &[u8], list: &[u8], length: usize) -> Result<Vec<u8>, Refusal> {
    // With an output of length 0 the normal form is refused, and for that as the last thing.
    match under.normal_form(c, &mut []) {
        Err(refusal) if refusal.reason != Reason::Output => return Err(in_form(refusal)),
        _ => (),
    }
    let services = services_of(list)?;
    let mut out = vec![0; 2 * length_of(MOST_DESCRIPTION)];
    let mut bytes = Vec::new();
    for (input, service) in (2..).zip(services) {
        let compared = under.compare(c, service, &mut out).map(comparison);
        let compared = compared.map_err(|refusal| Refusal {
            input,
            ..in_form(refusal)
        })?;
        bytes.push(u8::from(compared == reference::Comparison::Contained));
    }
    if length < bytes.len() {
        return Err(TOO_SHORT);
    }
    Ok(bytes)
}

/// The call that takes the services one by one answers the same.
fn as_slices(case: &Case, c: &[u8], list: &[u8], bytes: &[u8]) -> Result<(), Difference> {
    let answers = case.under.catalogue_of(c, &cut(list));
    let same = answers.is_ok_and(|answers| {
        answers
            .iter()
            .copied()
            .map(u8::from)
            .eq(bytes.iter().copied())
    });
    case.ensure(same, "the call on slices answers otherwise")
}

/// Where there is a dictionary, the call without it answers the same on what is unfolded.
fn as_unfolded(case: &Case, c: &[u8], list: &[u8], run: &Run) -> Result<(), Difference> {
    let dictionary = case.under.dictionary;
    if dictionary.is_empty() {
        return Ok(());
    }
    let services = cut(list);
    let plain = services.iter().map(|service| unfolded(dictionary, service));
    let plain: Option<Vec<Vec<u8>>> = plain.collect();
    let (Some(c), Some(plain)) = (unfolded(dictionary, c), plain) else {
        return Err(case.difference("what is accepted does not unfold"));
    };
    let alone = Under {
        dictionary: &[],
        ..case.under
    };
    let same = run.repeats(&Ok(services.len()), |out| {
        alone.catalogue(&c, &plain.concat(), out)
    });
    case.ensure(same, "the call on what is unfolded answers otherwise")
}
