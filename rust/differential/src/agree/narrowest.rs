//! The narrowest description of two, against the reference, and by what it means: comparisons and normal forms of the library.

use goltximen::{Reason, Refusal as Refused, Under};
use reference::Refusal;

use super::{
    in_form, is_contained, of_pairs, plain, refused, Answer, Case, Difference, Run, TOO_SHORT,
};
use crate::chance::Chance;
use crate::{length_of, BLOCK, MOST_DESCRIPTION};

/// The bytes of the longest description, and the most that two may have together.
const LONGEST: usize = 16 * BLOCK;

/// The narrowest description that contains both, with an output of this length. A refusal has to be the first that single calls give; the
/// result has to contain both, to be its own normal form, and to be the same bytes where the two are exchanged.
///
/// # Errors
///
/// The difference.
pub fn narrowest(
    chance: &mut Chance,
    under: Under,
    a: &[u8],
    b: &[u8],
    length: usize,
) -> Result<Answer, Difference> {
    let case = Case {
        call: "narrowest",
        under,
        inputs: &[a, b],
    };
    let mut run = Run::new(chance, length);
    let proved = under.narrowest(a, b, &mut run.proved);
    case.ensure_unfolded([a, b], |alone, [a, b]| {
        run.repeats(&proved, |out| alone.narrowest(a, b, out))
    })?;
    let first = first_refusal(under, (a, b), length);
    let proved = proved.map(usize::from).map_err(in_form);
    let other = reference::narrowest(under.pairs, under.dictionary, a, b, &mut run.plain);
    let answer = case.same(proved, other)?;
    case.same_output(&run, answer.map_or(0, length_of))?;
    match answer {
        Ok(entries) => {
            case.ensure(first.is_none(), "single calls refuse")?;
            means(&case, &run, entries)?;
            Ok(Answer::Count(entries))
        }
        Err(refusal) => {
            let due = first.map_or_else(|| result_is_too_long(&case, length), |e| e == refusal);
            case.ensure(due, "single calls refuse otherwise")?;
            Ok(refused(refusal))
        }
    }
}

/// The first refusal that does not go by the result, by single calls of the library: the list, the dictionary, each of the two inputs, the
/// blocks of both together, and an output that is shorter than these.
fn first_refusal(under: Under, (a, b): (&[u8], &[u8]), length: usize) -> Option<Refusal> {
    if let Some(refusal) = of_pairs(under) {
        return Some(refusal);
    }
    for (input, bytes) in [(1, a), (2, b)] {
        if let Some(refusal) = input_refused(under, bytes) {
            // The dictionary has inputs from 101 up.
            let of_input = refusal.input == 1;
            let input = if of_input { input } else { refusal.input };
            return Some(Refusal {
                input,
                ..in_form(refusal)
            });
        }
    }
    let together = plain(under, a).len() + plain(under, b).len();
    if together > LONGEST {
        return Some(Refusal {
            number: 1,
            input: 2,
            place: 0,
        });
    }
    (length < together).then_some(TOO_SHORT)
}

/// What the normal form says of an input, where it is not the output.
fn input_refused(under: Under, bytes: &[u8]) -> Option<Refused> {
    let refusal = under.normal_form(bytes, &mut []).err();
    refusal.filter(|refusal| refusal.reason != Reason::Output)
}

/// Whether it is the result alone that this output is too short for: the longest is refused too, or has a longer result.
fn result_is_too_long(case: &Case, length: usize) -> bool {
    let [a, b] = case.inputs else { return false };
    let mut out = vec![0; length_of(MOST_DESCRIPTION)];
    match case.under.narrowest(a, b, &mut out) {
        Ok(entries) => length_of(usize::from(entries)) > length,
        Err(refusal) => in_form(refusal) == TOO_SHORT && !case.under.pairs.is_empty(),
    }
}

/// The result contains both, is its own normal form, and is the same in the other order.
fn means(case: &Case, run: &Run, entries: usize) -> Result<(), Difference> {
    let [a, b] = case.inputs else { return Ok(()) };
    let written = run.proved.get(..length_of(entries)).unwrap_or(&[]);
    let alone = Under {
        dictionary: &[],
        ..case.under
    };
    for input in [a, b] {
        case.ensure(
            is_contained(alone, &plain(case.under, input), written),
            "an input is not contained in the result",
        )?;
    }
    let mut again = vec![0; written.len()];
    let normal = alone.normal_form(written, &mut again).map(usize::from);
    case.ensure(
        normal == Ok(entries) && again == written,
        "the result is not in normal form",
    )?;
    let proved = Ok(crate::word(entries));
    let exchanged = run.repeats(&proved, |out| case.under.narrowest(b, a, out));
    case.ensure(exchanged, "the other order gives another result")
}
