//! The entries that earn a yes, against the reference, and by what the marks mean: single comparisons of the library tell of each entry
//! whether it can be left out.

use goltximen::Under;
use reference::{decode, encode, Entry, Refusal};

use super::{
    in_form, is_contained, of_pairs, read_description, refused, Answer, Case, Difference, Run,
    TOO_SHORT,
};
use crate::chance::Chance;
use crate::derived::{cut_down, with_owners};

/// Which entries of C earn its being contained in D, with an output of this length. The answer has to be the single comparison's, and a
/// refusal the first that single calls give; the marks have to be those that leaving out one by one gives, by comparisons of the library;
/// what is left has to be read and contained, and without any one of the marked entries of kinds other than 5 it may not be.
///
/// # Errors
///
/// The difference.
pub fn earning(
    chance: &mut Chance,
    pairs: &[u8],
    c: &[u8],
    d: &[u8],
    length: usize,
) -> Result<Answer, Difference> {
    let case = Case {
        call: "earning",
        under: Under {
            pairs,
            dictionary: &[],
        },
        inputs: &[c, d],
    };
    let mut run = Run::new(chance, length);
    let proved = goltximen::earning(pairs, c, d, &mut run.proved).map_err(in_form);
    let plain = reference::earning(pairs, c, d, &mut run.plain);
    let answer = case.same(proved, plain)?;
    case.ensure(
        answer.err() == first_refusal(case.under, (c, d), length),
        "single calls refuse otherwise",
    )?;
    let Ok(contained) = answer else {
        case.same_output(&run, 0)?;
        return Ok(answer.map_or_else(refused, |_| Answer::No));
    };
    let entries = decode(c);
    case.same_output(&run, entries.len())?;
    let marks = run.proved.get(..entries.len()).unwrap_or(&[]);
    let kept = |left: &[Entry]| is_contained(case.under, &encode(left), d);
    case.ensure(
        contained == kept(&entries),
        "the single comparison answers otherwise",
    )?;
    if !contained {
        let none = marks.iter().all(|&mark| mark == 0);
        case.ensure(none, "not contained, and an entry is marked")?;
        return Ok(Answer::NotContained(0, 0));
    }
    left_out(&case, &entries, marks, kept)?;
    Ok(Answer::Contained)
}

/// The first refusal, by single calls of the library: the list, each of the two inputs, and the output.
fn first_refusal(under: Under, (c, d): (&[u8], &[u8]), length: usize) -> Option<Refusal> {
    if let Some(refusal) = of_pairs(under) {
        return Some(refusal);
    }
    for (input, bytes) in [(1, c), (2, d)] {
        if let Err(refusal) = goltximen::read_description(bytes) {
            return Some(Refusal {
                input,
                ..in_form(refusal)
            });
        }
    }
    (length < decode(c).len()).then_some(TOO_SHORT)
}

/// The marks are what they are called, where C is contained.
fn left_out(
    case: &Case,
    entries: &[Entry],
    marks: &[u8],
    kept: impl Fn(&[Entry]) -> bool,
) -> Result<(), Difference> {
    let without = |set: &[bool], at: usize| {
        let mut set = set.to_vec();
        set[at] = false;
        kept(&cut_down(entries, &with_owners(entries, &set)))
    };
    let says = |at: &usize| entries[*at].kind != 5;
    let mut set: Vec<bool> = (0..entries.len()).map(|at| says(&at)).collect();
    for at in (0..entries.len()).rev().filter(says) {
        set[at] = !without(&set, at);
    }
    let due = with_owners(entries, &set);
    case.ensure(
        marks.iter().copied().eq(due.iter().copied().map(u8::from)),
        "leaving out one by one marks other entries",
    )?;
    let needed = (0..entries.len()).filter(|&at| set[at]);
    for at in needed {
        let ends = !without(&set, at);
        case.ensure(ends, &format!("entry {} can still be left out", at + 1))?;
    }
    let cut = cut_down(entries, &due);
    let read = read_description(&encode(&cut))?;
    case.ensure(read == Answer::Count(cut.len()), "what is left is refused")?;
    case.ensure(kept(&cut), "what is left is not contained")
}
