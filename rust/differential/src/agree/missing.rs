//! What a description lacks, against the reference, and by what the marks mean to the library's comparison.

use goltximen::{Lack, Under};
use reference::{decode, encode, Entry, Missing};

use super::{comparison, in_form, refused, Answer, Case, Difference, Run};
use crate::chance::Chance;
use crate::{length_of, word, MOST_DESCRIPTION};

/// Of more marks than this not each is looked at whether it is needed.
const MOST_TRIED: usize = 40;

/// What is missing, with an output of this length. The description with the addition has to be contained by the comparison, and with no
/// marked entry left out; and 'nothing' has to be the answer exactly where the comparison says 'contained'.
///
/// # Errors
///
/// The difference.
pub fn missing(
    chance: &mut Chance,
    pairs: &[u8],
    c: &[u8],
    d: &[u8],
    length: usize,
) -> Result<Answer, Difference> {
    let case = Case {
        call: "missing",
        under: Under {
            pairs,
            dictionary: &[],
        },
        inputs: &[c, d],
    };
    let mut run = Run::new(chance, length);
    let proved = goltximen::missing(pairs, c, d, &mut run.proved);
    let plain = reference::missing(pairs, c, d, &mut run.plain);
    let answer = case.same(proved.map(same).map_err(in_form), plain)?;
    let entries = answer.map_or(0, |_| decode(d).len());
    case.same_output(&run, entries)?;
    let Ok(answer) = answer else {
        return Ok(answer.map_or_else(refused, |_| Answer::Count(entries)));
    };
    marked(&case, &run.proved[..entries])?;
    let contained = compares(case.under, &decode(c), &decode(d));
    let nothing = answer == Missing::NothingToAdd;
    case.ensure(nothing == contained, "the comparison answers otherwise")?;
    Ok(match answer {
        Missing::NothingToAdd => Answer::Contained,
        Missing::ToBeAdded => Answer::Yes,
        Missing::NothingFitsBoth => Answer::No,
    })
}

/// The answer in the reference's form.
fn same(lack: Lack) -> Missing {
    match lack {
        Lack::Nothing => Missing::NothingToAdd,
        Lack::Addable => Missing::ToBeAdded,
        Lack::Against => Missing::NothingFitsBoth,
    }
}

/// A difference unless the marked entries are enough, and each one that is no 'every' is needed.
fn marked(case: &Case, marks: &[u8]) -> Result<(), Difference> {
    let [c, d] = [case.inputs[0], case.inputs[1]].map(decode);
    let with = |marks: &[u8]| both(&c, &cut_down(&d, marks));
    let so = compares(case.under, &with(marks), &d);
    case.ensure(so, "with what is marked it is not contained")?;
    let count = marks.iter().filter(|&&mark| mark == 1).count();
    for at in (0..d.len()).filter(|_| count <= MOST_TRIED) {
        if marks[at] == 1 && d[at].kind != 5 {
            let mut fewer = marks.to_vec();
            fewer[at] = 0;
            let so = !compares(case.under, &with(&fewer), &d);
            case.ensure(so, "a marked entry is not needed")?;
        }
    }
    Ok(())
}

/// Whether the library finds one description contained in another.
fn compares(under: Under, c: &[Entry], d: &[Entry]) -> bool {
    let mut out = vec![0; 2 * length_of(MOST_DESCRIPTION)];
    let compared = under.compare(&encode(c), &encode(d), &mut out);
    compared.map(comparison) == Ok(reference::Comparison::Contained)
}

/// The marked entries alone, numbered anew.
fn cut_down(d: &[Entry], marks: &[u8]) -> Vec<Entry> {
    let rank = |owner: u16| {
        let marked = marks.iter().take(owner.into());
        word(marked.filter(|&&mark| mark == 1).count())
    };
    let left = d.iter().zip(marks).filter(|(_, &mark)| mark == 1);
    left.map(|(entry, _)| Entry {
        owner: rank(entry.owner),
        ..*entry
    })
    .collect()
}

/// The entries of one description, and behind them those of another.
fn both(c: &[Entry], added: &[Entry]) -> Vec<Entry> {
    let behind = added.iter().map(|entry| match entry.owner {
        0 => *entry,
        owner => Entry {
            owner: owner + word(c.len()),
            ..*entry
        },
    });
    c.iter().copied().chain(behind).collect()
}
