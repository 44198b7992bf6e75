//! The entries that fail, against the reference, and against the single comparisons of the library.

use goltximen::{Comparison, Under};
use reference::{decode, encode, Entry};

use super::{in_form, refused, Answer, Case, Difference, Run};
use crate::chance::Chance;

/// The entries that fail, with an output of this length. All bytes are 0 where the library's comparison answers 'contained', and else
/// the lowest 1 is the entry that it names; and each is what it answers for that entry with its owners alone.
///
/// # Errors
///
/// The difference.
pub fn failing(
    chance: &mut Chance,
    pairs: &[u8],
    c: &[u8],
    d: &[u8],
    length: usize,
) -> Result<Answer, Difference> {
    let under = Under {
        pairs,
        dictionary: &[],
    };
    let case = Case {
        call: "failing",
        under,
        inputs: &[c, d],
    };
    let mut run = Run::new(chance, length);
    let proved = goltximen::failing(pairs, c, d, &mut run.proved).map_err(in_form);
    let plain = reference::failing(pairs, c, d, &mut run.plain);
    let answer = case.same(proved, plain)?;
    let entries = answer.map_or_else(|_| Vec::new(), |_| decode(d));
    case.same_output(&run, entries.len())?;
    let Ok(contained) = answer else {
        return Ok(answer.map_or_else(refused, |_| Answer::Contained));
    };
    let bytes = &run.proved[..entries.len()];
    let compared = |with: &[u8]| {
        let mut out = vec![0; c.len() + with.len()];
        under.compare(c, with, &mut out)
    };
    let first = bytes.iter().position(|&byte| byte == 1);
    let named = match compared(d) {
        Ok(Comparison::NotContained { entry, .. }) => Some(usize::from(entry) - 1),
        _ => None,
    };
    case.ensure(first == named, "the comparison names another entry")?;
    case.ensure(first.is_none() == contained, "a byte belies the answer")?;
    for (index, &byte) in bytes.iter().enumerate() {
        let fails = compared(&encode(&alone(&entries, index))) != Ok(Comparison::Contained);
        case.ensure(
            byte == u8::from(fails),
            "the entry alone is answered otherwise",
        )?;
    }
    Ok(if contained {
        Answer::Contained
    } else {
        Answer::NotContained(first.unwrap_or(0) + 1, 0)
    })
}

/// An entry with its owners alone, numbered anew.
fn alone(entries: &[Entry], index: usize) -> Vec<Entry> {
    let mut chain = vec![entries[index]];
    while let Some(owner) = chain[chain.len() - 1].owner.checked_sub(1) {
        chain.push(entries[usize::from(owner)]);
    }
    chain.reverse();
    (0..)
        .zip(chain)
        .map(|(owner, entry)| Entry { owner, ..entry })
        .collect()
}
