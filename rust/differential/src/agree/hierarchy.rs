//! The hierarchy, against the reference, against the single comparisons of the library, and by what its tables mean.

use goltximen::{hierarchy_bytes, Under};
use reference::Refusal;

use super::{
    in_form, is_contained, of_pairs, refused, services_of, Answer, Case, Difference, Run, TOO_SHORT,
};
use crate::chance::Chance;

/// The hierarchy, with an output of this length. Each byte of its table has to be the single comparison of the library, its superiors
/// and classes what they mean, and a refusal the first that single calls give.
///
/// # Errors
///
/// The difference.
pub fn hierarchy(
    chance: &mut Chance,
    pairs: &[u8],
    list: &[u8],
    length: usize,
) -> Result<Answer, Difference> {
    let case = Case {
        call: "hierarchy",
        under: Under {
            pairs,
            dictionary: &[],
        },
        inputs: &[list],
    };
    let mut run = Run::new(chance, length);
    let proved = goltximen::hierarchy(pairs, list, &mut run.proved);
    let proved = proved.map(|ranked| ranked.written().len());
    let plain = reference::hierarchy(pairs, list, &mut run.plain);
    let answer = case.same(proved.map_err(in_form), plain)?;
    case.same_output(&run, answer.unwrap_or(0))?;
    let table = singly(case.under, list, length);
    let same = match (&answer, &table) {
        (Ok(count), Ok(table)) => run.proved.get(..*count) == Some(&ranks(table)[..]),
        (Err(refusal), Err(due)) => refusal == due,
        _ => false,
    };
    case.ensure(same, "single comparisons answer otherwise")?;
    Ok(answer.map_or_else(refused, Answer::Count))
}

/// For each service which services contain it, by single comparisons of the library; or the first refusal.
fn singly(under: Under, list: &[u8], length: usize) -> Result<Vec<Vec<bool>>, Refusal> {
    if let Some(refusal) = of_pairs(under) {
        return Err(refusal);
    }
    let services = services_of(list)?;
    for (input, service) in (2..).zip(&services) {
        goltximen::read_description(service).map_err(|refusal| Refusal {
            input,
            ..in_form(refusal)
        })?;
    }
    if length < hierarchy_bytes(services.len()) {
        return Err(TOO_SHORT);
    }
    let row = |c: &&[u8]| services.iter().map(|d| is_contained(under, c, d)).collect();
    Ok(services.iter().map(row).collect())
}

/// The table, what stands directly above each, and its class, each by what the word means.
fn ranks(table: &[Vec<bool>]) -> Vec<u8> {
    let n = table.len();
    let strictly = |c: usize, d: usize| table[c][d] && !table[d][c];
    let between = |c: usize, d: usize| (0..n).any(|e| strictly(c, e) && strictly(e, d));
    let mut bytes: Vec<u8> = table.concat().into_iter().map(u8::from).collect();
    for c in 0..n {
        bytes.extend((0..n).map(|d| u8::from(strictly(c, d) && !between(c, d))));
    }
    for c in 0..n {
        let lowest = (0..n).find(|&d| table[c][d] && table[d][c]);
        bytes.extend(lowest.map(|d| d as u8 + 1));
    }
    bytes
}
