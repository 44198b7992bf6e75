//! What each entry of the narrowest description comes from, and what of either input it gives up.

use crate::blocks::encode;
use crate::entry::{Entry, Link, Says};
use crate::explain::on_subject;
use crate::input::Input;
use crate::library::{self, Compared, Refusal, Under};
use crate::page::Lead;
use crate::tree::{alone, cut_down, owners, places, way, Tree};

/// For so many entries of the result all entries of an input are tried; for others only those that speak of the same.
const MOST_TRIED: usize = 150;

/// For each entry of the result which entries of either input earn it: those that earn the input's being contained in it with its owners.
pub(super) fn leads(
    under: Under<'_>,
    inputs: &[Input; 2],
    result: &Input,
) -> Result<Vec<Lead>, Refusal> {
    let mut tried = 0;
    let mut all = Vec::new();
    for entry in 1..=result.entries.len() {
        let mut from = [Vec::new(), Vec::new()];
        for (from, input) in from.iter_mut().zip(inputs) {
            *from = match result.entries[entry - 1].says() {
                Says::Every(link) => alike(&input.entries, &way(&result.entries, entry), link),
                _ => earning(under, &input.entries, (&result.entries, entry), &mut tried)?,
            };
        }
        all.push(Lead { from });
    }
    Ok(all)
}

/// The 'every' entries of an input that lead to the same place.
fn alike(entries: &[Entry], way: &[Link], link: Link) -> Vec<usize> {
    places(entries, &Tree::new(entries), &[way, &[link]].concat())
}

/// The entries that earn an entry of the result. One set is as good as another, so those that speak of the same are tried first, and all of
/// the input's only where these do not earn it.
fn earning(
    under: Under<'_>,
    entries: &[Entry],
    (result, entry): (&[Entry], usize),
    tried: &mut usize,
) -> Result<Vec<usize>, Refusal> {
    let asked = alone(result, entry);
    let near = near(entries, &way(result, entry), result[entry - 1].says());
    let marks = library::earning(under.pairs, &cut_down(entries, &near), &asked)?;
    let numbers = (1..).zip(&near).filter(|(_, &is)| is);
    if let Some(marks) = marks {
        let marked = numbers.zip(marks).filter(|(_, is)| *is);
        return Ok(saying(entries, marked.map(|((number, _), _)| number)));
    }
    *tried += 1;
    if *tried > MOST_TRIED {
        return Ok(Vec::new());
    }
    let marks = library::earning(under.pairs, entries, &asked)?;
    let marked = (1..).zip(marks.unwrap_or_default()).filter(|(_, is)| *is);
    Ok(saying(entries, marked.map(|(number, _)| number)))
}

/// Those that are no owners.
fn saying(entries: &[Entry], numbers: impl Iterator<Item = usize>) -> Vec<usize> {
    numbers
        .filter(|number| entries[number - 1].kind != 5)
        .collect()
}

/// The entries at a place that speak of this, the bounds of the links on the way there, and the owners of both.
fn near(entries: &[Entry], way: &[Link], says: Says) -> Vec<bool> {
    let bounds = (0..way.len()).map(|steps| (&way[..steps], Says::AtMost(way[steps], 0)));
    let mut near = vec![false; entries.len()];
    for (way, says) in bounds.chain([(way, says)]) {
        for number in on_subject(entries, way, says).1 {
            let owners = owners(entries, number).into_iter();
            owners
                .chain([number])
                .for_each(|number| near[number - 1] = true);
        }
    }
    near
}

/// For each entry of an input whether the result says less than it; of an 'every', whether that is so of all that it owns.
pub(super) fn given_up(
    under: Under<'_>,
    input: &Input,
    result: &Input,
) -> Result<Vec<bool>, Refusal> {
    let under = Under {
        dictionary: &[],
        ..under
    };
    let gone = |entry| {
        let alone = encode(&alone(&input.entries, entry));
        let compared = library::compare(under, &result.bytes, &alone)?;
        Ok(compared != Compared::Contained)
    };
    let mut gone = (1..=input.entries.len())
        .map(gone)
        .collect::<Result<Vec<bool>, Refusal>>()?;
    let tree = Tree::new(&input.entries);
    // Owners come before what they own.
    for entry in (1..=input.entries.len()).rev() {
        let owned = tree.owned(entry);
        if input.entries[entry - 1].owns() && !owned.is_empty() {
            gone[entry - 1] = owned.iter().all(|&owned| gone[owned - 1]);
        }
    }
    Ok(gone)
}
