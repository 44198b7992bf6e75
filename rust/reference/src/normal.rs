//! The normal form.

use crate::background::Background;
use crate::blocks::{length_in_blocks, write, Entry};
use crate::order::{in_order, Row};
use crate::refusal::Refusal;
use crate::rules::normal_place;
use crate::tree::{top_place, Fact, Place};

/// Writes the normal form of a description, with no excluding pairs and no
/// named descriptions.
pub fn normal_form(description: &[u8], out: &mut [u8]) -> Result<usize, Refusal> {
    normal_with(&[], &[], description, out)
}

/// Writes the normal form of a description in blocks, under a list of
/// excluding pairs and with a dictionary, and answers its number of entries.
///
/// One input, and an output as long (N14). written in blocks, ascending;
/// later bytes stay; the answer is the number of entries (N15).
///
/// Both properties of a pair are impossible, and the lack that one implies
/// goes (S9) (S10).
///
/// Answers and written bytes are those for the unfolded descriptions, by which
/// the output is measured (D8). A plain description is as long unfolded as it
/// was sent.
pub fn normal_with(
    pairs: &[u8],
    dict: &[u8],
    description: &[u8],
    out: &mut [u8],
) -> Result<usize, Refusal> {
    let Background { pairs, dictionary } = Background::read(pairs, dict)?;
    let entries = dictionary.read_description(description, 1)?;
    if out.len() < length_in_blocks(&entries) {
        return Err(Refusal::output_too_short());
    }
    let normal = entries_of(&normal_place(top_place(&entries), &pairs));
    write(&normal, out);
    Ok(normal.len())
}

/// The entries of a tree of places, in the order of the normal form.
pub(crate) fn entries_of(top: &Place) -> Vec<Entry> {
    in_order(rows_of(top))
}

fn rows_of(place: &Place) -> Vec<Row> {
    let facts = place.facts.iter().map(row_of_fact);
    let every = place.every.iter().map(|every| Row {
        kind: 5,
        name: every.link.0,
        number: 0,
        owned: rows_of(&every.place),
    });
    facts.chain(every).collect()
}

pub(crate) fn row_of_fact(fact: &Fact) -> Row {
    let (kind, name, number) = match *fact {
        Fact::Has(property) => (1, property.0, 0),
        Fact::Lacks(property) => (2, property.0, 0),
        Fact::AtLeast(link, n) => (3, link.0, n),
        Fact::AtMost(link, n) => (4, link.0, n),
        Fact::Nothing => (6, 0, 0),
    };
    Row {
        kind,
        name,
        number,
        owned: Vec::new(),
    }
}
