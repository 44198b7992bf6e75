//! The program.

use crate::blocks::{decode, stored_number, Entry, BLOCK_BYTES};
use crate::compare::{compare, Comparison};
use crate::refusal::Refusal;

/// At most 16,385 bytes of standard input (Q1).
const MOST_BYTES: usize = 16_385;

/// What the program prints for these bytes of standard input. Each line ends
/// with a line feed.
pub fn run_program(input: &[u8]) -> String {
    let input = input.get(..MOST_BYTES).unwrap_or(input);
    let end = end_of_c(input);
    let c = input.get(..end).unwrap_or(input);
    let d = input.get(end..).unwrap_or(&[]);
    let mut out = vec![0; c.len().saturating_add(d.len())];
    match compare(c, d, &mut out) {
        Ok(Comparison::Contained) => String::from("contained\n"),
        Ok(Comparison::NotContained { entry, entries }) => {
            not_contained(entry, decode(&out).get(..entries).unwrap_or(&[]))
        }
        Err(refusal) => refused(&refusal),
    }
}

/// C up to the first later block numbered 1, then D; without one, C is all
/// (Q2).
fn end_of_c(input: &[u8]) -> usize {
    let mut blocks = input.chunks_exact(BLOCK_BYTES).enumerate().skip(1);
    match blocks.find(|(_, block)| stored_number(block) == 1) {
        Some((index, _)) => index.saturating_mul(BLOCK_BYTES),
        None => input.len(),
    }
}

/// The words of a refusal (Q3).
fn refused(refusal: &Refusal) -> String {
    let Refusal {
        number,
        input,
        place,
    } = refusal;
    format!("refused {number} input {input} place {place}\n")
}

/// Not contained, then a line for each entry of the specimen (Q3).
fn not_contained(entry: usize, specimen: &[Entry]) -> String {
    let mut text = format!("not contained {entry}\n");
    for (number, entry) in (1..).zip(specimen) {
        text.push_str(&specimen_line(number, entry));
    }
    text
}

/// `has` or `group` with its entry number (Q3); `count` is one more than what
/// is stored; fields are decimal (Q4).
fn specimen_line(number: usize, entry: &Entry) -> String {
    let Entry { owner, name, .. } = entry;
    if entry.kind == 1 {
        return format!("has {number} owner {owner} property {name}\n");
    }
    let count = u32::from(entry.number).saturating_add(1);
    format!("group {number} owner {owner} link {name} count {count}\n")
}
