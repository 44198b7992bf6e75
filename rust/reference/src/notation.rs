//! The notation of the desk examples.
//!
//! Kind, name and number with commas, what an entry owns in brackets (E8).

use crate::{encode, Entry};

/// The entries written in this text.
///
/// # Panics
///
/// If the text is not in the notation.
pub fn entries(text: &str) -> Vec<Entry> {
    let mut entries = Vec::new();
    let mut owners: Vec<u16> = vec![0];
    let mut written = String::new();
    for sign in text.chars().chain([';']) {
        match sign {
            '[' => {
                take(&mut entries, &owners, &mut written);
                owners.push(entries.len() as u16);
            }
            ']' => {
                take(&mut entries, &owners, &mut written);
                owners.pop();
            }
            ';' => take(&mut entries, &owners, &mut written),
            ' ' => (),
            _ => written.push(sign),
        }
    }
    assert_eq!(owners, [0], "brackets in {text}");
    entries
}

/// Adds the entry written so far, if there is one.
fn take(entries: &mut Vec<Entry>, owners: &[u16], written: &mut String) {
    if written.is_empty() {
        return;
    }
    let fields: Vec<u16> = written
        .split(',')
        .map(|field| field.parse().unwrap())
        .collect();
    let field = |index: usize| fields.get(index).copied().unwrap_or(0);
    entries.push(entry(
        field(0) as u8,
        *owners.last().unwrap(),
        field(1),
        field(2),
    ));
    written.clear();
}

/// One entry.
pub fn entry(kind: u8, owner: u16, name: u16, number: u16) -> Entry {
    Entry {
        kind,
        zero: 0,
        owner,
        name,
        number,
    }
}

/// The blocks of what is written in this text.
///
/// # Panics
///
/// If the text is not in the notation.
pub fn blocks(text: &str) -> Vec<u8> {
    encode(&entries(text))
}
