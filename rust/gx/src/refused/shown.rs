//! The block, entry, pair or description that a refusal names, in its surroundings.

use goltximen::{Reason, Refusal};

use super::{measures, MOST_ENTRIES};
use crate::blocks::{self, BLOCK};
use crate::dictionary::{self, measure, Dictionary, Naming};
use crate::entry::{Entry, Named};
use crate::names::Names;
use crate::pairs::{List, PAIR};
use crate::text;
use crate::tree::owners;
use crate::words;

/// How many entries are shown on each side.
const AROUND: usize = 3;

/// The block or entry that the refusal names, in its surroundings; of one that is too large once unfolded, the largest that it names.
pub fn shown(refusal: Refusal, bytes: &[u8], names: &Names, naming: Naming<'_>) -> String {
    let place = usize::from(refusal.place);
    match refusal.reason {
        Reason::Unfolded => shown_named(&blocks::decode(bytes), names, naming),
        _ if place == 0 => String::new(),
        Reason::Check | Reason::Frame => shown_blocks(bytes, place),
        _ => shown_entries(bytes, place, names),
    }
}

/// The pair that the refusal of a list names, in its surroundings.
pub fn shown_pairs(refusal: Refusal, list: &List) -> String {
    let place = usize::from(refusal.place);
    if place == 0 {
        return String::new();
    }
    let first = place.saturating_sub(AROUND).max(1);
    let last = (place + AROUND).min(list.pairs.len());
    let width = last.to_string().len();
    let mut out = String::new();
    for number in first..=last {
        let sign = if number == place { '>' } else { ' ' };
        let words = text::pair(list.pairs[number - 1], &list.names);
        out.push_str(&format!("{sign} pair {number:>width$}: {words}\n"));
    }
    let at = (place - 1) * PAIR;
    let bytes = list.bytes.get(at..at + PAIR).unwrap_or_default();
    out.push_str(&format!(
        "\n  pair {place} is bytes {at} to {}: {}\n",
        at + PAIR - 1,
        in_hex(bytes)
    ));
    out
}

/// So many of the named entries are shown.
const MOST_NAMED: usize = 7;

/// The named entries with the most in them, or the deepest, and how much each puts in.
fn shown_named(entries: &[Entry], names: &Names, naming: Naming<'_>) -> String {
    let measures = measures(naming);
    let large = measure(entries, &measures).entries() > MOST_ENTRIES;
    let mut named: Vec<(usize, usize, usize, Entry)> = (1..)
        .zip(entries)
        .filter_map(|(number, &e)| {
            let index = usize::from(e.says().named()?.0).checked_sub(1)?;
            let put_in = measures.get(index)?;
            let depth = owners(entries, number).len() + put_in.deepest?;
            Some((number, put_in.entries(), depth, e))
        })
        .collect();
    let count = named.len();
    named.sort_by_key(|&(_, size, depth, _)| std::cmp::Reverse(if large { size } else { depth }));
    named.truncate(MOST_NAMED);
    named.sort_by_key(|&(number, ..)| number);
    let width = entries.len().to_string().len();
    let mut out = String::new();
    for (number, size, depth, e) in &named {
        out.push_str(&format!(
            "  entry {number:>width$}: {} puts in {}, down to {depth} deep\n",
            text::entry(e.says(), names),
            words::entries(*size)
        ));
    }
    if count > named.len() {
        out.push_str(&format!(
            "  ({} more name descriptions)\n",
            count - named.len()
        ));
    }
    out
}

fn in_hex(bytes: &[u8]) -> String {
    let hex: Vec<String> = bytes.iter().map(|byte| format!("{byte:02x}")).collect();
    hex.join(" ")
}

pub(super) fn shown_blocks(bytes: &[u8], place: usize) -> String {
    let total = bytes.len() / BLOCK;
    let first = place.saturating_sub(1).max(1);
    let mut out = String::new();
    for block in first..=(place + 1).min(total) {
        let Some(frame) = blocks::frame(bytes, block) else {
            continue;
        };
        let sign = if block == place { '>' } else { ' ' };
        let zero = frame.not_zero.map_or(String::new(), |(at, value)| {
            format!(", byte {at} is {value}")
        });
        out.push_str(&format!(
            "{sign} block {block} of {total} (bytes {} to {}): number {}, used {}, first check {}, sum {}, second check {}, sum {}{zero}\n",
            (block - 1) * BLOCK,
            block * BLOCK - 1,
            frame.number,
            frame.used,
            frame.first.says,
            frame.first.sum,
            frame.second.says,
            frame.second.sum
        ));
    }
    out
}

fn shown_entries(bytes: &[u8], place: usize, names: &Names) -> String {
    let entries = blocks::decode(bytes);
    let first = place.saturating_sub(AROUND).max(1);
    let last = (place + AROUND).min(entries.len());
    let width = last.to_string().len();
    let mut out = String::new();
    for number in first..=last {
        let e = entries[number - 1];
        let sign = if number == place { '>' } else { ' ' };
        let owner = match e.owner {
            0 => "at the top".into(),
            owner => format!("owner {owner}"),
        };
        let words = text::entry(e.says(), names);
        out.push_str(&format!(
            "{sign} entry {number:>width$}, {owner}: {words}\n"
        ));
    }
    let e = entries
        .get(place.wrapping_sub(1))
        .copied()
        .unwrap_or_default();
    let (block, at) = blocks::place_of(place);
    out.push_str(&format!(
        "\n  entry {place} is in block {block}, bytes {at} to {}: {}\n",
        at + 7,
        in_hex(&blocks::entry_bytes(&e))
    ));
    out
}

/// What the entry, block or description of a dictionary that the refusal names stands between.
pub fn shown_dictionary(refusal: Refusal, of: &Dictionary, number: Named) -> String {
    let parts = dictionary::split(&of.bytes);
    let index = usize::from(number.0).wrapping_sub(1);
    let Some(bytes) = parts.get(index).copied() else {
        return String::new();
    };
    let shown = shown(refusal, bytes, &of.names, Naming::Before(of, number));
    let start: usize = parts[..index].iter().map(|part| part.len()).sum();
    let end = start + bytes.len() - 1;
    let number = number.0;
    format!("{shown}  description {number} is bytes {start} to {end} of the dictionary\n")
}
