//! Why what is given in the stored form is refused, in words, and the entries around the place with their depths.

use goltximen::{Reason, Refusal};

use super::{check_faults, counted, in_order_fault, length_fault};
use crate::blocks::BLOCK;
use crate::input::Form;
use crate::names::Names;
use crate::stored::{decode, frame, place_of, Stored, MOST_BLOCKS, STORED_BYTES, STORED_ENTRIES};
use crate::text;

/// How many entries are shown on each side.
const AROUND: usize = 3;

/// Why it is refused, in words.
pub fn why_stored(refusal: Refusal, bytes: &[u8]) -> String {
    let place = usize::from(refusal.place);
    let frame = frame(bytes, place);
    match refusal.reason {
        Reason::Length if bytes.is_empty() => {
            "the input is empty: it has 0 bytes, and the least is one block of 512".into()
        }
        Reason::Length if !bytes.len().is_multiple_of(BLOCK) => {
            let fault = length_fault("the input", bytes.len());
            match Form::of(bytes) {
                Form::Text => format!("{fault}; it looks like a text, which --from text reads"),
                _ => fault,
            }
        }
        Reason::Length => format!(
            "the input has {}, and the stored form has at most {MOST_BLOCKS}",
            counted(bytes.len() / BLOCK, "block", "blocks")
        ),
        Reason::Check => frame.map_or(String::new(), |frame| check_faults(frame, place)),
        Reason::Frame => {
            let blocks = bytes.len() / BLOCK;
            let fault = frame.map(|frame| in_order_fault(frame, place, blocks, STORED_ENTRIES));
            format!("block {place}: {}", fault.unwrap_or_default())
        }
        _ => format!(
            "entry {place}: {}",
            entry_fault(refusal.reason, &decode(bytes), place)
        ),
    }
}

fn entry_fault(reason: Reason, entries: &[Stored], place: usize) -> String {
    let e = entries
        .get(place.wrapping_sub(1))
        .copied()
        .unwrap_or_default();
    match reason {
        Reason::Order => order_fault(e, entries, place),
        Reason::Depth => format!("it stands {} deep, and the most is 32", e.depth),
        _ if !(1..=6).contains(&e.kind) => {
            format!("its kind is {}, and a description has kinds 1 to 6", e.kind)
        }
        _ => match (e.kind, e.name) {
            (6, 0) => format!("its number is {}, and kind 6 has 0", e.number),
            (6, name) => format!("its name is {name}, and kind 6 has 0"),
            (kind, 0) => format!("its name is 0, and kind {kind} has 1 to 65,535"),
            (kind, _) => format!("its number is {}, and kind {kind} has 0", e.number),
        },
    }
}

/// No 'every' one less deep stands before an entry to own it.
fn order_fault(e: Stored, entries: &[Stored], place: usize) -> String {
    let due = format!(
        "it stands {} deep, and needs an 'every' {} deep before it",
        e.depth,
        e.depth.saturating_sub(1)
    );
    let earlier = (1..).zip(&entries[..place.saturating_sub(1).min(entries.len())]);
    let nearest = earlier.filter(|(_, other)| other.depth < e.depth).last();
    match nearest {
        Some((number, other)) => format!(
            "{due}; the nearest before it that is less deep is entry {number}, of kind {}, {} deep",
            other.kind, other.depth
        ),
        None => format!("{due}; no entry before it is less deep"),
    }
}

/// The entries around the one that the refusal names, each with its depth.
pub fn shown_stored(refusal: Refusal, bytes: &[u8], names: &Names) -> String {
    let place = usize::from(refusal.place);
    let blocks = matches!(
        refusal.reason,
        Reason::Length | Reason::Check | Reason::Frame
    );
    if place == 0 || blocks {
        return String::new();
    }
    let entries = decode(bytes);
    let first = place.saturating_sub(AROUND).max(1);
    let last = (place + AROUND).min(entries.len());
    let width = last.to_string().len();
    let mut out = String::new();
    for number in first..=last {
        let e = entries[number - 1];
        let sign = if number == place { '>' } else { ' ' };
        let indent = "    ".repeat(e.depth.min(8).into());
        out.push_str(&format!(
            "{sign} entry {number:>width$}, depth {:>3}: {indent}{}\n",
            e.depth,
            text::entry(e.says(), names)
        ));
    }
    let e = entries.get(place - 1).copied().unwrap_or_default();
    let (block, at) = place_of(place);
    let hex: Vec<String> = e.bytes().iter().map(|byte| format!("{byte:02x}")).collect();
    out.push_str(&format!(
        "\n  entry {place} is in block {block}, bytes {at} to {}: {}\n",
        at + STORED_BYTES - 1,
        hex.join(" ")
    ));
    out
}
