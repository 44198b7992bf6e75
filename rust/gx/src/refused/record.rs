//! Why a delivered record is refused, in words, and what it says around the place.

use goltximen::{Reason, Refusal, MOST_ITEMS};

use super::shown::shown_blocks;
use super::{check_faults, frame_fault, length};
use crate::blocks;
use crate::delivered::{Delivered, LINKED};
use crate::entry::Sort;
use crate::text;

/// How many lines are shown on each side.
const AROUND: usize = 3;

/// Why it is refused, in words.
pub fn why_record(refusal: Refusal, of: &Delivered) -> String {
    let place = usize::from(refusal.place);
    let frame = blocks::frame(&of.bytes, place);
    match refusal.reason {
        Reason::Item if place == 0 => format!(
            "it has {} items, and a record has 1 to {MOST_ITEMS}",
            of.items
        ),
        // A record has as many blocks as a specimen.
        Reason::Length => length(Sort::Specimen, &of.bytes).replace("specimen", "record"),
        Reason::Check => frame.map_or(String::new(), |frame| check_faults(frame, place)),
        Reason::Frame => {
            let fault = frame.map(|frame| frame_fault(frame, place, &of.bytes));
            format!("block {place}: {}", fault.unwrap_or_default())
        }
        reason => format!("entry {place}: {}", entry_fault(reason, of, place)),
    }
}

fn entry_fault(reason: Reason, of: &Delivered, place: usize) -> String {
    let e = of
        .entries
        .get(place.wrapping_sub(1))
        .copied()
        .unwrap_or_default();
    let item = |number: u16| number == 0 || usize::from(number) > of.items;
    match reason {
        Reason::Item if item(e.owner) => {
            format!(
                "it speaks of item {}, and the record has items 1 to {}",
                e.owner, of.items
            )
        }
        Reason::Item => {
            format!(
                "it links to item {}, and the record has items 1 to {}",
                e.number, of.items
            )
        }
        Reason::SecondItem => format!(
            "it brings item {} a second item by link {}, which leads to one item only",
            e.owner, e.name
        ),
        Reason::BothOfAPair => {
            let property = text::property(crate::entry::Property(e.name), &of.names);
            format!("item {} has a property that excludes {property}", e.owner)
        }
        _ if e.kind != 1 && e.kind != LINKED => {
            format!("its kind is {}, and a record has kinds 1 and 8", e.kind)
        }
        _ if e.zero != 0 => format!("its byte 1 is {}, and it is due to be zero", e.zero),
        _ if e.name == 0 => "its name is 0, and properties and links are 1 to 65,535".into(),
        _ => format!("its number is {}, and kind 1 has 0", e.number),
    }
}

/// What the record says around the entry that the refusal names.
pub fn shown_record(refusal: Refusal, of: &Delivered) -> String {
    let place = usize::from(refusal.place);
    match refusal.reason {
        _ if place == 0 => return String::new(),
        Reason::Check | Reason::Frame => return shown_blocks(&of.bytes, place),
        _ => (),
    }
    let first = place.saturating_sub(AROUND).max(1);
    let last = (place + AROUND).min(of.entries.len());
    let width = last.to_string().len();
    let line = |number: usize| {
        let sign = if number == place { '>' } else { ' ' };
        let said = text::said_of_item(&of.entries[number - 1], &of.names);
        format!("{sign} entry {number:>width$}: {said}\n")
    };
    (first..=last).map(line).collect()
}
