//! A refusal in words, and the block or entry that it names in its surroundings.
//!
//! That an input is refused, by which row and where, is the library's answer. Here it is only looked up what stands there.

mod record;
mod sheet;
mod shown;
mod stored;

use goltximen::{Reason, Refusal};

use crate::blocks::{self, Frame, BLOCK, BLOCK_ENTRIES};
use crate::dictionary::{self, measure, Dictionary, Measure, Naming, MOST_DESCRIPTIONS};
use crate::entry::{Entry, Named, Property, Sort};
use crate::library::MOST_SERVICES;
use crate::names::Names;
use crate::pairs::{List, Pair, MOST_PAIRS, PAIR};
use crate::text;
use crate::tree::owners;
use crate::words::{self, grouped, Words};

pub use record::{shown_record, why_record};
pub use sheet::outside;
pub use shown::{shown, shown_dictionary, shown_pairs};
pub use stored::{shown_stored, why_stored};

/// The most entries of a description, also once unfolded.
const MOST_ENTRIES: usize = 1008;

/// Why the input is refused, in words.
pub fn why(refusal: Refusal, sort: Sort, bytes: &[u8], naming: Naming<'_>) -> String {
    let place = usize::from(refusal.place);
    match refusal.reason {
        Reason::Length => length(sort, bytes),
        Reason::Unfolded => unfolded_fault(&blocks::decode(bytes), naming),
        Reason::Check => {
            let faults = blocks::frame(bytes, place).map(|frame| check_faults(frame, place));
            faults.unwrap_or_default()
        }
        Reason::Frame => {
            let fault = blocks::frame(bytes, place).map(|frame| frame_fault(frame, place, bytes));
            format!("block {place}: {}", fault.unwrap_or_default())
        }
        Reason::Form | Reason::Name | Reason::Owner | Reason::Depth | Reason::SecondItem => {
            let entries = blocks::decode(bytes);
            let e = entries
                .get(place.wrapping_sub(1))
                .copied()
                .unwrap_or_default();
            let fault = match refusal.reason {
                Reason::Form => form_fault(sort, e, naming),
                Reason::Name => name_fault(e, naming),
                Reason::Owner => owner_fault(sort, e, place, &entries),
                Reason::Depth => depth_fault(&entries, place),
                _ => second_item_fault(e, place, &entries),
            };
            format!("entry {place}: {fault}")
        }
        Reason::Sheet => sheet::fault(&blocks::decode(bytes), place),
        _ => rule(refusal),
    }
}

/// The rule that is broken, in words, where nothing is looked up.
pub fn rule(refusal: Refusal) -> String {
    match refusal.reason {
        Reason::Output => "the output is too short".into(),
        Reason::DeskFull => format!(
            "the desk holds {} entries, and takes no more",
            grouped(MOST_ENTRIES as u32)
        ),
        Reason::DeskEmpty => "the desk holds no entry that could be taken off".into(),
        Reason::Stand => "the number is that of no stand, or it would be the fifth".into(),
        Reason::Desk => "no list of calls gives this desk, or its memory is too short".into(),
        // The others have words of their own.
        _ => refusal.to_string(),
    }
}

/// Why the list of pairs is refused, in words.
pub fn why_list(refusal: Refusal, list: &List) -> String {
    let place = usize::from(refusal.place);
    let pair = list.pairs.get(place.wrapping_sub(1));
    match (pair, list.bytes.len() % PAIR) {
        (Some(&Pair(one, other)), _) => format!("pair {place}: {}", pair_fault(one, other)),
        (_, 0) => format!(
            "the list has {} pairs, and the most is {MOST_PAIRS}",
            grouped(list.pairs.len() as u32)
        ),
        (_, rest) => format!(
            "the list has {} bytes, which is no multiple of 4: {}, and {}",
            list.bytes.len(),
            counted(list.pairs.len(), "whole pair", "whole pairs"),
            counted(rest, "byte more", "bytes more")
        ),
    }
}

/// Why a list of services is refused as a whole, in words.
pub fn why_services(refusal: Refusal, list: &[u8]) -> String {
    match (refusal.reason, list.len()) {
        (Reason::TooMany, _) => format!(
            "the list has {} services, and the most is {MOST_SERVICES}",
            grouped(dictionary::split(list).len() as u32)
        ),
        (_, 0) => "there is no service".into(),
        (_, length) => length_fault("the list", length),
    }
}

/// Why the dictionary is refused, in words: the description of this number, or all of it where that is 0.
pub fn why_dictionary(refusal: Refusal, of: &Dictionary, number: Named) -> String {
    let index = usize::from(number.0).wrapping_sub(1);
    let Some(bytes) = dictionary::split(&of.bytes).get(index).copied() else {
        return match refusal.reason {
            Reason::TooMany => format!(
                "the dictionary has {} descriptions, and the most is {MOST_DESCRIPTIONS}",
                grouped(of.parts.len() as u32)
            ),
            _ => length_fault("the dictionary", of.bytes.len()),
        };
    };
    let why = match refusal.reason {
        Reason::Length => {
            let most = Sort::Description.most_blocks();
            let blocks = words::blocks(bytes.len() / BLOCK);
            format!("it has {blocks}, and a description has at most {most}")
        }
        _ => why(
            refusal,
            Sort::Description,
            bytes,
            Naming::Before(of, number),
        ),
    };
    format!("{}: {why}", text::description(number, &of.names))
}

fn pair_fault(one: Property, other: Property) -> String {
    match (one.0, other.0) {
        (0, 0) => "both of its properties are 0".into(),
        (0, _) => "its first property is 0".into(),
        (_, 0) => "its second property is 0".into(),
        (one, _) => format!("it names property {one} twice, and no property excludes itself"),
    }
}

/// Why a specimen is refused that does not keep the list: the entry gives its owner a property, and an earlier one gives it another
/// that excludes it.
pub fn why_not_kept(place: usize, entries: &[Entry], list: &List, names: &Names) -> String {
    let e = entries
        .get(place.wrapping_sub(1))
        .copied()
        .unwrap_or_default();
    let words = Words::new(names);
    let excluding = list.excluding(Property(e.name));
    let earlier = (1..).zip(&entries[..place.saturating_sub(1)]);
    let first = earlier.filter(|(_, other)| (other.kind, other.owner) == (1, e.owner));
    let mut first = first.filter(|(_, other)| excluding.contains(&Property(other.name)));
    let owner = match e.owner {
        0 => "the top item".into(),
        owner => format!("the items of entry {owner}"),
    };
    let Some((number, other)) = first.next() else {
        return format!("entry {place}: {owner} would have both properties of a pair");
    };
    let (this, that) = (Property(e.name), Property(other.name));
    let pair = list.number_of(this, that).unwrap_or(0);
    format!(
        "entry {place}: it gives {owner} {}, and entry {number} gives {}; pair {pair} of the list says that the two exclude each other",
        words.property(this),
        words.property(that)
    )
}

fn length(sort: Sort, bytes: &[u8]) -> String {
    let (whole, rest) = (bytes.len() / BLOCK, bytes.len() % BLOCK);
    let most = sort.most_blocks();
    let sort = sort.word();
    let utf16 = bytes.starts_with(&[0xff, 0xfe]) || bytes.starts_with(&[0xfe, 0xff]);
    match (bytes.len(), rest) {
        (0, _) => "the input is empty: it has 0 bytes, and the least is one block of 512".into(),
        _ if utf16 => {
            "the input is no blocks; it looks like a text in UTF-16, save it as UTF-8".into()
        }
        // No more than 8 MiB are read.
        (_, 0) if whole >= 1 << 14 => {
            format!("the input has {whole} blocks or more, and a {sort} has at most {most}")
        }
        (_, 0) => format!("the input has {whole} blocks, and a {sort} has at most {most}"),
        (length, _) => length_fault("the input", length),
    }
}

/// A length that is no multiple of 512.
fn length_fault(what: &str, length: usize) -> String {
    format!(
        "{what} has {length} bytes, which is no multiple of 512: {}, and {}",
        counted(length / BLOCK, "whole block", "whole blocks"),
        counted(length % BLOCK, "byte more", "bytes more")
    )
}

fn counted(count: usize, one: &str, many: &str) -> String {
    let word = if count == 1 { one } else { many };
    format!("{count} {word}")
}

/// Which of the block's checks is wrong, or both.
fn check_faults(frame: Frame, block: usize) -> String {
    let Frame { first, second, .. } = frame;
    let first_fault = format!(
        "the first check of block {block} is wrong: it says {}, and the words before it add up to {}",
        first.says, first.sum
    );
    let second_fault = format!(
        "the second check of block {block} is wrong: it says {}, and the words before it, each times its number, add up to {}",
        second.says, second.sum
    );
    match (first.is_right(), second.is_right()) {
        (false, true) => first_fault,
        (true, _) => second_fault,
        _ => format!("{first_fault}; {second_fault}"),
    }
}

/// Which of the block's number, its used count and its zero bytes is wrong.
fn frame_fault(frame: Frame, block: usize, bytes: &[u8]) -> String {
    in_order_fault(frame, block, bytes.len() / BLOCK, BLOCK_ENTRIES)
}

/// The same of one of so many blocks, each with room for so many entries.
fn in_order_fault(frame: Frame, block: usize, total: usize, most: usize) -> String {
    let used = usize::from(frame.used);
    let least = if block < total {
        most
    } else {
        usize::from(total > 1)
    };
    if usize::from(frame.number) != block {
        return format!("its number says {}", frame.number);
    }
    if used > most || used < least {
        let due = match (block < total, total) {
            (true, _) => format!("every block but the last uses {most}"),
            (_, 1) => format!("a block uses 0 to {most}"),
            _ => format!("the last of several uses 1 to {most}"),
        };
        return format!("it says that {used} entries are used, and {due}");
    }
    match frame.not_zero {
        Some((at, value)) => format!("byte {at} is due to be zero and is {value}"),
        None => "its frame is wrong".into(),
    }
}

/// Which field of an entry is outside the table.
fn form_fault(sort: Sort, e: Entry, naming: Naming<'_>) -> String {
    let named = !matches!(naming, Naming::Nothing | Naming::Sheet);
    let (allowed, kinds) = match sort {
        Sort::Description if named => ((1..=6).contains(&e.kind) || e.kind == 9, "1 to 6 and 9"),
        Sort::Description => ((1..=6).contains(&e.kind), "1 to 6"),
        Sort::Specimen => (e.kind == 1 || e.kind == 7, "1 and 7"),
    };
    if !allowed && sort == Sort::Description && e.kind == 9 {
        let none = match naming {
            Naming::Sheet => "a field sheet names none",
            _ => "no dictionary is given",
        };
        return format!("its kind is 9, which names a description, and {none}");
    }
    if !allowed {
        let sort = sort.word();
        return format!("its kind is {}, and a {sort} has kinds {kinds}", e.kind);
    }
    if e.zero != 0 {
        return format!("its byte 1 is {}, and it is due to be zero", e.zero);
    }
    match (e.kind, e.name) {
        (9, _) => format!("its number is {}, and kind 9 has 0", e.number),
        (6, 0) => format!("its number is {}, and kind 6 has 0", e.number),
        (6, name) => format!("its name is {name}, and kind 6 has 0"),
        (kind, 0) => format!("its name is 0, and kind {kind} has 1 to 65,535"),
        (kind, _) => format!("its number is {}, and kind {kind} has 0", e.number),
    }
}

/// Why a description may not be named.
fn name_fault(e: Entry, naming: Naming<'_>) -> String {
    let name = e.name;
    let names = format!("it names description {name}");
    let count = match naming {
        _ if name == 0 => return "its name is 0, and descriptions count from 1".into(),
        Naming::Before(_, Named(number)) if name == number => {
            return format!("{names}, in which it stands itself")
        }
        Naming::Before(of, Named(number)) if usize::from(name) <= of.parts.len() => {
            return format!("{names}, and description {number} may name only earlier ones")
        }
        Naming::Any | Naming::Nothing | Naming::Sheet => {
            return format!("{names}, and a dictionary has at most {MOST_DESCRIPTIONS}")
        }
        Naming::All(of) if of.title.is_empty() => {
            return format!("{names}, and no dictionary is given")
        }
        Naming::All(of) | Naming::Before(of, _) => of.parts.len(),
    };
    format!(
        "{names}, and the dictionary has {}",
        words::descriptions(count)
    )
}

/// The descriptions that may be named, as large as they are once unfolded.
fn measures(naming: Naming<'_>) -> Vec<Measure> {
    match naming {
        Naming::Nothing | Naming::Sheet | Naming::Any => Vec::new(),
        Naming::All(of) => of.measures(of.parts.len()),
        Naming::Before(of, Named(number)) => of.measures(usize::from(number).saturating_sub(1)),
    }
}

/// A description that has too many entries, or too deep ones, once unfolded.
fn unfolded_fault(entries: &[Entry], naming: Naming<'_>) -> String {
    let whole = measure(entries, &measures(naming));
    let (count, deepest) = (whole.entries(), whole.deepest.unwrap_or(0));
    match count > MOST_ENTRIES {
        true => format!(
            "once unfolded it has {}, and the most is {}",
            words::entries(count),
            grouped(MOST_ENTRIES as u32)
        ),
        false => format!("once unfolded it goes {deepest} deep, and the most is 32"),
    }
}

fn owner_fault(sort: Sort, e: Entry, number: usize, entries: &[Entry]) -> String {
    let owner = usize::from(e.owner);
    let (kind, word) = sort.owner_kind();
    if owner >= number {
        let which = if owner == number {
            "itself"
        } else if owner > entries.len() {
            "and there is no such entry"
        } else {
            "a later entry"
        };
        return format!("its owner is entry {owner}, {which}");
    }
    let found = entries
        .get(owner.wrapping_sub(1))
        .map_or(0, |owner| owner.kind);
    format!("its owner is entry {owner} of kind {found}, and an owner is of kind {kind} ({word})")
}

fn depth_fault(entries: &[Entry], number: usize) -> String {
    let depth = owners(entries, number).len();
    format!("it stands {depth} deep, and the most is 32")
}

/// A group of several items, or a second group of its owner, by a link that leads to one item only.
fn second_item_fault(e: Entry, number: usize, entries: &[Entry]) -> String {
    let only = format!("link {}, which leads to one item only", e.name);
    let items = u32::from(e.number) + 1;
    if items > 1 {
        return format!("it is a group of {} items by {only}", grouped(items));
    }
    let owner = match e.owner {
        0 => "the top item".into(),
        owner => format!("its owner, entry {owner},"),
    };
    let same = |other: &Entry| (other.kind, other.owner, other.name) == (7, e.owner, e.name);
    let first = entries[..number - 1]
        .iter()
        .position(same)
        .map_or(0, |at| at + 1);
    format!("it brings {owner} a second item by {only}; entry {first} is the first")
}
