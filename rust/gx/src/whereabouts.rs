//! Where an entry of an input stands: its line in a text, and the named entry that it was put in for.

use crate::input::Input;
use crate::names::Names;
use crate::text;

/// Where an entry stands, in brackets after a space: " (line 4; entry 2 of description 1, named by entry 3 as sent)"; nothing of
/// blocks without named entries.
pub fn told(input: &Input, entry: usize, names: &Names) -> String {
    let line = input.line_of(entry).map(|line| format!("line {line}"));
    in_brackets([line, origin(input, entry, names)])
}

/// The same without the line.
pub fn of_origin(input: &Input, entry: usize, names: &Names) -> String {
    in_brackets([None, origin(input, entry, names)])
}

fn in_brackets(parts: [Option<String>; 2]) -> String {
    let parts: Vec<String> = parts.into_iter().flatten().collect();
    match parts.is_empty() {
        true => String::new(),
        false => format!(" ({})", parts.join("; ")),
    }
}

/// Where an entry comes from, if its number is not the one that it was sent with.
fn origin(input: &Input, entry: usize, names: &Names) -> Option<String> {
    let origin = input.origins.get(entry.checked_sub(1)?)?;
    if origin.within.is_empty() {
        let moved = origin.sent != entry;
        return moved.then(|| format!("entry {} as sent", origin.sent));
    }
    let within = origin.within.iter().rev().map(|&(named, entry)| {
        let of = text::description(named, names);
        format!("entry {entry} of {of}, named by ")
    });
    let within: String = within.collect();
    Some(format!("{within}entry {} as sent", origin.sent))
}
