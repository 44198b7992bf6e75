//! What is shown is read back: a text is given to its own reader, and has to be what it was written from.

use crate::blocks::encode;
use crate::delivered::Delivered;
use crate::dictionary::{self, Dictionary};
use crate::entry::{Entry, Sort};
use crate::explain::Failure;
use crate::input::Input;
use crate::names::Names;
use crate::pairs::List;
use crate::services::Services;
use crate::specimen::read::{self, Due, Reader};
use crate::text;
use crate::trouble::Trouble;
use crate::words::Words;

/// The text of these entries, if its reader gives them again; `of` is the file that they come from.
///
/// # Errors
///
/// An error of this program: it does not.
pub fn entries(
    text: String,
    sort: Sort,
    entries: &[Entry],
    names: &Names,
    of: &str,
) -> Result<String, Trouble> {
    let same = text::parse(&text, names).is_ok_and(|parsed| {
        let said = parsed.sort.map(|(sort, _)| sort);
        let told = said.unwrap_or_else(|| Sort::guess(&parsed.entries));
        told == sort && encode(&parsed.entries) == encode(entries)
    });
    shown(text, same, of)
}

/// The text of a list of pairs, if its reader gives them again.
///
/// # Errors
///
/// An error of this program: it does not.
pub fn pairs(text: String, list: &List) -> Result<String, Trouble> {
    let same = text::parse_pairs(&text, &list.names);
    let same = same.is_ok_and(|parsed| parsed.pairs == list.pairs);
    shown(text, same, &list.title)
}

/// The text of a dictionary, if its reader gives its bytes again.
///
/// # Errors
///
/// An error of this program: it does not.
pub fn dictionary(text: String, of: &Dictionary) -> Result<String, Trouble> {
    let same = text::parse_dictionary(&text, &of.names);
    let same = same.is_ok_and(|parsed| dictionary::encode(&parsed.parts) == of.bytes);
    shown(text, same, &of.title)
}

/// The text of a list of services, if its reader gives its bytes again.
///
/// # Errors
///
/// An error of this program: it does not.
pub fn services(text: String, of: &Services) -> Result<String, Trouble> {
    let same = text::parse_services(&text, &of.names);
    let same = same.is_ok_and(|parsed| dictionary::encode(&parsed.parts) == of.bytes);
    shown(text, same, &of.title)
}

/// The text of a delivered record, if its reader gives it again.
///
/// # Errors
///
/// An error of this program: it does not.
pub fn record(text: String, of: &Delivered) -> Result<String, Trouble> {
    let same = text::parse_record(&text, &of.names);
    let same = same.is_ok_and(|parsed| parsed.items == of.items && parsed.entries == of.entries);
    shown(text, same, &of.title)
}

/// The lines of a specimen after a no, if they say what it has. Of many groups only those of its path are shown.
///
/// # Errors
///
/// An error of this program: they do not.
pub fn specimen(text: String, failure: &Failure, words: Words<'_>) -> Result<String, Trouble> {
    let same = is_specimen(&text, failure, words).unwrap_or(false);
    shown(text, same, "the specimen")
}

fn is_specimen(text: &str, failure: &Failure, words: Words<'_>) -> Option<bool> {
    let of = &failure.specimen;
    let mut lines: Vec<&str> = text.lines().collect();
    let left_out = lines.last()?.trim_start().strip_prefix('(');
    let left_out = left_out.and_then(|rest| rest.split_once(" more groups;"));
    let left_out = match left_out {
        Some((count, _)) => {
            lines.pop();
            count.parse().ok()?
        }
        None => 0,
    };
    let due = read::due(&of.entries);
    let groups = due.len();
    let on_path = |group: usize| group == 0 || of.path.contains(&group);
    let shown = due.iter();
    let shown = shown.filter(|line| left_out == 0 || on_path(line.of));
    let shown: Vec<&Due> = shown.collect();
    let reader = Reader::new(words.names());
    let note = format!("    <-- {}", failure.note(words));
    let same = |(line, due): (&&str, &&Due)| {
        let said = &due.said;
        let marked = match due.of == of.at {
            true => line.strip_suffix(&note),
            false => Some(*line),
        };
        let begin = "    ".repeat(said.depth + 1);
        let line = marked.and_then(|line| line.strip_prefix(&begin));
        let read = line.map(|line| reader.readings(line, said.depth));
        read.is_some_and(|read| read.contains(said))
    };
    let all = lines.len() == shown.len() && lines.len() + left_out == groups;
    Some(all && lines.iter().zip(&shown).all(same))
}

/// The lines of a description around an entry, if each says what its number has there.
///
/// # Errors
///
/// An error of this program: one does not.
pub fn surroundings(text: String, input: &Input, names: &Names) -> Result<String, Trouble> {
    let same = |line: &str| {
        let line = line.trim_start_matches([' ', '>', '+']);
        let Some((number, entry)) = line.split_once("  ") else {
            return line == "...";
        };
        let number: usize = number.parse().unwrap_or(0);
        let due = number.checked_sub(1).and_then(|at| input.entries.get(at));
        let read = text::parse(entry.trim_start(), names).map(|parsed| parsed.entries);
        matches!((read.as_deref(), due), (Ok([read]), Some(due)) if read.says() == due.says())
    };
    let same = text.lines().all(same);
    shown(text, same, &input.title)
}

fn shown(text: String, same: bool, of: &str) -> Result<String, Trouble> {
    match same {
        true => Ok(text),
        false => Err(Trouble::Fault {
            file: of.into(),
            why: "the text that would be shown is not read back as what it was written from".into(),
        }),
    }
}
