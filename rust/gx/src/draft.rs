//! The steps of a drafting desk in words: add, take-off, stand, back, drop, and what shows what it holds.

use crate::entry::Entry;
use crate::library::Step;
use crate::names::Names;
use crate::suggest::meant;
use crate::text;

/// What a line at the desk asks for.
#[derive(Clone, Debug, PartialEq, Eq)]
pub enum Asked {
    /// A step.
    Step(Step),
    /// What the desk holds, to see.
    Show,
    /// What the desk holds, to keep.
    Write,
}

/// The first words of a line.
const WORDS: [&str; 7] = ["add", "take-off", "stand", "back", "drop", "show", "write"];

/// What a line has before a remark, which goes from `//` outside quotes to its end.
pub fn step(line: &str) -> &str {
    let (mut quoted, mut before) = (false, ' ');
    for (at, sign) in line.char_indices() {
        match (before, sign) {
            // In quotes this stands for the sign itself.
            ('\\', '"' | '\\') if quoted => {
                before = ' ';
                continue;
            }
            (_, '"') => quoted = !quoted,
            ('/', '/') if !quoted => return line[..at - 1].trim(),
            _ => (),
        }
        before = sign;
    }
    line.trim()
}

/// A line as what it asks for.
///
/// # Errors
///
/// What is wrong with it, in words.
pub fn asked(line: &str, names: &Names) -> Result<Asked, String> {
    let line = step(line);
    let (word, rest) = line.split_once(char::is_whitespace).unwrap_or((line, ""));
    let rest = rest.trim();
    let step = match word {
        "add" => Step::Add(entry(rest, names)?),
        "stand" => Step::Stand(number(word, rest)?),
        "back" => Step::Back(number(word, rest)?),
        "drop" => Step::Drop(number(word, rest)?),
        "take-off" | "show" | "write" if !rest.is_empty() => {
            return Err(format!(
                "{word} takes nothing after it, and '{rest}' is given"
            ))
        }
        "take-off" => Step::TakeOff,
        "show" => return Ok(Asked::Show),
        "write" => return Ok(Asked::Write),
        _ => {
            let known = WORDS.join(", ");
            return Err(format!(
                "expected {known}, found '{word}'{}",
                meant(word, WORDS)
            ));
        }
    };
    Ok(Asked::Step(step))
}

/// `in 2 at least 1 core`: an entry, and after 'in' the 'every' entry that owns it.
fn entry(rest: &str, names: &Names) -> Result<Entry, String> {
    let (owner, rest) = match rest.strip_prefix("in ") {
        None => (0, rest),
        Some(rest) => {
            let (owner, rest) = rest
                .trim_start()
                .split_once(char::is_whitespace)
                .unwrap_or((rest, ""));
            (number("in", owner)?, rest)
        }
    };
    let parsed = text::parse(rest, names).map_err(|mistake| mistake.told())?;
    match parsed.entries.as_slice() {
        [one] => Ok(Entry { owner, ..*one }),
        several => Err(format!(
            "add takes one entry, and {} are given",
            several.len()
        )),
    }
}

fn number(word: &str, text: &str) -> Result<u16, String> {
    text.parse()
        .map_err(|_| format!("{word} takes a number from 1 to 65,535, and '{text}' is given"))
}

/// The numbers of the stands of a desk, each with its entries. Only a desk that the library does not refuse is looked at.
pub fn stands(memory: &[u8]) -> Vec<(u16, usize)> {
    let word = |at: usize| {
        let bytes = memory
            .get(at..at + 2)
            .map_or([0, 0], |bytes| [bytes[0], bytes[1]]);
        u16::from_le_bytes(bytes)
    };
    let count = usize::from(word(2)).min(4);
    let stand = |at: usize| (word(4 + 2 * at), usize::from(word(12 + 2 * at)));
    (0..count).map(stand).collect()
}
