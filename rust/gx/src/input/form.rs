//! Blocks or text.

use crate::text;

/// Whether an input is blocks or text.
#[derive(Clone, Copy, Debug, PartialEq, Eq)]
pub enum Form {
    /// Blocks of 512 bytes.
    Blocks,
    /// Text.
    Text,
    /// Blocks of the stored form.
    Stored,
}

impl Form {
    /// Blocks have a zero byte, since the high byte of the first block's number is one; a text has none. An empty input is no
    /// text, since that has an entry or a heading.
    pub fn of(bytes: &[u8]) -> Form {
        if bytes.is_empty() || bytes.contains(&0) {
            Form::Blocks
        } else {
            Form::Text
        }
    }

    /// The bytes of a list of pairs may have no zero byte; but a text has no sign before the space other than tabs and the ends
    /// of lines, and is UTF-8. Where its words are in another code, which is a mistake, its own words still tell that it is one.
    pub(super) fn of_list(bytes: &[u8]) -> Form {
        let control = |byte: &u8| *byte < b' ' && !b"\t\r\n".contains(byte);
        let has = |word: &str| {
            bytes
                .windows(word.len())
                .any(|part| part == word.as_bytes())
        };
        let own_words = has(text::PAIRS) || has(text::EXCLUDES);
        let no_text = std::str::from_utf8(bytes).is_err() && !own_words;
        match no_text || bytes.iter().any(control) {
            true => Form::Blocks,
            false => Form::of(bytes),
        }
    }
}
