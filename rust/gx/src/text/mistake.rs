//! A mistake in a text: where it is, what was expected, and what stands there.

use std::fmt;

use crate::json::Json;
use crate::shown;

/// A place in a text. Lines and columns count from 1; a column is one character.
#[derive(Clone, Copy, Debug, Default, PartialEq, Eq, PartialOrd, Ord)]
pub struct Position {
    /// The line.
    pub line: usize,
    /// The column.
    pub column: usize,
}

impl Position {
    /// For programs.
    pub fn json(self) -> [(&'static str, Json); 2] {
        [
            ("line", Json::number(self.line)),
            ("column", Json::number(self.column)),
        ]
    }
}

/// A mistake in a text.
#[derive(Clone, Debug, PartialEq, Eq)]
pub struct Mistake {
    /// Where.
    pub at: Position,
    /// What was expected there.
    pub expected: String,
    /// What stands there.
    pub found: String,
    /// What may help, if anything does.
    pub hint: String,
}

impl Mistake {
    /// The mistake with these words.
    pub fn new(at: Position, expected: impl Into<String>, found: impl Into<String>) -> Mistake {
        Mistake {
            at,
            expected: expected.into(),
            found: found.into(),
            hint: String::new(),
        }
    }

    /// The mistake with what may help.
    pub fn hinted(self, hint: impl Into<String>) -> Mistake {
        Mistake {
            hint: hint.into(),
            ..self
        }
    }

    /// What was expected and what stands there, without where.
    pub fn told(&self) -> String {
        let Mistake {
            expected,
            found,
            hint,
            ..
        } = self;
        format!("expected {expected}, found {found}{hint}")
    }

    /// For programs.
    pub fn json(&self) -> Vec<(&'static str, Json)> {
        let mut fields = self.at.json().to_vec();
        fields.push(("expected", Json::text(&self.expected)));
        fields.push(("found", Json::text(&self.found)));
        if let Some(hint) = self.hint.strip_prefix("; ") {
            fields.push(("hint", Json::text(hint)));
        }
        fields
    }

    /// The line of the text with a sign under the column.
    pub fn shown_in(&self, text: &str) -> String {
        let line = text.lines().nth(self.at.line.saturating_sub(1));
        let line = shown::line(line.unwrap_or("").trim_end_matches('\r'));
        let from = self.at.column.saturating_sub(60);
        let part: String = line.chars().skip(from).take(100).collect();
        let gap = " ".repeat(self.at.column.saturating_sub(1 + from));
        format!("  {part}\n  {gap}^")
    }
}

impl fmt::Display for Mistake {
    fn fmt(&self, f: &mut fmt::Formatter<'_>) -> fmt::Result {
        let Position { line, column } = self.at;
        write!(f, "line {line}, column {column}: {}", self.told())
    }
}
