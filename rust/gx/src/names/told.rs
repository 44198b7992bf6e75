//! Words that do not go together, in words.

use super::{Clash, Conflict, Place};
use crate::json::Json;
use crate::shown::file_name;
use crate::text::{quoted, Mistake, Position};

/// The mistake that a clash is: the word of this number, at this place of the text that is being read.
pub fn clashing(at: Position, sort: &str, number: u16, word: &str, clash: Clash) -> Mistake {
    let expected = match clash {
        Clash::OtherWord(other, place) => {
            let called = quoted(&other);
            format!("{called}, as {sort} {number} is called{}", there(&place))
        }
        Clash::OtherNumber(other, place) => {
            format!("a word that is not that of {sort} {other}{}", there(&place))
        }
    };
    Mistake::new(at, expected, quoted(word))
}

/// Where another file, or an earlier line of this one, says so.
fn there(place: &Place) -> String {
    let Position { line, column } = place.at;
    match (place.file.is_empty(), line) {
        (_, 0) => String::new(),
        (true, _) => format!(" (line {line})"),
        (false, _) => format!(" ({}:{line}:{column})", file_name(&place.file)),
    }
}

impl Conflict {
    /// What is said at the other place, and what at the first.
    pub fn line(&self) -> String {
        let (of, known, other) = (self.of, &self.known, &self.other);
        let begin = format!("{of} {} is called {}", other.number, quoted(&other.word));
        let there = there(&known.place);
        match known.number == other.number {
            true => format!("{begin} here, and {} elsewhere{there}", quoted(&known.word)),
            false => format!(
                "{begin} here, and so is {of} {} elsewhere{there}",
                known.number
            ),
        }
    }

    /// Both places, with their lines, and what settles it.
    pub fn shown(&self) -> String {
        let (known, other) = (&self.known, &self.other);
        let Position { line, column } = known.place.at;
        let file = file_name(&known.place.file);
        format!(
            "{}\n{file}:{line}:{column}: {} {} is called {} there\n{}\n  a names file that has {} {} settles it (--names FILE)\n",
            other.place.shown(),
            self.of,
            known.number,
            quoted(&known.word),
            known.place.shown(),
            self.of,
            other.number
        )
    }

    /// Of a conflict that is settled, which word was sent and which is shown.
    pub fn settled(&self) -> String {
        let (known, other) = (&self.known, &self.other);
        let Position { line, column } = other.place.at;
        format!(
            "{}:{line}:{column} calls {} {} {}; the names file calls it {}, and that word is shown",
            file_name(&other.place.file),
            self.of,
            other.number,
            quoted(&other.word),
            quoted(&known.word)
        )
    }

    /// For programs.
    pub fn json(&self) -> Vec<(&'static str, Json)> {
        let said = |said: &super::Said| {
            Json::Object(vec![
                ("file", Json::text(&*said.place.file)),
                ("line", Json::number(said.place.at.line)),
                ("column", Json::number(said.place.at.column)),
                ("number", Json::number(said.number.into())),
                ("word", Json::text(&said.word)),
            ])
        };
        vec![
            ("of", Json::text(self.of)),
            ("sent", said(&self.other)),
            ("known", said(&self.known)),
        ]
    }
}

/// The words that the names file settles, for programs.
pub fn settled_json(settled: &[Conflict]) -> Json {
    let one = |conflict: &Conflict| Json::Object(conflict.json());
    Json::List(settled.iter().map(one).collect())
}
