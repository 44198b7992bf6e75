//! What keeps an input from an answer: it cannot be read, its text has a mistake, or the library refuses it; and what keeps an
//! answer from being shown.

use goltximen::Refusal;

use crate::commands::Status;
use crate::json::Json;
use crate::names::Conflict;
use crate::shown::file_name;
use crate::text::{Mistake, Position};

/// Why there is no answer for an input.
#[derive(Clone, Debug)]
pub enum Trouble {
    /// The file cannot be read.
    File {
        /// The file as it was named.
        file: String,
        /// What the system says.
        why: String,
    },
    /// The file cannot be written.
    Unwritten {
        /// The file as it was named.
        file: String,
        /// What the system says.
        why: String,
    },
    /// A mistake in a text or a names file.
    Mistake {
        /// The file as it was named.
        file: String,
        /// The mistake.
        mistake: Box<Mistake>,
        /// The line with a sign under it.
        shown: String,
        /// More mistakes of the same text, with their lines.
        more: Vec<(Mistake, String)>,
    },
    /// Two words of one number, or one of two, in the inputs of a call.
    Words(Box<Conflict>),
    /// A folder without an input.
    Empty {
        /// The folder as it was named.
        file: String,
        /// What is in it and was passed over.
        passed: String,
    },
    /// What would be shown is not what is there: an error of this program.
    Fault {
        /// The file as it was named.
        file: String,
        /// What is wrong.
        why: String,
    },
    /// The library refuses the input.
    Refused(Box<Refused>),
}

/// An input that the library refuses.
#[derive(Clone, Debug)]
pub struct Refused {
    /// The file as it was named.
    pub file: String,
    /// The library's answer.
    pub refusal: Refusal,
    /// The answer in words.
    pub why: String,
    /// The block or entry in its surroundings.
    pub shown: String,
    /// Where the entry stands in a text.
    pub at: Option<Position>,
    /// All entries that no field sheet has, where it has to be one.
    pub outside: Vec<usize>,
}

impl Refused {
    /// This file is refused for this reason, and nothing is shown of it.
    pub fn new(file: String, refusal: Refusal, why: String) -> Refused {
        Refused {
            file,
            refusal,
            why,
            shown: String::new(),
            at: None,
            outside: Vec::new(),
        }
    }

    /// On one line, without the file.
    fn line(&self) -> String {
        let place = self
            .at
            .map_or(String::new(), |at| format!(" (line {})", at.line));
        let number = self.refusal.reason.number();
        format!("refused {number}: {}{place}", self.why)
    }

    fn json(&self) -> Vec<(&'static str, Json)> {
        let Refused { refusal, why, .. } = self;
        let line = self.at.map_or(Json::Null, |at| Json::number(at.line));
        let mut fields = vec![
            ("answer", Json::text("refused")),
            ("refusal", Json::number(refusal.reason.number().into())),
            ("input", Json::number(refusal.input.into())),
            ("place", Json::number(refusal.place.into())),
            ("line", line),
            ("words", Json::text(why)),
        ];
        if !self.outside.is_empty() {
            let outside = self.outside.iter().map(|&entry| Json::number(entry));
            fields.push(("outside", Json::List(outside.collect())));
        }
        fields
    }
}

impl From<Refused> for Trouble {
    fn from(refused: Refused) -> Trouble {
        Trouble::Refused(Box::new(refused))
    }
}

impl Trouble {
    /// The same where a refusal is one of this part of an input.
    pub fn within(mut self, part: &str) -> Trouble {
        if let Trouble::Refused(refused) = &mut self {
            refused.why = format!("{part}: {}", refused.why);
        }
        self
    }

    /// On one line, without the file.
    pub fn line(&self) -> String {
        match self {
            Trouble::File { why, .. } => format!("cannot be read: {why}"),
            Trouble::Unwritten { why, .. } => format!("cannot be written: {why}"),
            Trouble::Mistake { mistake, more, .. } => {
                let more = match more.len() {
                    0 => String::new(),
                    count => format!(" (and {count} more)"),
                };
                format!("mistake: {mistake}{more}")
            }
            Trouble::Words(conflict) => {
                let Position { line, column } = conflict.other.place.at;
                format!("mistake: line {line}, column {column}: {}", conflict.line())
            }
            Trouble::Empty { passed, .. } => format!("no input in this folder{passed}"),
            Trouble::Fault { why, .. } => {
                format!("an error of gx, not of the input: {why}; nothing is shown")
            }
            Trouble::Refused(refused) => refused.line(),
        }
    }

    /// The file as it was named.
    fn file(&self) -> &str {
        match self {
            Trouble::File { file, .. }
            | Trouble::Unwritten { file, .. }
            | Trouble::Mistake { file, .. }
            | Trouble::Empty { file, .. }
            | Trouble::Fault { file, .. } => file,
            Trouble::Refused(refused) => &refused.file,
            Trouble::Words(conflict) => &conflict.other.place.file,
        }
    }

    /// On several lines, with the file and what stands around the place.
    pub fn lines(&self) -> String {
        self.lines_of(&file_name(self.file()))
    }

    /// The file's name without its folder.
    pub fn title(&self) -> &str {
        self.file().rsplit(['/', '\\']).next().unwrap_or("")
    }

    /// The same with the file's name without its folder, for what is not to depend on where the file lies.
    pub fn titled_lines(&self) -> String {
        self.lines_of(&file_name(self.title()))
    }

    /// The same where the file is named so: mistakes as `file:line:column: ...`.
    fn lines_of(&self, file: &str) -> String {
        let Trouble::Mistake {
            mistake,
            shown,
            more,
            ..
        } = self
        else {
            return format!("{file}: {}", self.told());
        };
        let told = |mistake: &Mistake, shown: &str| {
            let Position { line, column } = mistake.at;
            format!("{file}:{line}:{column}: {}\n{shown}\n", mistake.told())
        };
        let more = more.iter().map(|(mistake, shown)| told(mistake, shown));
        let more: String = more.collect();
        told(mistake, shown) + &more
    }

    fn told(&self) -> String {
        let line = self.line();
        match self {
            Trouble::File { .. }
            | Trouble::Unwritten { .. }
            | Trouble::Empty { .. }
            | Trouble::Fault { .. } => format!("{line}\n"),
            Trouble::Words(conflict) => format!("{line}\n{}", conflict.shown()),
            Trouble::Mistake { shown, .. } => format!("{line}\n{shown}\n"),
            Trouble::Refused(refused) if refused.shown.is_empty() => format!("{line}\n"),
            Trouble::Refused(refused) => format!("{line}\n\n{}", refused.shown),
        }
    }

    /// The exit status that it makes.
    pub fn status(&self) -> Status {
        match self {
            Trouble::Fault { .. } => Status::Fault,
            _ => Status::Bad,
        }
    }

    /// For programs. Of a refusal the number of the input tells which file it is about; of anything else its name does.
    pub fn json(&self) -> Vec<(&'static str, Json)> {
        let of = ("of", Json::text(self.title()));
        let with = |answer: &str, words: &str| {
            let words = ("words", Json::text(words));
            vec![("answer", Json::text(answer)), of.clone(), words]
        };
        match self {
            Trouble::File { why, .. } => with("unreadable", why),
            Trouble::Unwritten { why, .. } => with("unwritten", why),
            Trouble::Empty { .. } => with("no input", &self.line()),
            Trouble::Fault { why, .. } => with("error", why),
            Trouble::Mistake { mistake, more, .. } => {
                let mut fields = vec![("answer", Json::text("mistake")), of.clone()];
                fields.extend(mistake.json());
                if !more.is_empty() {
                    let more = more.iter().map(|(mistake, _)| Json::Object(mistake.json()));
                    fields.push(("more", Json::List(more.collect())));
                }
                fields
            }
            Trouble::Words(conflict) => {
                let mut fields = vec![("answer", Json::text("mistake")), of.clone()];
                fields.extend(conflict.other.place.at.json());
                fields.push(("words", Json::text(conflict.line())));
                fields.push(("clash", Json::Object(conflict.json())));
                fields
            }
            Trouble::Refused(refused) => refused.json(),
        }
    }
}
