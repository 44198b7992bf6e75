//! A text as descriptions in brackets: a dictionary, or a list of services.

use super::rows::numbered;
use super::{Mistake, Parser, Position, Sign};
use crate::dictionary::Part;
use crate::names::Names;

/// What a text of a dictionary or of a list of services says.
#[derive(Clone, Debug, Default)]
pub struct ParsedParts {
    /// The descriptions.
    pub parts: Vec<Part>,
    /// The words that the text itself gives.
    pub words: Names,
}

/// The heading of a dictionary.
pub const DICTIONARY: &str = "dictionary";
/// The heading of a list of services.
pub const SERVICES: &str = "services";

/// What descriptions in brackets are.
#[derive(Clone, Copy, Debug, PartialEq, Eq)]
pub enum Bracketed {
    /// The descriptions of a dictionary, which have words.
    Dictionary,
    /// Services.
    Services,
}

const THE_END: &str = "a new line or ';' after the description";
/// So many descriptions are read: more than any dictionary or list has, so that the library can say that there are too many.
const MOST: usize = 1_000;

impl Bracketed {
    /// The heading of the text.
    pub(super) fn heading(self) -> &'static str {
        match self {
            Bracketed::Dictionary => DICTIONARY,
            Bracketed::Services => SERVICES,
        }
    }

    /// The word before the number of each.
    fn word(self) -> &'static str {
        match self {
            Bracketed::Dictionary => "description",
            Bracketed::Services => "service",
        }
    }

    /// The whole that they are.
    fn whole(self) -> &'static str {
        match self {
            Bracketed::Dictionary => "dictionary",
            Bracketed::Services => "list",
        }
    }
}

/// Reads the text of a dictionary. The names give words their numbers, and hold against the words of the text.
///
/// # Errors
///
/// The first mistake in it.
pub fn parse_dictionary(text: &str, names: &Names) -> Result<ParsedParts, Mistake> {
    parse_parts(text, names, Bracketed::Dictionary)
}

/// Reads the text of a list of services in the same manner.
///
/// # Errors
///
/// The first mistake in it.
pub fn parse_services(text: &str, names: &Names) -> Result<ParsedParts, Mistake> {
    parse_parts(text, names, Bracketed::Services)
}

/// Reads a text of descriptions in brackets.
///
/// # Errors
///
/// The first mistake in it.
pub fn parse_parts(text: &str, names: &Names, of: Bracketed) -> Result<ParsedParts, Mistake> {
    let mut parser = Parser::new(text, names)?;
    let headed = parser.headed(of.heading())?;
    let mut parts = Parts::default();
    while !parser.next_of_parts(of, &mut parts, headed)? {}
    Ok(ParsedParts {
        parts: parts.done,
        words: parser.learnt,
    })
}

/// The descriptions in brackets as far as they are read.
#[derive(Default)]
pub(super) struct Parts {
    done: Vec<Part>,
    /// How many are begun.
    begun: usize,
    /// Where the last one begins.
    at: Position,
}

impl Parser<'_> {
    /// The beginning of the next description, or an entry or bracket in it; whether the text has ended instead.
    pub(super) fn next_of_parts(
        &mut self,
        of: Bracketed,
        parts: &mut Parts,
        headed: bool,
    ) -> Result<bool, Mistake> {
        self.skip_lines()?;
        if !self.open.is_empty() {
            self.entry_or_close()?;
            if self.open.is_empty() {
                self.part_ends(parts)?;
            }
            return Ok(false);
        }
        let (word, heading) = (of.word(), of.heading());
        match self.next.sign {
            Sign::End if parts.begun == 0 && !headed => {
                self.expected(format!("a {word}, or '{heading}' for one without {word}s"))
            }
            Sign::End => Ok(true),
            _ if parts.begun == MOST => self.expected(format!("at most 1,000 {word}s")),
            _ => self.part_begins(of, parts).map(|()| false),
        }
    }

    /// `description 1 "sealed core" [` or `service 1 [`, or `[` as at the desk.
    fn part_begins(&mut self, of: Bracketed, parts: &mut Parts) -> Result<(), Mistake> {
        parts.at = self.next.at;
        parts.begun += 1;
        if self.next_is_word(of.word()) {
            self.take()?;
            self.due_number(of, parts.begun)?;
        }
        if !self.place_opens()? {
            let word = of.word();
            return self.expected(format!("a {word} ({word} 1 [ .. ], or [ .. ])"));
        }
        let bracket = self.take()?;
        self.rows.clear();
        self.open.push((0, bracket.at));
        Ok(())
    }

    /// What comes after a description, and its entries. Where mistakes were passed over, entries may be missing for these alone.
    fn part_ends(&mut self, parts: &mut Parts) -> Result<(), Mistake> {
        match self.next.sign {
            Sign::Line | Sign::Semicolon | Sign::End => (),
            _ => return self.expected(THE_END),
        }
        let (entries, positions) = match self.passed {
            true => Default::default(),
            false => numbered(&self.rows)?,
        };
        parts.done.push(Part {
            entries,
            at: Some(parts.at),
            positions,
        });
        Ok(())
    }

    /// The number of a description, which says only what is so without it, and in a dictionary its word.
    fn due_number(&mut self, of: Bracketed, due: usize) -> Result<(), Mistake> {
        let (word, whole) = (of.word(), of.whole());
        let expected = format!("{due}, since this is {word} {due} of the {whole}");
        let at = self.next.at;
        if let Sign::Number(_) = self.next.sign {
            let number = self.number(&expected)?;
            if usize::from(number) != due && !self.passed {
                return Err(Mistake::new(at, expected, format!("'{number}'")));
            }
        }
        match of {
            // At most 1,000 are read.
            Bracketed::Dictionary => self.description_word((due & 0xffff) as u16),
            Bracketed::Services => Ok(()),
        }
    }
}
