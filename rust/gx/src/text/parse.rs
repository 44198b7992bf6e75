//! A text as entries.

mod dictionary;
mod mistakes;
mod names;
mod pairs;
mod record;
mod rows;
mod words;

use super::lexer::{Lexer, Sign, Token};
use super::mistake::{Mistake, Position};
use crate::entry::{Entry, Sort};
use crate::names::Names;

pub use dictionary::{parse_dictionary, parse_parts, parse_services};
pub use dictionary::{Bracketed, ParsedParts, DICTIONARY, SERVICES};
pub use mistakes::{mistakes, mistakes_of_pairs, mistakes_of_parts, MOST_MISTAKES};
use rows::numbered;

pub use pairs::{parse_pairs, ParsedPairs, EXCLUDES, PAIRS};
pub use record::{is_table, parse_record, ParsedRecord, RECORD, TABLE};

/// What a text says.
#[derive(Clone, Debug, Default)]
pub struct Parsed {
    /// The sort that its heading names, and where.
    pub sort: Option<(Sort, Position)>,
    /// The entries in the order of their numbers.
    pub entries: Vec<Entry>,
    /// Where each entry begins.
    pub positions: Vec<Position>,
    /// The words that the text itself gives.
    pub words: Names,
}

const AN_ENTRY: &str =
    "an entry (has, lacks, at least, at most, every, nothing fits, named, group, or kind,name,number)";
/// The words that entries begin with.
const BEGINNINGS: [&str; 10] = [
    "has", "lacks", "at", "every", "nothing", "named", "group", "exactly", "no", "some",
];
const A_KIND: &str = "a kind from 1 to 7, or 9";
const THE_END: &str = "a new line, ';' or ']' after the entry";
const MOST_ENTRIES: usize = 65_535;

/// Whether a text begins with this heading, as lists of pairs and dictionaries do.
pub fn is_headed(text: &str, heading: &str) -> bool {
    let mut lexer = Lexer::new(text);
    loop {
        return match lexer.next_token().map(|token| token.sign) {
            Ok(Sign::Line | Sign::Semicolon) => continue,
            Ok(Sign::Word(word)) => word.trim_end_matches(':') == heading,
            _ => false,
        };
    }
}

/// Reads a text. The names give words their numbers, and hold against the words of the text.
///
/// # Errors
///
/// The first mistake in it.
pub fn parse(text: &str, names: &Names) -> Result<Parsed, Mistake> {
    let mut parser = Parser::new(text, names)?;
    let sort = parser.heading()?;
    parser.entries(sort.is_some())?;
    let (entries, positions) = numbered(&parser.rows)?;
    Ok(Parsed {
        sort,
        entries,
        positions,
        words: parser.learnt,
    })
}

/// An entry as it is written.
struct Row {
    /// Its number.
    number: usize,
    /// The number of its owner.
    owner: usize,
    entry: Entry,
    at: Position,
}

struct Parser<'a> {
    lexer: Lexer<'a>,
    next: Token,
    names: &'a Names,
    learnt: Names,
    rows: Vec<Row>,
    /// The word that ends a name, where one does.
    stop: Option<&'static str>,
    /// The owners of the places that are open, with where they were opened.
    open: Vec<(usize, Position)>,
    /// The second of two entries that are written as one.
    second: Option<Entry>,
    /// Whether a mistake was passed over.
    passed: bool,
}

impl<'a> Parser<'a> {
    fn new(text: &'a str, names: &'a Names) -> Result<Parser<'a>, Mistake> {
        let mut parser = Parser::beginning(text, names);
        parser.take()?;
        Ok(parser)
    }

    /// Before the first sign, as after the end of a line.
    fn beginning(text: &'a str, names: &'a Names) -> Parser<'a> {
        Parser {
            lexer: Lexer::new(text),
            next: Token::line(),
            names,
            learnt: Names::default(),
            rows: Vec::new(),
            stop: None,
            open: Vec::new(),
            second: None,
            passed: false,
        }
    }

    fn take(&mut self) -> Result<Token, Mistake> {
        let next = self.lexer.next_token()?;
        Ok(std::mem::replace(&mut self.next, next))
    }

    fn expected<T>(&self, expected: impl Into<String>) -> Result<T, Mistake> {
        Err(Mistake::new(self.next.at, expected, self.next.sign.named()))
    }

    fn next_is_word(&self, word: &str) -> bool {
        matches!(&self.next.sign, Sign::Word(next) if next == word)
    }

    /// Whether the word comes next that ends a name.
    fn next_stops(&self) -> bool {
        self.stop.is_some_and(|stop| self.next_is_word(stop))
    }

    fn word(&mut self, word: &str) -> Result<(), Mistake> {
        if !self.next_is_word(word) {
            return self.expected(format!("'{word}'"));
        }
        self.take().map(|_| ())
    }

    fn skip_lines(&mut self) -> Result<(), Mistake> {
        while matches!(self.next.sign, Sign::Line | Sign::Semicolon) {
            self.take()?;
        }
        Ok(())
    }

    /// Takes this heading, if it is there.
    fn headed(&mut self, heading: &str) -> Result<bool, Mistake> {
        self.skip_lines()?;
        let headed =
            matches!(&self.next.sign, Sign::Word(word) if word.trim_end_matches(':') == heading);
        if headed {
            self.take()?;
        }
        Ok(headed)
    }

    /// The word `description` or `specimen` before all entries, if it is there.
    fn heading(&mut self) -> Result<Option<(Sort, Position)>, Mistake> {
        self.skip_lines()?;
        let at = self.next.at;
        let sort = match &self.next.sign {
            Sign::Word(word) => match word.trim_end_matches(':') {
                "description" => Sort::Description,
                "specimen" => Sort::Specimen,
                _ => return Ok(None),
            },
            _ => return Ok(None),
        };
        self.take()?;
        Ok(Some((sort, at)))
    }

    /// All entries. A text without any has to say by its heading that it is meant so: the empty description is fitted by
    /// everything.
    fn entries(&mut self, headed: bool) -> Result<(), Mistake> {
        while !self.next_entry(headed)? {}
        Ok(())
    }

    /// The next entry or bracket; whether the text has ended instead.
    fn next_entry(&mut self, headed: bool) -> Result<bool, Mistake> {
        self.skip_lines()?;
        match (&self.next.sign, self.open.is_empty()) {
            (Sign::End, true) if self.rows.is_empty() && !headed => {
                self.expected("an entry, or 'description' for one without entries")
            }
            (Sign::End, true) => Ok(true),
            _ => self.entry_or_close().map(|()| false),
        }
    }

    /// An entry, or the bracket that closes the place that was opened last.
    fn entry_or_close(&mut self) -> Result<(), Mistake> {
        match (&self.next.sign, self.open.last()) {
            (Sign::End, Some((_, at))) => {
                let expected = format!("']' for the '[' of line {}", at.line);
                self.expected(expected)
            }
            (Sign::Close, Some(_)) => {
                self.take()?;
                self.open.pop();
                self.entry_ends()
            }
            _ => self.entry(),
        }
    }

    fn entry_ends(&mut self) -> Result<(), Mistake> {
        match self.next.sign {
            Sign::Line | Sign::Semicolon | Sign::Close | Sign::End => Ok(()),
            _ => self.expected(THE_END),
        }
    }

    /// One entry, and the bracket that opens its place.
    fn entry(&mut self) -> Result<(), Mistake> {
        let at = self.next.at;
        let number = self.number_of_entry()?;
        let entry = match self.next.sign.clone() {
            Sign::Number(_) => self.desk()?,
            Sign::Word(word) => self.in_words(&word)?,
            _ => return self.expected(AN_ENTRY),
        };
        if self.rows.len() == MOST_ENTRIES {
            return Err(Mistake::new(at, "at most 65,535 entries", "one more"));
        }
        let owner = self.open.last().map_or(0, |&(owner, _)| owner);
        let second = self.second.take().map(|second| (number + 1, second));
        for (number, entry) in [(number, entry)].into_iter().chain(second) {
            self.rows.push(Row {
                number,
                owner,
                entry,
                at,
            });
        }
        if self.place_opens()? {
            if !entry.owns() {
                let expected = format!("{THE_END}: only every and group own entries");
                return self.expected(expected);
            }
            let bracket = self.take()?;
            self.open.push((number, bracket.at));
            return Ok(());
        }
        self.entry_ends()
    }

    /// The number that an entry has: the one after `#`, or one more than the entry before it.
    fn number_of_entry(&mut self) -> Result<usize, Mistake> {
        if self.next.sign != Sign::Hash {
            return Ok(self.rows.last().map_or(1, |row| row.number + 1));
        }
        self.take()?;
        let expected = "an entry's number from 1 to 65,535";
        let number = self.number(expected)?;
        if number == 0 {
            return Err(Mistake::new(self.next.at, expected, "'0'"));
        }
        Ok(usize::from(number))
    }

    /// Whether a bracket comes next, also on a later line.
    fn place_opens(&mut self) -> Result<bool, Mistake> {
        if self.next.sign == Sign::Line {
            let mut ahead = self.lexer.clone();
            let mut token = ahead.next_token();
            while matches!(&token, Ok(token) if token.sign == Sign::Line) {
                token = ahead.next_token();
            }
            if let Ok(
                token @ Token {
                    sign: Sign::Open, ..
                },
            ) = token
            {
                self.lexer = ahead;
                self.next = token;
            }
        }
        Ok(self.next.sign == Sign::Open)
    }

    /// Digits that fit two bytes.
    fn number(&mut self, expected: &str) -> Result<u16, Mistake> {
        let value = match &self.next.sign {
            Sign::Number(digits) => digits.parse().ok(),
            _ => None,
        };
        match value {
            Some(value) => self.take().map(|_| value),
            None => self.expected(expected),
        }
    }

    /// `kind,name,number`, zeros at the end left off.
    fn desk(&mut self) -> Result<Entry, Mistake> {
        let at = self.next.at;
        let kind = self.number(A_KIND)?;
        let Ok(kind) = u8::try_from(kind) else {
            let found = format!("'{kind}'");
            return Err(Mistake::new(at, A_KIND, found));
        };
        let name = self.after_comma("a property or link from 0 to 65,535, or a description")?;
        let number = match name {
            Some(_) => self.after_comma("a number from 0 to 65,535")?,
            None => None,
        };
        Ok(Entry {
            kind,
            name: name.unwrap_or(0),
            number: number.unwrap_or(0),
            ..Entry::default()
        })
    }

    fn after_comma(&mut self, expected: &str) -> Result<Option<u16>, Mistake> {
        if self.next.sign != Sign::Comma {
            return Ok(None);
        }
        self.take()?;
        self.number(expected).map(Some)
    }
}
