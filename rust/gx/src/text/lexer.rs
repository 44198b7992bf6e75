//! The signs of a text, one after the other.

use super::mistake::{Mistake, Position};
use crate::shown::turns;

/// A sign of a text.
#[derive(Clone, Debug, PartialEq, Eq)]
pub enum Sign {
    /// A word without quotes.
    Word(String),
    /// Digits.
    Number(String),
    /// A word in quotes, without them.
    Quoted(String),
    /// `[`
    Open,
    /// `]`
    Close,
    /// `;`
    Semicolon,
    /// `,`
    Comma,
    /// `#`
    Hash,
    /// The end of a line.
    Line,
    /// The end of the text.
    End,
}

impl Sign {
    /// The sign as a message names it.
    pub fn named(&self) -> String {
        match self {
            Sign::Word(word) => format!("'{}'", shortened(word)),
            Sign::Number(digits) => format!("'{}'", shortened(digits)),
            Sign::Quoted(word) => format!("\"{}\"", shortened(word)),
            Sign::Open => "'['".into(),
            Sign::Close => "']'".into(),
            Sign::Semicolon => "';'".into(),
            Sign::Comma => "','".into(),
            Sign::Hash => "'#'".into(),
            Sign::Line => "the end of the line".into(),
            Sign::End => "the end of the text".into(),
        }
    }
}

/// The word, or its beginning.
fn shortened(word: &str) -> String {
    match word.char_indices().nth(40) {
        Some((end, _)) => format!("{}...", &word[..end]),
        None => word.into(),
    }
}

/// A sign and where it begins.
#[derive(Clone, Debug, PartialEq, Eq)]
pub struct Token {
    /// The sign.
    pub sign: Sign,
    /// Where it begins.
    pub at: Position,
}

impl Token {
    /// The end of a line that is nowhere.
    pub fn line() -> Token {
        Token {
            sign: Sign::Line,
            at: Position::default(),
        }
    }
}

/// The rest of a text.
#[derive(Clone, Debug)]
pub struct Lexer<'a> {
    rest: &'a str,
    at: Position,
}

impl<'a> Lexer<'a> {
    /// The whole text, without the mark that some editors put before it.
    pub fn new(text: &'a str) -> Lexer<'a> {
        Lexer {
            rest: text.strip_prefix('\u{feff}').unwrap_or(text),
            at: Position { line: 1, column: 1 },
        }
    }

    /// Takes one character.
    fn take(&mut self) -> Option<char> {
        let sign = self.rest.chars().next()?;
        self.rest = &self.rest[sign.len_utf8()..];
        if sign == '\n' {
            self.at.line += 1;
            self.at.column = 1;
        } else {
            self.at.column += 1;
        }
        Some(sign)
    }

    /// Passes over spaces and a remark, which goes from `//` to the end of the line.
    fn skip_blanks(&mut self) -> Result<(), Mistake> {
        while self.rest.starts_with([' ', '\t', '\r']) {
            self.take();
        }
        if self.rest.starts_with("//") {
            while let Some(sign) = self.rest.chars().next().filter(|&sign| sign != '\n') {
                if turns(sign) {
                    return Err(no_such_sign(self.at, sign));
                }
                self.take();
            }
        }
        Ok(())
    }

    /// Passes over the rest of the line, and says how many places it closes that were open before, and how many it leaves open.
    pub fn skip_line(&mut self) -> (usize, usize) {
        let (mut closed, mut open) = (0, 0);
        while let Some(sign) = self.rest.chars().next().filter(|&sign| sign != '\n') {
            match sign {
                '[' => open += 1,
                ']' if open > 0 => open -= 1,
                ']' => closed += 1,
                _ => (),
            }
            self.take();
        }
        (closed, open)
    }

    /// The next sign.
    ///
    /// # Errors
    ///
    /// A word in quotes that does not end, or a character that no text has.
    pub fn next_token(&mut self) -> Result<Token, Mistake> {
        self.skip_blanks()?;
        let at = self.at;
        let sign = match self.rest.chars().next() {
            None => Sign::End,
            Some('"') => self.quoted()?,
            Some(first) => match single(first) {
                Some(sign) => {
                    self.take();
                    sign
                }
                None => self.word()?,
            },
        };
        Ok(Token { sign, at })
    }

    /// A word in quotes; `\"` and `\\` stand for `"` and `\`.
    fn quoted(&mut self) -> Result<Sign, Mistake> {
        let mut word = String::new();
        self.take();
        loop {
            let at = self.at;
            match self.rest.chars().next() {
                Some('"') => {
                    self.take();
                    return Ok(Sign::Quoted(word));
                }
                Some('\\') => {
                    self.take();
                    match self.rest.chars().next() {
                        Some(escaped @ ('"' | '\\')) => word.push(escaped),
                        _ => return Err(Mistake::new(at, "\\\" or \\\\", "another '\\'")),
                    }
                }
                None => {
                    return Err(Mistake::new(
                        at,
                        "'\"' after the word",
                        "the end of the text",
                    ))
                }
                Some('\n' | '\r') => {
                    return Err(Mistake::new(
                        at,
                        "'\"' after the word",
                        "the end of the line",
                    ))
                }
                Some(sign) if sign.is_control() || turns(sign) => {
                    return Err(no_such_sign(at, sign))
                }
                Some(sign) => word.push(sign),
            }
            self.take();
        }
    }

    /// A word or a number: what goes on to the next blank or other sign.
    fn word(&mut self) -> Result<Sign, Mistake> {
        let mut word = String::new();
        while let Some(sign) = self.rest.chars().next() {
            if sign.is_whitespace() || sign == '"' || single(sign).is_some() {
                break;
            }
            if sign.is_control() || turns(sign) {
                return Err(no_such_sign(self.at, sign));
            }
            word.push(sign);
            self.take();
        }
        if word.is_empty() {
            let sign = self.rest.chars().next().unwrap_or(' ');
            return Err(no_such_sign(self.at, sign));
        }
        Ok(if word.bytes().all(|byte| byte.is_ascii_digit()) {
            Sign::Number(word)
        } else {
            Sign::Word(word)
        })
    }
}

fn no_such_sign(at: Position, sign: char) -> Mistake {
    let turns = if turns(sign) {
        ", which turns text around"
    } else {
        ""
    };
    let found = format!("the character U+{:04X}{turns}", u32::from(sign));
    Mistake::new(at, "letters, digits, signs and plain spaces", found)
}

/// The sign that is one character.
fn single(sign: char) -> Option<Sign> {
    Some(match sign {
        '[' => Sign::Open,
        ']' => Sign::Close,
        ';' => Sign::Semicolon,
        ',' => Sign::Comma,
        '#' => Sign::Hash,
        '\n' => Sign::Line,
        _ => return None,
    })
}
