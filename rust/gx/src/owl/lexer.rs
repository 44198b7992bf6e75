//! The signs of OWL 2 functional syntax.

use crate::text::{Mistake, Position};

/// A sign.
#[derive(Clone, Debug, PartialEq, Eq)]
pub(super) enum Sign {
    Open,
    Close,
    Equals,
    /// An IRI between angle brackets.
    Iri(String),
    /// A text between quotes, without its language or type.
    Text(String),
    /// A keyword, a number, or a name with its prefix.
    Word(String),
    End,
}

impl Sign {
    pub(super) fn named(&self) -> String {
        match self {
            Sign::Open => "'('".into(),
            Sign::Close => "')'".into(),
            Sign::Equals => "'='".into(),
            Sign::Iri(iri) => format!("<{iri}>"),
            Sign::Text(_) => "a text".into(),
            Sign::Word(word) => format!("'{word}'"),
            Sign::End => "the end of the text".into(),
        }
    }
}

/// A sign and where it begins.
#[derive(Clone, Debug, PartialEq, Eq)]
pub(super) struct Token {
    pub(super) sign: Sign,
    pub(super) at: Position,
}

/// All signs of a text.
pub(super) fn tokens(text: &str) -> Result<Vec<Token>, Mistake> {
    let mut lexer = Lexer {
        rest: text.strip_prefix('\u{feff}').unwrap_or(text),
        at: Position { line: 1, column: 1 },
    };
    let mut tokens = Vec::new();
    loop {
        let token = lexer.next()?;
        let last = token.sign == Sign::End;
        tokens.push(token);
        if last {
            return Ok(tokens);
        }
    }
}

struct Lexer<'a> {
    rest: &'a str,
    at: Position,
}

impl Lexer<'_> {
    fn take(&mut self) -> Option<char> {
        let sign = self.rest.chars().next()?;
        self.rest = &self.rest[sign.len_utf8()..];
        match sign {
            '\n' => {
                self.at.line += 1;
                self.at.column = 1;
            }
            _ => self.at.column += 1,
        }
        Some(sign)
    }

    /// Passes over blanks and remarks, which go from `#` to the end of the line.
    fn skip(&mut self) {
        loop {
            if self.rest.starts_with(char::is_whitespace) {
                self.take();
            } else if self.rest.starts_with('#') {
                while self.rest.starts_with(|sign| sign != '\n') {
                    self.take();
                }
            } else {
                return;
            }
        }
    }

    fn next(&mut self) -> Result<Token, Mistake> {
        self.skip();
        let at = self.at;
        let sign = match self.rest.chars().next() {
            None => Sign::End,
            Some('(') => self.single(Sign::Open),
            Some(')') => self.single(Sign::Close),
            Some('=') => self.single(Sign::Equals),
            Some('<') => self.iri(at)?,
            Some('"') => self.text(at)?,
            Some(_) => self.word(),
        };
        Ok(Token { sign, at })
    }

    fn single(&mut self, sign: Sign) -> Sign {
        self.take();
        sign
    }

    fn iri(&mut self, at: Position) -> Result<Sign, Mistake> {
        self.take();
        let mut iri = String::new();
        loop {
            match self.take() {
                Some('>') => return Ok(Sign::Iri(iri)),
                Some(sign) if !sign.is_whitespace() => iri.push(sign),
                _ => return Err(Mistake::new(at, "an IRI that ends with '>'", "'<'")),
            }
        }
    }

    /// A text, and the language or type after it, which is passed over.
    fn text(&mut self, at: Position) -> Result<Sign, Mistake> {
        self.take();
        let mut text = String::new();
        loop {
            match self.take() {
                Some('"') => break,
                Some('\\') => text.extend(self.take()),
                Some(sign) => text.push(sign),
                None => return Err(Mistake::new(at, "a text that ends with '\"'", "'\"'")),
            }
        }
        if self.rest.starts_with("^^") {
            self.take();
            self.take();
            self.next()?;
        } else if self.rest.starts_with('@') {
            self.word();
        }
        Ok(Sign::Text(text))
    }

    fn word(&mut self) -> Sign {
        let mut word = String::new();
        while let Some(sign) = self.rest.chars().next() {
            if sign.is_whitespace() || matches!(sign, '(' | ')' | '"' | '<' | '=') {
                break;
            }
            word.push(sign);
            self.take();
        }
        Sign::Word(word)
    }
}
