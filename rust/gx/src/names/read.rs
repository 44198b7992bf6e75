//! A names file as names.

use super::{clashing, Names, Place};
use crate::text::{Lexer, Mistake, Sign, Token, MOST_MISTAKES};

/// What a line of a names file gives a word to.
#[derive(Clone, Copy, Debug, PartialEq, Eq)]
enum Of {
    Property,
    Link,
    Description,
}

impl Of {
    /// The word that the line begins with.
    fn word(self) -> &'static str {
        match self {
            Of::Property => "property",
            Of::Link => "link",
            Of::Description => "description",
        }
    }

    fn called(word: &str) -> Option<Of> {
        let all = [Of::Property, Of::Link, Of::Description];
        all.into_iter().find(|of| of.word() == word)
    }
}

impl Names {
    /// The names in a names file.
    ///
    /// # Errors
    ///
    /// The first mistake in it.
    pub fn read(text: &str) -> Result<Names, Mistake> {
        let mut names = Names::default();
        let mut lexer = Lexer::new(text);
        while !names.next_line(&mut lexer)? {}
        Ok(names)
    }

    /// The mistakes of a names file, where it has one: the first of each line, up to [`MOST_MISTAKES`].
    pub fn mistakes(text: &str) -> Vec<Mistake> {
        let mut names = Names::default();
        let mut lexer = Lexer::new(text);
        let mut found = Vec::new();
        while found.len() < MOST_MISTAKES {
            let before = lexer.clone();
            match names.next_line(&mut lexer) {
                Ok(true) => break,
                Ok(false) => (),
                Err(mistake) => {
                    found.push(mistake);
                    lexer = before;
                    lexer.skip_line();
                }
            }
        }
        found
    }

    /// Reads a line, or the end of one; whether the text has ended instead.
    fn next_line(&mut self, lexer: &mut Lexer<'_>) -> Result<bool, Mistake> {
        let token = lexer.next_token()?;
        let of = match &token.sign {
            Sign::Line => return Ok(false),
            Sign::End => return Ok(true),
            Sign::Word(word) => Of::called(word),
            _ => None,
        };
        let Some(of) = of else {
            let expected = "'property', 'link' or 'description', a number and a word";
            return Err(Mistake::new(token.at, expected, token.sign.named()));
        };
        self.line(lexer, of).map(|()| false)
    }

    /// The rest of a line, after its first word.
    fn line(&mut self, lexer: &mut Lexer<'_>, of: Of) -> Result<(), Mistake> {
        let number = number(&lexer.next_token()?)?;
        let first = lexer.next_token()?;
        let at = first.at;
        let (one, many) = match first.sign {
            Sign::Quoted(one) => (one, plural(lexer, of == Of::Link)?),
            sign @ (Sign::Word(_) | Sign::Number(_)) => (bare(lexer, sign)?, None),
            other => return Err(Mistake::new(at, "a word", other.named())),
        };
        for word in [Some(&one), many.as_ref()].into_iter().flatten() {
            if word.trim() != word || word.is_empty() {
                let found = format!("\"{word}\"");
                let expected = "a word that neither begins nor ends with a space";
                return Err(Mistake::new(at, expected, found));
            }
        }
        let book = match of {
            Of::Property => &mut self.properties,
            Of::Link => &mut self.links,
            Of::Description => &mut self.descriptions,
        };
        let place = Place::here(at, true);
        book.add(number, &one, many.as_deref(), place)
            .map_err(|clash| clashing(at, of.word(), number, &one, clash))
    }
}

fn number(token: &Token) -> Result<u16, Mistake> {
    let value = match &token.sign {
        Sign::Number(digits) => digits.parse().ok().filter(|&number| number > 0),
        _ => None,
    };
    value.ok_or_else(|| Mistake::new(token.at, "a number from 1 to 65,535", token.sign.named()))
}

/// The plural after a link's word in quotes, and the end of the line.
fn plural(lexer: &mut Lexer<'_>, is_link: bool) -> Result<Option<String>, Mistake> {
    let mut token = lexer.next_token()?;
    let mut many = None;
    if let (Sign::Quoted(word), true) = (&token.sign, is_link) {
        many = Some(word.clone());
        token = lexer.next_token()?;
    }
    match token.sign {
        Sign::Line | Sign::End => Ok(many),
        other => Err(Mistake::new(token.at, "the end of the line", other.named())),
    }
}

/// Words without quotes up to the end of the line.
fn bare(lexer: &mut Lexer<'_>, first: Sign) -> Result<String, Mistake> {
    let mut words = Vec::new();
    let mut sign = first;
    loop {
        match sign {
            Sign::Word(word) | Sign::Number(word) => words.push(word),
            Sign::Line | Sign::End => return Ok(words.join(" ")),
            _ => (),
        }
        let token = lexer.next_token()?;
        sign = match token.sign {
            sign @ (Sign::Word(_) | Sign::Number(_) | Sign::Line | Sign::End) => sign,
            other => {
                let expected = "the end of the line; a word with other signs stands in quotes";
                return Err(Mistake::new(token.at, expected, other.named()));
            }
        };
    }
}
