//! The mistakes of a text in one run.

use super::dictionary::{Bracketed, Parts};
use super::rows::numbered;
use super::{Mistake, Names, ParsedPairs, Parser, Sign, Token, EXCLUDES, MOST_ENTRIES, PAIRS};

/// So many mistakes of a text are told.
pub const MOST_MISTAKES: usize = 20;

/// The mistakes of a description or specimen, where it has one: the first of each line, up to [`MOST_MISTAKES`].
pub fn mistakes(text: &str, names: &Names) -> Vec<Mistake> {
    let mut parser = Parser::beginning(text, names);
    let mut headed = None;
    let mut found = parser.all_mistakes(|parser| match headed {
        Some(headed) => parser.next_entry(headed || parser.passed),
        None => {
            headed = Some(false);
            headed = Some(parser.heading()?.is_some());
            Ok(false)
        }
    });
    if found.is_empty() {
        found.extend(numbered(&parser.rows).err());
    }
    found
}

/// The mistakes of a list of pairs, in the same manner.
pub fn mistakes_of_pairs(text: &str, names: &Names) -> Vec<Mistake> {
    let mut parser = Parser::beginning(text, names);
    parser.stop = Some(EXCLUDES);
    let (mut headed, mut parsed) = (None, ParsedPairs::default());
    parser.all_mistakes(|parser| match headed {
        Some(headed) => parser.next_pair(&mut parsed, headed || parser.passed),
        None => {
            headed = Some(false);
            headed = Some(parser.headed(PAIRS)?);
            Ok(false)
        }
    })
}

/// The mistakes of descriptions in brackets, in the same manner.
pub fn mistakes_of_parts(text: &str, names: &Names, of: Bracketed) -> Vec<Mistake> {
    let mut parser = Parser::beginning(text, names);
    let (mut headed, mut parts) = (None, Parts::default());
    parser.all_mistakes(|parser| match headed {
        Some(headed) => parser.next_of_parts(of, &mut parts, headed || parser.passed),
        None => {
            headed = Some(false);
            headed = Some(parser.headed(of.heading())?);
            Ok(false)
        }
    })
}

impl Parser<'_> {
    /// The mistakes of what is read step by step; a step says whether the text has ended.
    fn all_mistakes(
        &mut self,
        mut step: impl FnMut(&mut Self) -> Result<bool, Mistake>,
    ) -> Vec<Mistake> {
        let mut found = Vec::new();
        loop {
            let mistake = match step(self) {
                Ok(true) => return found,
                Ok(false) => continue,
                Err(mistake) => mistake,
            };
            let last = self.next.sign == Sign::End || self.rows.len() == MOST_ENTRIES;
            let at = mistake.at;
            // The end of a text that has mistakes may lack a bracket for these alone.
            if !last || found.is_empty() {
                found.push(mistake);
            }
            if last || found.len() == MOST_MISTAKES {
                return found;
            }
            self.pass_mistake(at);
        }
    }

    /// Goes on at the next line after a mistake, in the places that the line leaves open.
    fn pass_mistake(&mut self, at: super::Position) {
        self.passed = true;
        // After the end of a line only what no sign begins with is a mistake that is still to come.
        if self.next.sign == Sign::Line && at <= self.next.at {
            return;
        }
        let at = self.next.at;
        let (closed, opened) = self.lexer.skip_line();
        let owner = self.rows.last().map_or(0, |row| row.number);
        match self.next.sign {
            Sign::Open => self.open.push((owner, at)),
            Sign::Close => drop(self.open.pop()),
            _ => (),
        }
        let left = self.open.len().saturating_sub(closed);
        self.open.truncate(left);
        self.open.extend(vec![(owner, at); opened]);
        self.next = Token::line();
    }
}
