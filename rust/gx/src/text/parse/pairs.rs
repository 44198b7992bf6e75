//! A text as pairs of properties that exclude each other.

use super::{Mistake, Parser, Position, Sign};
use crate::entry::Property;
use crate::names::Names;
use crate::pairs::Pair;

/// What a text of pairs says.
#[derive(Clone, Debug, Default)]
pub struct ParsedPairs {
    /// The pairs.
    pub pairs: Vec<Pair>,
    /// Where each begins.
    pub positions: Vec<Position>,
    /// The words that the text itself gives.
    pub words: Names,
}

/// The heading of a text of pairs.
pub const PAIRS: &str = "pairs";
/// The word between the two properties of a pair.
pub const EXCLUDES: &str = "excludes";

const A_PAIR: &str = "a pair (property 7 excludes property 8, or 7,8)";
const A_PROPERTY: &str = "a property from 0 to 65,535";
const THE_END: &str = "a new line or ';' after the pair";
/// So many pairs are read: more than any list has, so that the library can say that there are too many.
const MOST: usize = 65_535;

/// Reads a text of pairs. The names give words their numbers, and hold against the words of the text.
///
/// # Errors
///
/// The first mistake in it.
pub fn parse_pairs(text: &str, names: &Names) -> Result<ParsedPairs, Mistake> {
    let mut parser = Parser::new(text, names)?;
    parser.stop = Some(EXCLUDES);
    let mut parsed = ParsedPairs::default();
    let headed = parser.headed(PAIRS)?;
    while !parser.next_pair(&mut parsed, headed)? {}
    parsed.words = parser.learnt;
    Ok(parsed)
}

impl Parser<'_> {
    /// The next pair; whether the text has ended instead.
    pub(super) fn next_pair(
        &mut self,
        parsed: &mut ParsedPairs,
        headed: bool,
    ) -> Result<bool, Mistake> {
        self.skip_lines()?;
        let at = self.next.at;
        match self.next.sign {
            Sign::End if parsed.pairs.is_empty() && !headed => {
                return self.expected("a pair, or 'pairs' for a list without pairs")
            }
            Sign::End => return Ok(true),
            _ if parsed.pairs.len() == MOST => {
                return Err(Mistake::new(at, "at most 65,535 pairs", "one more"))
            }
            _ => parsed.pairs.push(self.pair()?),
        }
        parsed.positions.push(at);
        Ok(false)
    }

    /// `property 7 excludes property 8`, or `7,8` as at the desk.
    fn pair(&mut self) -> Result<Pair, Mistake> {
        let pair = match self.next.sign {
            Sign::Number(_) => {
                let one = self.number(A_PROPERTY)?;
                match self.after_comma(A_PROPERTY)? {
                    Some(other) => Pair(Property(one), Property(other)),
                    None => return self.expected("',' and the other property"),
                }
            }
            Sign::Word(_) | Sign::Quoted(_) => {
                let one = self.named_property()?;
                self.word(EXCLUDES)?;
                Pair(Property(one), Property(self.named_property()?))
            }
            _ => return self.expected(A_PAIR),
        };
        match self.next.sign {
            Sign::Line | Sign::Semicolon | Sign::End => Ok(pair),
            _ => self.expected(THE_END),
        }
    }
}
