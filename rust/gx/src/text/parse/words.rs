//! Entries in words.

use super::{Entry, Mistake, Parser, Sign, AN_ENTRY, BEGINNINGS};
use crate::suggest::meant;

impl Parser<'_> {
    /// An entry that begins with this word.
    pub(super) fn in_words(&mut self, word: &str) -> Result<Entry, Mistake> {
        let (kind, name, number) = match word {
            "has" => (1, self.owned_property()?, 0),
            "lacks" => (2, self.owned_property()?, 0),
            "at" => return self.bound(),
            "every" => {
                self.take()?;
                (5, self.link()?, 0)
            }
            "nothing" => {
                self.take()?;
                self.word("fits")?;
                (6, 0, 0)
            }
            "named" => {
                self.take()?;
                (9, self.named_description()?, 0)
            }
            "group" => return self.group(),
            "exactly" => return self.exactly(),
            "no" | "some" => {
                self.take()?;
                let (kind, number) = if word == "no" { (4, 0) } else { (3, 1) };
                (kind, self.link()?, number)
            }
            _ => {
                let mistake = Mistake::new(self.next.at, AN_ENTRY, self.next.sign.named());
                return Err(mistake.hinted(meant(word, BEGINNINGS)));
            }
        };
        Ok(Entry {
            kind,
            name,
            number,
            ..Entry::default()
        })
    }

    /// `at least n` or `at most n`, and the link.
    pub(super) fn bound(&mut self) -> Result<Entry, Mistake> {
        self.take()?;
        let kind = match (self.next_is_word("least"), self.next_is_word("most")) {
            (true, _) => 3,
            (_, true) => 4,
            _ => return self.expected("'least' or 'most'"),
        };
        self.take()?;
        let number = self.number("a number from 0 to 65,535")?;
        Ok(Entry {
            kind,
            name: self.link()?,
            number,
            ..Entry::default()
        })
    }

    /// `exactly n`, and the link: at least n, and then at most n.
    pub(super) fn exactly(&mut self) -> Result<Entry, Mistake> {
        self.take()?;
        let number = self.number("a number from 0 to 65,535")?;
        let least = Entry {
            kind: 3,
            name: self.link()?,
            number,
            ..Entry::default()
        };
        self.second = Some(Entry { kind: 4, ..least });
        Ok(least)
    }

    /// `group of n`, and the link. The count is one more than the number that is stored.
    pub(super) fn group(&mut self) -> Result<Entry, Mistake> {
        self.take()?;
        self.word("of")?;
        let count = match &self.next.sign {
            Sign::Number(digits) => digits.parse::<u32>().ok(),
            _ => None,
        };
        let stored = count.and_then(|count| u16::try_from(count.checked_sub(1)?).ok());
        let Some(number) = stored else {
            return self.expected("a count from 1 to 65,536");
        };
        self.take()?;
        Ok(Entry {
            kind: 7,
            name: self.link()?,
            number,
            ..Entry::default()
        })
    }
}
