//! Properties, links and descriptions by their numbers and by their words.

use super::{Mistake, Parser, Position, Sign, THE_END};
use crate::entry::{Link, Named, Property};
use crate::names::clashing;
use crate::suggest::meant;
use crate::text::quoted;

impl Parser<'_> {
    pub(super) fn link(&mut self) -> Result<u16, Mistake> {
        let number = self.numbered_name("link", "a link from 0 to 65,535, or its word")?;
        match number {
            Some(number) => {
                if let Some((word, at)) = self.word_after_number()? {
                    let learnt = self.learnt.name_link(Link(number), &word, at, self.names);
                    learnt.map_err(|clash| clashing(at, "link", number, &word, clash))?;
                }
                Ok(number)
            }
            None => {
                let (word, at) = self.name_in_words("'link' and a number, or a link's word")?;
                let found = [self.names, &self.learnt].map(|names| names.link_called(&word));
                self.one_of(found.map(|link| link.map(|link| link.0)), at, "link", &word)
            }
        }
    }

    /// A description of a dictionary by its number or its word.
    pub(super) fn named_description(&mut self) -> Result<u16, Mistake> {
        if let Sign::Number(_) = self.next.sign {
            let number = self.number("a description from 0 to 65,535, or its word")?;
            self.description_word(number)?;
            return Ok(number);
        }
        let (word, at) = self.name_in_words("a description's number, or its word")?;
        let found = [self.names, &self.learnt].map(|names| names.description_called(&word));
        let found = found.map(|named| named.map(|named| named.0));
        self.one_of(found, at, "description", &word)
    }

    /// The word in quotes that may come after a description's number.
    pub(super) fn description_word(&mut self, number: u16) -> Result<(), Mistake> {
        if let Some((word, at)) = self.word_after_number()? {
            let named = Named(number);
            let learnt = self.learnt.name_description(named, &word, at, self.names);
            learnt.map_err(|clash| clashing(at, "description", number, &word, clash))?;
        }
        Ok(())
    }

    /// The property after `has` or `lacks`.
    pub(super) fn owned_property(&mut self) -> Result<u16, Mistake> {
        self.take()?;
        self.named_property()
    }

    /// A property by its number or its word.
    pub(super) fn named_property(&mut self) -> Result<u16, Mistake> {
        let number = self.numbered_name("property", "a property from 0 to 65,535, or its word")?;
        match number {
            Some(number) => {
                if let Some((word, at)) = self.word_after_number()? {
                    let property = Property(number);
                    let learnt = self.learnt.name_property(property, &word, at, self.names);
                    learnt.map_err(|clash| clashing(at, "property", number, &word, clash))?;
                }
                Ok(number)
            }
            None => {
                let (word, at) = self.name_in_words("'property' and a number, or its word")?;
                let found = [self.names, &self.learnt].map(|names| names.property_called(&word));
                let found = found.map(|property| property.map(|property| property.0));
                self.one_of(found, at, "property", &word)
            }
        }
    }

    /// The number after `link` or `property`; nothing where a word comes instead.
    fn numbered_name(&mut self, sort: &str, expected: &str) -> Result<Option<u16>, Mistake> {
        if !self.next_is_word(sort) {
            return Ok(None);
        }
        self.take()?;
        match self.next.sign {
            Sign::Number(_) => self.number(expected).map(Some),
            Sign::Quoted(_) | Sign::Word(_) => Ok(None),
            _ => self.expected(expected),
        }
    }

    /// The word in quotes that may come after a number.
    fn word_after_number(&mut self) -> Result<Option<(String, Position)>, Mistake> {
        match &self.next.sign {
            Sign::Quoted(_) => {
                let token = self.take()?;
                let Sign::Quoted(word) = token.sign else {
                    return Ok(None);
                };
                if word.is_empty() || word.trim() != word {
                    let expected = "a word that neither begins nor ends with a space";
                    return Err(Mistake::new(token.at, expected, quoted(&word)));
                }
                Ok(Some((word, token.at)))
            }
            _ if self.next_stops() => Ok(None),
            Sign::Word(_) | Sign::Number(_) => {
                self.expected(format!("{THE_END}, or its word in quotes"))
            }
            _ => Ok(None),
        }
    }

    /// A word in quotes, or words without them up to the next other sign or the word that ends a name.
    fn name_in_words(&mut self, expected: &str) -> Result<(String, Position), Mistake> {
        let at = self.next.at;
        if let Sign::Quoted(word) = &self.next.sign {
            let word = word.clone();
            self.take()?;
            return Ok((word, at));
        }
        let mut words = Vec::new();
        if !matches!(self.next.sign, Sign::Word(_)) || self.next_stops() {
            return self.expected(expected);
        }
        while let Sign::Word(word) | Sign::Number(word) = &self.next.sign {
            words.push(word.clone());
            self.take()?;
            if self.next_stops() {
                break;
            }
        }
        Ok((words.join(" "), at))
    }

    /// A near word that is known; and where none is, and there is no names file, that there is none.
    fn hint(&self, sort: &str, word: &str) -> String {
        let known = [self.names, &self.learnt].map(|names| names.all(sort));
        match meant(word, known.concat()) {
            hint if hint.is_empty() && self.names.is_empty() => {
                "; no names file is given (--names FILE)".into()
            }
            hint => hint,
        }
    }

    /// The number that a word stands for: in the names that are given, or in the text before. Where these say two things, the word
    /// says nothing.
    fn one_of(
        &self,
        found: [Option<u16>; 2],
        at: Position,
        sort: &str,
        word: &str,
    ) -> Result<u16, Mistake> {
        match found {
            [Some(given), Some(own)] if given != own => {
                let expected = format!(
                    "the number of a {sort}: the names file calls {sort} {given} so, and this text {sort} {own}"
                );
                Err(Mistake::new(at, expected, quoted(word)))
            }
            [Some(number), _] | [None, Some(number)] => Ok(number),
            [None, None] => Err(unknown(at, sort, word).hinted(self.hint(sort, word))),
        }
    }
}

fn unknown(at: Position, sort: &str, word: &str) -> Mistake {
    let known = match sort {
        "description" => "the names file, the dictionary or the text before",
        _ => "the names file, or the text before,",
    };
    let expected = format!("a word that {known} gives to a {sort}");
    Mistake::new(at, expected, quoted(word))
}
