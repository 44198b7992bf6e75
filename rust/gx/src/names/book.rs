//! Words and their numbers, each with the place that gives it.

use std::collections::BTreeMap;
use std::rc::Rc;

use crate::text::{Mistake, Position};

/// Where a word is given.
#[derive(Clone, Debug, Default, PartialEq, Eq)]
pub struct Place {
    /// The file as it was named; empty while its text is read.
    pub file: Rc<str>,
    /// The place in its text.
    pub at: Position,
    /// The text.
    text: Rc<str>,
    /// Whether it is the names file, whose words are shown whatever others say.
    settles: bool,
}

impl Place {
    /// A place in the text that is being read.
    pub(super) fn here(at: Position, settles: bool) -> Place {
        Place {
            at,
            settles,
            ..Place::default()
        }
    }

    /// The line of the text with a sign under the place.
    pub fn shown(&self) -> String {
        Mistake::new(self.at, "", "").shown_in(&self.text)
    }
}

/// The words of one number.
#[derive(Clone, Debug, PartialEq, Eq)]
struct Word {
    one: String,
    many: Option<String>,
    place: Place,
}

impl Word {
    fn is(&self, word: &str) -> bool {
        self.one == word || self.many.as_deref() == Some(word)
    }
}

/// The words of all properties, of all links, or of all descriptions: each number has one word, and each word stands for one number.
#[derive(Clone, Debug, Default, PartialEq, Eq)]
pub(super) struct Book {
    words: BTreeMap<u16, Word>,
    numbers: BTreeMap<String, u16>,
}

/// Why a word cannot be added.
#[derive(Clone, Debug, PartialEq, Eq)]
pub enum Clash {
    /// The number has this other word, given there.
    OtherWord(String, Place),
    /// The word stands for this other number, as is said there.
    OtherNumber(u16, Place),
}

/// A word of a number, given somewhere.
#[derive(Clone, Debug, PartialEq, Eq)]
pub struct Said {
    /// The number.
    pub number: u16,
    /// The word.
    pub word: String,
    /// Where.
    pub place: Place,
}

/// Two that do not go together: two words of one number, or one word of two. Or, where the names file has the number, one that it
/// settles.
#[derive(Clone, Debug, PartialEq, Eq)]
pub struct Conflict {
    /// What the numbers are of: "property", "link" or "description".
    pub of: &'static str,
    /// The one that was known; of a conflict that is settled, what the names file says.
    pub known: Said,
    /// The other one.
    pub other: Said,
}

impl Book {
    /// Whether this word may be that of this number in a text beside this book. Another word of a number that the names file has
    /// may be: the names file settles it.
    pub(super) fn allow(&self, number: u16, word: &str) -> Result<(), Clash> {
        match self.words.get(&number) {
            Some(known) if known.is(word) || known.place.settles => return Ok(()),
            Some(known) => {
                let (word, place) = (known.one.clone(), known.place.clone());
                return Err(Clash::OtherWord(word, place));
            }
            None => (),
        }
        match self.numbers.get(word) {
            Some(&of) => Err(Clash::OtherNumber(of, self.place_of(of))),
            None => Ok(()),
        }
    }

    fn place_of(&self, number: u16) -> Place {
        let known = self.words.get(&number);
        known.map(|known| known.place.clone()).unwrap_or_default()
    }

    /// Adds the word, and the plural, of a number.
    pub(super) fn add(
        &mut self,
        number: u16,
        one: &str,
        many: Option<&str>,
        place: Place,
    ) -> Result<(), Clash> {
        for word in [Some(one), many].into_iter().flatten() {
            match self.numbers.get(word) {
                Some(&of) if of != number => return Err(Clash::OtherNumber(of, self.place_of(of))),
                _ => (),
            }
        }
        if let Some(known) = self.words.get(&number) {
            if !known.is(one) {
                let (word, place) = (known.one.clone(), known.place.clone());
                return Err(Clash::OtherWord(word, place));
            }
        }
        self.numbers.insert(one.into(), number);
        if let Some(many) = many {
            self.numbers.insert(many.into(), number);
        }
        let known = self.words.entry(number).or_insert(Word {
            one: one.into(),
            many: None,
            place,
        });
        known.many = many.map(String::from).or(known.many.take());
        Ok(())
    }

    pub(super) fn word(&self, number: u16, count: u32) -> Option<&str> {
        let word = self.words.get(&number)?;
        let many = word.many.as_deref().filter(|_| count != 1);
        Some(many.unwrap_or(&word.one))
    }

    pub(super) fn number(&self, word: &str) -> Option<u16> {
        self.numbers.get(word).copied()
    }

    /// All words, for 'did you mean'.
    pub(super) fn all(&self) -> impl Iterator<Item = &str> {
        self.numbers.keys().map(String::as_str)
    }

    /// Says of all words in which file they are.
    pub(super) fn placed(&mut self, file: &Rc<str>, text: &Rc<str>) {
        for word in self.words.values_mut() {
            word.place.file = Rc::clone(file);
            word.place.text = Rc::clone(text);
        }
    }

    /// Takes over the words of another; those that the names file settles are told and left out.
    pub(super) fn join(
        &mut self,
        of: &'static str,
        other: &Book,
        settled: &mut Vec<Conflict>,
    ) -> Result<(), Box<Conflict>> {
        for (&number, word) in &other.words {
            let known = self.words.get(&number);
            if let Some(known) = known.filter(|known| known.place.settles && !known.is(&word.one)) {
                let told = conflict(of, (number, known), (number, word));
                if !settled.contains(&told) {
                    settled.push(told);
                }
                continue;
            }
            let added = self.add(number, &word.one, word.many.as_deref(), word.place.clone());
            let clashing = match added {
                Ok(()) => continue,
                Err(Clash::OtherNumber(clashing, _)) => clashing,
                Err(Clash::OtherWord(..)) => number,
            };
            if let Some(known) = self.words.get(&clashing) {
                return Err(Box::new(conflict(of, (clashing, known), (number, word))));
            }
        }
        Ok(())
    }
}

fn conflict(of: &'static str, known: (u16, &Word), other: (u16, &Word)) -> Conflict {
    let said = |(number, word): (u16, &Word)| Said {
        number,
        word: word.one.clone(),
        place: word.place.clone(),
    };
    Conflict {
        of,
        known: said(known),
        other: said(other),
    }
}
