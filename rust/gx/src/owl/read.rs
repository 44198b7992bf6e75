//! A description from OWL: a class expression, or a class that an ontology defines by one.

mod axioms;
mod expression;
mod names;
mod passed;

use std::collections::BTreeMap;

use super::lexer::{tokens, Sign, Token};
use super::{OWL, RDFS, SPACE};
use crate::entry::Entry;
use crate::names::Names;
use crate::pairs::Pair;
use crate::text::{Mistake, Position};

/// What was found.
#[derive(Clone, Debug)]
pub struct Found {
    /// The entries of the description, as they are written.
    pub entries: Vec<Entry>,
    /// Where each begins.
    pub positions: Vec<Position>,
    /// The properties that exclude each other, as they are written.
    pub pairs: Vec<Pair>,
    /// The words that labels give.
    pub words: Names,
}

/// Class expressions are nested no deeper than this; an accepted description needs far less.
const DEEPEST: usize = 200;
const A_CLASS: &str = "a class, ObjectComplementOf a class, ObjectIntersectionOf, ObjectAllValuesFrom, ObjectMinCardinality, \
ObjectMaxCardinality, ObjectExactCardinality, or ObjectSomeValuesFrom owl:Thing";
const AN_AXIOM: &str = "a Declaration, an annotation, FunctionalObjectProperty, DisjointClasses of classes, or EquivalentClasses of a \
class and an expression";
const A_PLAIN_CLASS: &str = "a class by its name and without a definition: only such classes are taken as excluding each other";
const A_FUNCTION: &str = "link_32768 to link_65535, which lead to one item only: of other links there may be several items";

/// Reads a class expression, or the one that defines a class in an ontology, and the properties that exclude each other there.
///
/// # Errors
///
/// The mistakes, or constructs that descriptions do not have, up to [`MOST_MISTAKES`](crate::text::MOST_MISTAKES).
pub fn read(text: &str, class: Option<&str>, names: &Names) -> Result<Found, Vec<Mistake>> {
    let mut reader = Reader::new(text, names).map_err(|mistake| vec![mistake])?;
    let read = match reader.is_ontology() {
        true => reader.ontology(class),
        false => reader.alone(),
    };
    reader.found(read)
}

/// Reads the properties that exclude each other in an ontology, whatever classes it defines.
///
/// # Errors
///
/// The mistakes, or axioms that are not taken.
pub fn read_pairs(text: &str, names: &Names) -> Result<Found, Vec<Mistake>> {
    let mut reader = Reader::new(text, names).map_err(|mistake| vec![mistake])?;
    let read = match reader.is_ontology() {
        true => reader.document().map(|()| reader.excluding()),
        false => reader.fault("an ontology: only that says which classes exclude each other"),
    };
    reader.found(read)
}

struct Reader<'a> {
    tokens: Vec<Token>,
    at: usize,
    names: &'a Names,
    prefixes: BTreeMap<String, String>,
    labels: BTreeMap<String, String>,
    /// Where the object properties stand of which it is said that they lead to one item only.
    functional: Vec<usize>,
    /// Where the classes begin of which it is said that they exclude each other.
    disjoint: Vec<usize>,
    /// The classes that are defined, and where their expressions begin.
    defined: Vec<(String, usize)>,
    entries: Vec<Entry>,
    positions: Vec<Position>,
    pairs: Vec<Pair>,
    /// The mistakes that were passed over.
    passed: Vec<Mistake>,
}

impl<'a> Reader<'a> {
    fn new(text: &str, names: &'a Names) -> Result<Reader<'a>, Mistake> {
        if let Some(mistake) = super::other::syntax(text) {
            return Err(mistake);
        }
        let spaces = [("owl:", OWL), ("rdfs:", RDFS), (":", SPACE)];
        let prefixes = spaces.map(|(prefix, iri)| (prefix.into(), iri.into()));
        Ok(Reader {
            tokens: tokens(text)?,
            at: 0,
            names,
            prefixes: prefixes.into(),
            labels: BTreeMap::new(),
            functional: Vec::new(),
            disjoint: Vec::new(),
            defined: Vec::new(),
            entries: Vec::new(),
            positions: Vec::new(),
            pairs: Vec::new(),
            passed: Vec::new(),
        })
    }

    fn is_ontology(&self) -> bool {
        self.next_is("Prefix") || self.next_is("Ontology")
    }

    /// A class expression by itself.
    fn alone(&mut self) -> Result<(), Mistake> {
        self.expression(0, 0)?;
        self.expect(&Sign::End, "the end of the text after the class expression")
    }

    /// An ontology, and in it the expression of the class that is asked for.
    fn ontology(&mut self, class: Option<&str>) -> Result<(), Mistake> {
        self.document()?;
        let chosen = match self.chosen(class) {
            // It may be missing for the mistakes alone.
            Err(_) if !self.passed.is_empty() => return Ok(()),
            chosen => chosen?,
        };
        self.only_functions();
        self.excluding();
        self.at = chosen;
        self.expression(0, 0)
    }

    /// The next sign; after the last there is only the end.
    fn next(&self) -> &Token {
        let last = self.tokens.len() - 1;
        &self.tokens[self.at.min(last)]
    }

    fn take(&mut self) -> Token {
        let token = self.next().clone();
        self.at += 1;
        token
    }

    fn next_is(&self, word: &str) -> bool {
        matches!(&self.next().sign, Sign::Word(next) if next == word)
    }

    fn fault<T>(&self, expected: impl Into<String>) -> Result<T, Mistake> {
        let token = self.next();
        Err(Mistake::new(token.at, expected, token.sign.named()))
    }

    fn expect(&mut self, sign: &Sign, expected: &str) -> Result<(), Mistake> {
        if self.next().sign != *sign {
            return self.fault(expected);
        }
        self.at += 1;
        Ok(())
    }

    fn open(&mut self) -> Result<(), Mistake> {
        self.expect(&Sign::Open, "'('")
    }

    fn close(&mut self) -> Result<(), Mistake> {
        self.expect(&Sign::Close, "')'")
    }

    /// The prefixes and axioms of an ontology.
    fn document(&mut self) -> Result<(), Mistake> {
        while self.next_is("Prefix") {
            self.take();
            self.open()?;
            let Sign::Word(prefix) = self.take().sign else {
                return self.fault("a prefix, '=' and an IRI");
            };
            self.expect(&Sign::Equals, "'=' after the prefix")?;
            let Sign::Iri(iri) = self.take().sign else {
                return self.fault("an IRI for the prefix");
            };
            self.prefixes.insert(prefix, iri);
            self.close()?;
        }
        if !self.next_is("Ontology") {
            return self.fault("'Ontology'");
        }
        self.take();
        self.open()?;
        while matches!(self.next().sign, Sign::Iri(_)) {
            self.take();
        }
        while self.next().sign != Sign::Close {
            let begin = self.at;
            let read = self.axiom();
            self.passing(begin, read)?;
        }
        self.close()?;
        self.expect(&Sign::End, "the end of the text after the ontology")
    }

    /// Passes over a pair of brackets and what is in it.
    fn pass_over(&mut self) -> Result<(), Mistake> {
        self.open()?;
        let mut open = 1;
        while open > 0 {
            match self.next().sign {
                Sign::Open => open += 1,
                Sign::Close => open -= 1,
                Sign::End => return self.fault("')'"),
                _ => (),
            }
            self.at += 1;
        }
        Ok(())
    }

    /// The full IRI of a name.
    fn iri(&self, sign: &Sign) -> Option<String> {
        match sign {
            Sign::Iri(iri) => Some(iri.clone()),
            Sign::Word(word) => {
                let (prefix, local) = word.split_at(word.find(':')? + 1);
                Some(format!("{}{local}", self.prefixes.get(prefix)?))
            }
            _ => None,
        }
    }

    fn push(
        &mut self,
        kind: u8,
        owner: u16,
        name: u16,
        number: u16,
        at: Position,
    ) -> Result<u16, Mistake> {
        let count = u16::try_from(self.entries.len() + 1);
        let number_of =
            count.map_err(|_| Mistake::new(at, "at most 65,535 entries", "one more"))?;
        self.positions.push(at);
        self.entries.push(Entry {
            kind,
            zero: 0,
            owner,
            name,
            number,
        });
        Ok(number_of)
    }
}
