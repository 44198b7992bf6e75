//! The axioms of an ontology.

use super::names::local;
use super::{Mistake, Reader, Sign, AN_AXIOM, A_FUNCTION, A_PLAIN_CLASS, RDFS};
use crate::entry::Property;
use crate::pairs::Pair;

impl Reader<'_> {
    pub(super) fn axiom(&mut self) -> Result<(), Mistake> {
        let word = match &self.next().sign {
            Sign::Word(word) => word.clone(),
            _ => return self.fault(AN_AXIOM),
        };
        match word.as_str() {
            "Declaration" | "Annotation" => {
                self.take();
                self.pass_over()
            }
            "AnnotationAssertion" => self.annotation(),
            "EquivalentClasses" => self.definition(),
            "FunctionalObjectProperty" => {
                self.take();
                self.functional.push(self.at + 1);
                self.pass_over()
            }
            "DisjointClasses" => {
                self.take();
                self.disjoint.push(self.at + 1);
                self.pass_over()
            }
            _ => self.fault(AN_AXIOM),
        }
    }

    /// Each two of the classes that are said to exclude each other. A class that is no property of ours is in no description, so
    /// that it does not matter.
    pub(super) fn excluding(&mut self) {
        for at in std::mem::take(&mut self.disjoint) {
            self.at = at;
            let read = self.disjoint_classes();
            self.passed.extend(read.err());
        }
    }

    fn disjoint_classes(&mut self) -> Result<(), Mistake> {
        let mut earlier: Vec<Property> = Vec::new();
        while self.next().sign != Sign::Close {
            let iri = self.iri(&self.next().sign);
            let iri = iri.filter(|iri| !self.is_defined(iri));
            let Some(iri) = iri else {
                return self.fault(A_PLAIN_CLASS);
            };
            if let Some(property) = self.property_of(&iri) {
                let pairs = earlier.iter().map(|&one| Pair(one, property));
                self.pairs.extend(pairs);
                earlier.push(property);
            }
            self.take();
        }
        Ok(())
    }

    pub(super) fn is_defined(&self, iri: &str) -> bool {
        self.defined.iter().any(|(defined, _)| defined == iri)
    }

    /// That a link leads to one item only is taken where it is so of that link; else the description would mean something else.
    /// Of an object property that is no link of ours it does not matter.
    pub(super) fn only_functions(&mut self) {
        for at in std::mem::take(&mut self.functional) {
            self.at = at;
            let iri = self.iri(&self.next().sign);
            let link = iri.and_then(|iri| self.link_of(&iri));
            if link.is_some_and(|link| !link.leads_to_one()) {
                let token = self.next();
                let mistake = Mistake::new(token.at, A_FUNCTION, token.sign.named());
                self.passed.push(mistake);
            }
        }
    }

    /// A label is a word for what it labels; other annotations say nothing here.
    fn annotation(&mut self) -> Result<(), Mistake> {
        self.take();
        let begin = self.at;
        self.pass_over()?;
        let parts: Vec<Sign> = self.tokens[begin + 1..self.at - 1]
            .iter()
            .map(|token| token.sign.clone())
            .collect();
        if let [what, subject, Sign::Text(label)] = parts.as_slice() {
            if self.iri(what) == Some(format!("{RDFS}label")) {
                if let Some(subject) = self.iri(subject) {
                    self.labels.insert(subject, label.clone());
                }
            }
        }
        Ok(())
    }

    fn definition(&mut self) -> Result<(), Mistake> {
        self.take();
        let begin = self.at;
        self.open()?;
        let class = match self.iri(&self.next().sign) {
            Some(iri) => iri,
            None => return self.fault("a class that is defined"),
        };
        self.take();
        self.defined.push((class, self.at));
        self.at = begin;
        self.pass_over()
    }

    /// Where the expression of the class begins that is asked for.
    pub(super) fn chosen(&self, class: Option<&str>) -> Result<usize, Mistake> {
        let called = |iri: &str, name: &str| {
            iri == name || local(iri) == name || self.labels.get(iri).is_some_and(|l| l == name)
        };
        let list: Vec<&(String, usize)> = match class {
            Some(name) => self
                .defined
                .iter()
                .filter(|(iri, _)| called(iri, name))
                .collect(),
            None => self.defined.iter().collect(),
        };
        match (list.as_slice(), class) {
            ([(_, at)], _) => Ok(*at),
            ([], None) => self.fault("an ontology that defines a class by EquivalentClasses"),
            (_, Some(name)) => self.fault(format!("one definition of the class '{name}'")),
            (_, None) => {
                let names: Vec<&str> = list.iter().map(|(iri, _)| local(iri)).collect();
                self.fault(format!("--class with one of {}", names.join(", ")))
            }
        }
    }
}
