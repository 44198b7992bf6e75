//! Class expressions as entries.

use super::names::numbered;
use super::{Mistake, Reader, Sign, A_CLASS, DEEPEST};
use crate::owl::OWL;

impl Reader<'_> {
    /// A class expression, as entries of this owner.
    pub(super) fn expression(&mut self, owner: u16, depth: usize) -> Result<(), Mistake> {
        if depth > DEEPEST {
            return self.fault(format!("expressions at most {DEEPEST} deep"));
        }
        if let Some(iri) = self.iri(&self.next().sign) {
            return match self.description(&iri) {
                Some(definition) => self.put_in(definition, owner, depth),
                None => self.class(owner, 1),
            };
        }
        let word = match &self.next().sign {
            Sign::Word(word) => word.clone(),
            _ => return self.fault(A_CLASS),
        };
        match word.as_str() {
            "ObjectIntersectionOf" => self.intersection(owner, depth),
            "ObjectComplementOf" => self.complement(owner),
            "ObjectAllValuesFrom" => self.every(owner, depth),
            "ObjectSomeValuesFrom" => self.some(owner),
            "ObjectMinCardinality" => self.cardinality(owner, &[3]),
            "ObjectMaxCardinality" => self.cardinality(owner, &[4]),
            "ObjectExactCardinality" => self.cardinality(owner, &[3, 4]),
            _ => self.fault(A_CLASS),
        }
    }

    /// Where the definition of a class description_3 begins, as dictionaries have them.
    pub(super) fn description(&self, iri: &str) -> Option<usize> {
        numbered(iri, "description_")?;
        let mut defined = self.defined.iter().filter(|(class, _)| class == iri);
        defined.next().map(|&(_, at)| at)
    }

    /// What a named description stands for, at the place where it is named.
    pub(super) fn put_in(
        &mut self,
        definition: usize,
        owner: u16,
        depth: usize,
    ) -> Result<(), Mistake> {
        let after = self.at + 1;
        self.at = definition;
        self.expression(owner, depth + 1)?;
        self.at = after;
        Ok(())
    }

    /// A class by itself: an entry of this kind, 1 or 2.
    pub(super) fn class(&mut self, owner: u16, kind: u8) -> Result<(), Mistake> {
        let iri = self.iri(&self.next().sign);
        let Some(iri) = iri else {
            return self.fault("a class by its name: only of that the complement is taken");
        };
        let at = self.next().at;
        let thing = iri == format!("{OWL}Thing");
        let nothing = iri == format!("{OWL}Nothing");
        match (thing, nothing, kind) {
            (true, _, 1) | (_, true, 2) => (),
            (_, true, _) | (true, _, _) => {
                self.push(6, owner, 0, 0, at)?;
            }
            _ => {
                if self.is_defined(&iri) {
                    let expected = "a class without a definition: named definitions are not taken";
                    return self.fault(expected);
                }
                let property = self.property(&iri)?;
                self.push(kind, owner, property.0, 0, at)?;
            }
        }
        self.take();
        Ok(())
    }

    pub(super) fn intersection(&mut self, owner: u16, depth: usize) -> Result<(), Mistake> {
        self.take();
        self.open()?;
        while self.next().sign != Sign::Close {
            let begin = self.at;
            let read = self.expression(owner, depth + 1);
            self.passing(begin, read)?;
        }
        self.close()
    }

    pub(super) fn complement(&mut self, owner: u16) -> Result<(), Mistake> {
        self.take();
        self.open()?;
        self.class(owner, 2)?;
        self.close()
    }

    pub(super) fn every(&mut self, owner: u16, depth: usize) -> Result<(), Mistake> {
        let at = self.take().at;
        self.open()?;
        let link = self.link()?;
        let number = self.push(5, owner, link.0, 0, at)?;
        self.expression(number, depth + 1)?;
        self.close()
    }

    /// `ObjectSomeValuesFrom(link owl:Thing)`, which is at least 1.
    pub(super) fn some(&mut self, owner: u16) -> Result<(), Mistake> {
        let at = self.take().at;
        self.open()?;
        let link = self.link()?;
        self.only_thing()?;
        self.push(3, owner, link.0, 1, at)?;
        self.close()
    }

    /// A cardinality, as entries of these kinds.
    pub(super) fn cardinality(&mut self, owner: u16, kinds: &[u8]) -> Result<(), Mistake> {
        let at = self.take().at;
        self.open()?;
        let number = match &self.next().sign {
            Sign::Word(word) => word.parse().ok(),
            _ => None,
        };
        let Some(number) = number else {
            return self.fault("a number from 0 to 65,535");
        };
        self.take();
        let link = self.link()?;
        if self.next().sign != Sign::Close {
            self.only_thing()?;
        }
        for &kind in kinds {
            self.push(kind, owner, link.0, number, at)?;
        }
        self.close()
    }

    /// What is counted has to be all items: descriptions count no others.
    pub(super) fn only_thing(&mut self) -> Result<(), Mistake> {
        if self.iri(&self.next().sign) != Some(format!("{OWL}Thing")) {
            return self.fault("owl:Thing: descriptions count all items by a link");
        }
        self.take();
        Ok(())
    }
}
