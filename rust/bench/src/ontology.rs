//! Services as classes with their definitions, for reasoners: in OWL 2 functional syntax, and as FaCT++ reads them. Nothing says which
//! contains which.

use std::collections::BTreeSet;

use reference::Entry;

/// The words of a notation.
pub struct Words {
    and: &'static str,
    not: &'static str,
    at_least: &'static str,
    at_most: &'static str,
    every: &'static str,
    thing: &'static str,
    nothing: &'static str,
    /// What stands before a name.
    before: &'static str,
    defined: &'static str,
    class: (&'static str, &'static str),
    role: (&'static str, &'static str),
    functional: &'static str,
    begin: &'static str,
    end: &'static str,
}

pub const OWL: Words = Words {
    and: "ObjectIntersectionOf(",
    not: "ObjectComplementOf(",
    at_least: "ObjectMinCardinality(",
    at_most: "ObjectMaxCardinality(",
    every: "ObjectAllValuesFrom(",
    thing: "owl:Thing",
    nothing: "owl:Nothing",
    before: ":",
    defined: "EquivalentClasses(",
    class: ("Declaration(Class(", "))"),
    role: ("Declaration(ObjectProperty(", "))"),
    functional: "FunctionalObjectProperty(",
    begin: "Prefix(:=<urn:goltximen#>)\nPrefix(owl:=<http://www.w3.org/2002/07/owl#>)\nOntology(<urn:goltximen>\n",
    end: ")\n",
};

pub const FACT: Words = Words {
    and: "(and ",
    not: "(not ",
    at_least: "(atleast ",
    at_most: "(atmost ",
    every: "(all ",
    thing: "*TOP*",
    nothing: "*BOTTOM*",
    before: "",
    defined: "(equal_c ",
    class: ("(defprimconcept ", ")"),
    role: ("(defprimrole ", ")"),
    functional: "(functional ",
    begin: "",
    end: "",
};

/// The first link that leads to one item only.
const SINGLE: u16 = 32_768;

/// The services, numbered from 1.
pub fn ontology(words: &Words, services: &[Vec<Entry>]) -> String {
    let all = || services.iter().flatten();
    let names = |of: fn(u8) -> bool| -> BTreeSet<u16> {
        all().filter(|e| of(e.kind)).map(|e| e.name).collect()
    };
    let mut text = words.begin.to_string();
    let mut line = |parts: &[&str]| {
        text.push_str(&parts.concat());
        text.push('\n');
    };
    for name in names(|kind| kind < 3) {
        line(&[words.class.0, &words.property(name), words.class.1]);
    }
    for name in names(|kind| (3..6).contains(&kind)) {
        let link = words.link(name);
        line(&[words.role.0, &link, words.role.1]);
        if name >= SINGLE {
            line(&[words.functional, &link, ")"]);
        }
    }
    for (number, service) in (1..).zip(services) {
        let name = format!("{}Service_{number}", words.before);
        // FaCT++ declares a class by its definition.
        if !words.before.is_empty() {
            line(&[words.class.0, &name, words.class.1]);
        }
        line(&[words.defined, &name, " ", &words.place(service, 0), ")"]);
    }
    text + words.end
}

impl Words {
    fn property(&self, name: u16) -> String {
        format!("{}property_{name}", self.before)
    }

    fn link(&self, name: u16) -> String {
        format!("{}link_{name}", self.before)
    }

    /// What the entries of this owner ask for together.
    fn place(&self, entries: &[Entry], owner: usize) -> String {
        let numbered = (1..).zip(entries);
        let owned = numbered.filter(|(_, e)| usize::from(e.owner) == owner);
        let mut asked: Vec<String> = owned
            .map(|(number, e)| self.expression(entries, number, e))
            .collect();
        match asked.len() {
            0 => self.thing.to_string(),
            1 => asked.remove(0),
            _ => format!("{}{})", self.and, asked.join(" ")),
        }
    }

    fn expression(&self, entries: &[Entry], number: usize, e: &Entry) -> String {
        let count = e.number;
        match e.kind {
            1 => self.property(e.name),
            2 => format!("{}{})", self.not, self.property(e.name)),
            3 => format!("{}{count} {})", self.at_least, self.link(e.name)),
            4 => format!("{}{count} {})", self.at_most, self.link(e.name)),
            5 => {
                let below = self.place(entries, number);
                format!("{}{} {below})", self.every, self.link(e.name))
            }
            _ => self.nothing.to_string(),
        }
    }
}
