//! Two descriptions as two classes, and the question as a third.

use std::collections::BTreeSet;

use super::{OWL, RDFS, SPACE};
use crate::dictionary::Part;
use crate::entry::{Entry, Link, Named, Property, Says};
use crate::names::Names;
use crate::pairs::Pair;
use crate::text::quoted;
use crate::tree::Tree;

const COMMENT: &str = "The supplier's description is contained in the service's exactly if Supplier is a subclass of Service; \
that is, if SupplierOnly, which has what fits the first and not the second, is unsatisfiable.";

/// What is asked: whether the first description is contained in each of the others.
#[derive(Clone, Debug)]
pub struct Asked<'a> {
    /// The properties that exclude each other.
    pub pairs: &'a [Pair],
    /// The named descriptions.
    pub dictionary: &'a [Part],
    /// The supplier's description, as it was sent.
    pub supplier: &'a [Entry],
    /// The services' descriptions, as they were sent, each with the name of its file.
    pub services: Vec<(&'a str, &'a [Entry])>,
    /// The words of all.
    pub names: &'a Names,
}

/// The ontology that asks whether the first description is contained in the second where these pairs exclude each other.
pub fn question(pairs: &[Pair], supplier: &[Entry], service: &[Entry], names: &Names) -> String {
    questions(&Asked {
        pairs,
        dictionary: &[],
        supplier,
        services: vec![("", service)],
        names,
    })
}

/// The ontology that asks it of each service. A named description is a class of its own with its definition.
pub fn questions(asked: &Asked<'_>) -> String {
    let mut out = headed(COMMENT);
    let several = asked.services.len() > 1;
    let ending = |number: usize| {
        if several {
            format!("_{number}")
        } else {
            String::new()
        }
    };
    let numbered = || (1..).map(ending).zip(&asked.services);
    out.push_str("Declaration(Class(:Supplier))\n");
    for (number, (title, _)) in numbered() {
        for class in ["Service", "SupplierOnly"] {
            let class = format!(":{class}{number}");
            out.push_str(&format!("Declaration(Class({class}))\n"));
            out.push_str(&labelled(&class, Some(*title).filter(|_| several)));
        }
    }
    out.push_str(&declared(asked));
    out.push_str(&definition("Supplier", asked.supplier));
    for (number, (_, entries)) in numbered() {
        out.push_str(&definition(&format!("Service{number}"), entries));
        out.push_str(&format!(
            "EquivalentClasses(:SupplierOnly{number} ObjectIntersectionOf(:Supplier ObjectComplementOf(:Service{number})))\n"
        ));
    }
    out.push_str(")\n");
    out
}

/// What an ontology begins with.
pub(super) fn headed(comment: &str) -> String {
    let mut out = format!("Prefix(:=<{SPACE}>)\nPrefix(owl:=<{OWL}>)\nPrefix(rdfs:=<{RDFS}>)\n");
    let space = SPACE.trim_end_matches('#');
    out.push_str(&format!("Ontology(<{space}>\n"));
    out.push_str(&format!("Annotation(rdfs:comment {})\n", quoted(comment)));
    out
}

pub(super) fn definition(name: &str, entries: &[Entry]) -> String {
    format!("EquivalentClasses(:{name}\n{})\n", class(entries))
}

/// The properties and links of all, their words, which links lead to one item only, which properties exclude each other, and the
/// named descriptions with their definitions.
pub(super) fn declared(asked: &Asked<'_>) -> String {
    let names = asked.names;
    let parts = asked.dictionary.iter().map(|part| part.entries.as_slice());
    let services = asked.services.iter().map(|(_, entries)| *entries);
    let all: Vec<&[Entry]> = [asked.supplier]
        .into_iter()
        .chain(services)
        .chain(parts)
        .collect();
    let all = || {
        all.iter()
            .flat_map(|entries| entries.iter())
            .map(|e| e.says())
    };
    let mut properties: BTreeSet<Property> = all().filter_map(Says::property).collect();
    properties.extend(asked.pairs.iter().flat_map(|pair| [pair.0, pair.1]));
    let links: BTreeSet<Link> = all().filter_map(Says::link).collect();
    let mut out = named(&properties, &links, names);
    for Pair(one, other) in asked.pairs {
        let (one, other) = (one.0, other.0);
        out.push_str(&format!(
            "DisjointClasses(:property_{one} :property_{other})\n"
        ));
    }
    for (number, part) in (1..).zip(asked.dictionary) {
        let name = format!("description_{number}");
        out.push_str(&format!("Declaration(Class(:{name}))\n"));
        out.push_str(&labelled(
            &format!(":{name}"),
            names.description(Named(number)),
        ));
        out.push_str(&definition(&name, &part.entries));
    }
    out
}

/// These properties and links with their words, and which links lead to one item only.
fn named(properties: &BTreeSet<Property>, links: &BTreeSet<Link>, names: &Names) -> String {
    let mut out = String::new();
    for &property in properties {
        let name = format!(":property_{}", property.0);
        out.push_str(&format!("Declaration(Class({name}))\n"));
        out.push_str(&labelled(&name, names.property(property)));
    }
    for &link in links {
        let name = format!(":link_{}", link.0);
        out.push_str(&format!("Declaration(ObjectProperty({name}))\n"));
        if link.leads_to_one() {
            out.push_str(&format!("FunctionalObjectProperty({name})\n"));
        }
        out.push_str(&labelled(&name, names.link(link)));
    }
    out
}

pub(super) fn labelled(name: &str, word: Option<&str>) -> String {
    word.map_or(String::new(), |word| {
        format!("AnnotationAssertion(rdfs:label {name} {})\n", quoted(word))
    })
}

/// The class expression of a description, indented by one step.
fn class(entries: &[Entry]) -> String {
    let tree = Tree::new(entries);
    let mut out = String::new();
    place(entries, &tree, 0, 1, &mut out);
    out
}

fn place(entries: &[Entry], tree: &Tree, owner: usize, depth: usize, out: &mut String) {
    let indent = "  ".repeat(depth);
    match tree.owned(owner) {
        [] => out.push_str(&format!("{indent}owl:Thing")),
        [one] => expression(entries, tree, *one, depth, out),
        several => {
            out.push_str(&format!("{indent}ObjectIntersectionOf(\n"));
            for (at, &number) in several.iter().enumerate() {
                if at > 0 {
                    out.push('\n');
                }
                expression(entries, tree, number, depth + 1, out);
            }
            out.push(')');
        }
    }
}

fn expression(entries: &[Entry], tree: &Tree, number: usize, depth: usize, out: &mut String) {
    let indent = "  ".repeat(depth);
    out.push_str(&indent);
    match entries[number - 1].says() {
        Says::Has(p) => out.push_str(&format!(":property_{}", p.0)),
        Says::Lacks(p) => out.push_str(&format!("ObjectComplementOf(:property_{})", p.0)),
        Says::AtLeast(link, n) => {
            out.push_str(&format!("ObjectMinCardinality({n} :link_{})", link.0));
        }
        Says::AtMost(link, n) => {
            out.push_str(&format!("ObjectMaxCardinality({n} :link_{})", link.0));
        }
        Says::Every(link) => {
            out.push_str(&format!("ObjectAllValuesFrom(:link_{}\n", link.0));
            place(entries, tree, number, depth + 1, out);
            out.push(')');
        }
        Says::Named(named) => out.push_str(&format!(":description_{}", named.0)),
        // A description has no other kind than 6 besides.
        Says::Nothing | Says::Group(..) | Says::Unknown(_) => out.push_str("owl:Nothing"),
    }
}
