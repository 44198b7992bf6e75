//! Other syntaxes of OWL, which are recognised and not read.

use crate::text::{Mistake, Position};

/// The mistake that a text in another syntax is, if it is in one.
pub(super) fn syntax(text: &str) -> Option<Mistake> {
    let text = text.trim_start_matches('\u{feff}');
    let begin = text.find(|sign: char| !sign.is_whitespace())?;
    let rest = &text[begin..];
    let lower = rest.get(..8).unwrap_or(rest).to_ascii_lowercase();
    let found = match () {
        () if rest.starts_with('<') && rest.contains("<rdf:RDF") => "RDF/XML",
        () if rest.starts_with('<') && rest.contains("<Ontology") => "OWL/XML",
        () if rest.starts_with('<') && rest.starts_with("<?xml") => "XML",
        () if lower.starts_with("@prefix") || lower.starts_with("@base") => "Turtle",
        () if lower.starts_with("prefix ") || lower.starts_with("base <") => "Turtle",
        () if ["Prefix:", "Ontology:", "Class:"]
            .iter()
            .any(|word| rest.starts_with(word)) =>
        {
            "Manchester syntax"
        }
        () => return None,
    };
    let before = &text[..begin];
    let at = Position {
        line: before.matches('\n').count() + 1,
        column: before.rsplit('\n').next().unwrap_or("").chars().count() + 1,
    };
    let expected = "OWL 2 functional syntax";
    let hint =
        "; save it as functional syntax (in Prot\u{e9}g\u{e9}: Save as, OWL Functional Syntax)";
    Some(Mistake::new(at, expected, found).hinted(hint))
}
