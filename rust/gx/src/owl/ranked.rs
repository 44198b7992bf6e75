//! Services from general to special as an ontology: each with its definition, and what the library found.

use super::write::{declared, definition, headed, labelled};
use super::Asked;
use crate::hierarchy::Hierarchy;

const COMMENT: &str = "Each service is a class with its definition. SubClassOf leads from a service to each of its direct superiors, \
and EquivalentClasses holds those that say the same; both follow from the definitions, and a reasoner that classifies them finds no \
class elsewhere.";

/// The ontology of the services of `asked`, in the order of the hierarchy.
pub fn ranked(asked: &Asked<'_>, hierarchy: &Hierarchy) -> String {
    let mut out = headed(COMMENT);
    let numbered = || (1..).zip(&asked.services);
    for (number, (title, _)) in numbered() {
        let class = format!(":Service_{number}");
        out.push_str(&format!("Declaration(Class({class}))\n"));
        out.push_str(&labelled(&class, Some(*title)));
    }
    out.push_str(&declared(asked));
    for (number, (_, entries)) in numbered() {
        out.push_str(&definition(&format!("Service_{number}"), entries));
    }
    for class in &hierarchy.classes {
        let names = |members: &[usize]| -> Vec<String> {
            members
                .iter()
                .map(|member| format!(":Service_{}", member + 1))
                .collect()
        };
        let members = names(&class.members);
        if members.len() > 1 {
            out.push_str(&format!("EquivalentClasses({})\n", members.join(" ")));
        }
        for &above in &class.above {
            let above = &names(&hierarchy.classes[above].members)[0];
            out.push_str(&format!("SubClassOf({} {above})\n", members[0]));
        }
    }
    out.push_str(")\n");
    out
}
