//! A specimen as an indented tree with counts.

pub mod read;

use crate::entry::{Entry, Says};
use crate::tree::Tree;
use crate::words::{grouped, listed, Words};

/// A line of the tree.
#[derive(Clone, Debug, PartialEq, Eq)]
pub struct Line {
    /// The group, or 0 for the top item.
    pub group: usize,
    /// How many groups are above it.
    pub depth: usize,
    /// The count and the word: "2 cores", "the top item".
    pub items: String,
    /// What the items have, up to the groups: ", which has property sealed, and".
    pub rest: String,
    /// The properties that this leaves out.
    pub more: Vec<String>,
}

/// So many properties are told on a line; of more, the first ones and how many follow.
const MOST_PROPERTIES: usize = 12;

/// The lines of a specimen, from the top item down.
pub fn lines(entries: &[Entry], words: Words<'_>) -> Vec<Line> {
    let tree = Tree::new(entries);
    let mut lines = Vec::new();
    below(entries, &tree, words, 0, 0, &mut lines);
    lines
}

fn below(
    entries: &[Entry],
    tree: &Tree,
    words: Words<'_>,
    owner: usize,
    depth: usize,
    lines: &mut Vec<Line>,
) {
    let (items, count) = match owner.checked_sub(1).map(|at| entries[at].says()) {
        Some(Says::Group(link, count)) => (words.items(count, link), count),
        _ => ("the top item".into(), 1),
    };
    let owned = tree.owned(owner);
    let groups: Vec<usize> = owned
        .iter()
        .copied()
        .filter(|&n| entries[n - 1].owns())
        .collect();
    let mut properties: Vec<String> = properties(entries, owned)
        .map(|property| words.property_word(property))
        .collect();
    let more = properties.split_off(properties.len().min(MOST_PROPERTIES));
    if !more.is_empty() {
        properties.push(format!("{} more", grouped(more.len() as u32)));
    }
    lines.push(Line {
        group: owner,
        depth,
        items,
        rest: rest(owner, count, &properties, !groups.is_empty()),
        more,
    });
    for group in groups {
        below(entries, tree, words, group, depth + 1, lines);
    }
}

/// The properties among these entries.
pub fn properties<'a>(
    entries: &'a [Entry],
    numbers: &'a [usize],
) -> impl Iterator<Item = crate::entry::Property> + 'a {
    numbers
        .iter()
        .filter_map(|&number| match entries[number - 1].says() {
            Says::Has(property) => Some(property),
            _ => None,
        })
}

/// The rest of a line: what the items have.
fn rest(owner: usize, count: u32, properties: &[String], groups: bool) -> String {
    let which = match (owner, count) {
        (0, _) => " has",
        (_, 1) => ", which has",
        _ => ", each of which has",
    };
    let word = if properties.len() == 1 {
        "property"
    } else {
        "properties"
    };
    match (properties.is_empty(), groups) {
        (true, false) if owner == 0 => " has nothing".into(),
        (true, false) => String::new(),
        (true, true) => which.into(),
        (false, false) => format!("{which} {word} {}", listed(properties)),
        (false, true) => format!("{which} {word} {}, and", listed(properties)),
    }
}
