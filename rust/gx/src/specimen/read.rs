//! The lines of a specimen, read back. A word may have signs in it that lines are made of, so that a line may have several readings.

use super::MOST_PROPERTIES;
use crate::entry::{Entry, Link, Property, Says};
use crate::names::Names;
use crate::tree::Tree;
use crate::words::APART;

/// What a line says.
#[derive(Clone, Debug, Default, PartialEq, Eq)]
pub struct Said {
    /// How many groups are above it.
    pub depth: usize,
    /// The link and the count; none for the top item.
    pub group: Option<(Link, u32)>,
    /// The properties that are told.
    pub properties: Vec<Property>,
    /// How many more there are.
    pub more: usize,
}

/// What a line has to say.
#[derive(Clone, Debug, Default, PartialEq, Eq)]
pub struct Due {
    /// Its group, or 0 for the top item.
    pub of: usize,
    /// What it says.
    pub said: Said,
    /// The properties that it leaves out.
    pub left_out: Vec<Property>,
}

/// What the lines of a specimen have to say, from the top item down.
pub fn due(entries: &[Entry]) -> Vec<Due> {
    let tree = Tree::new(entries);
    let mut due = Vec::new();
    // What is below a group comes before its later neighbours.
    let mut waiting = vec![(0, 0)];
    while let Some((owner, depth)) = waiting.pop() {
        let says = |number: &usize| entries[number - 1].says();
        let mut line = Due {
            of: owner,
            ..Due::default()
        };
        line.said.depth = depth;
        if let Some(Says::Group(link, count)) = Some(owner).filter(|&n| n > 0).map(|n| says(&n)) {
            line.said.group = Some((link, count));
        }
        for number in tree.owned(owner) {
            match says(number) {
                Says::Has(property) if line.said.properties.len() < MOST_PROPERTIES => {
                    line.said.properties.push(property);
                }
                Says::Has(property) => line.left_out.push(property),
                _ => (),
            }
        }
        line.said.more = line.left_out.len();
        let groups = tree.owned(owner).iter().rev();
        let groups = groups.filter(|number| matches!(says(number), Says::Group(..)));
        waiting.extend(groups.map(|&number| (number, depth + 1)));
        due.push(line);
    }
    due
}

/// Reads lines in which these names are.
#[derive(Clone, Copy, Debug)]
pub struct Reader<'a> {
    names: &'a Names,
    /// The bytes of the longest word of a property, with the signs that may keep it apart, or of a number.
    longest: usize,
}

impl<'a> Reader<'a> {
    /// The reader with these names.
    pub fn new(names: &'a Names) -> Reader<'a> {
        let words = names.all("property");
        let longest = words.iter().map(|word| word.len()).max().unwrap_or(0);
        let signs: usize = APART.iter().map(|sign| sign.len_utf8()).sum();
        Reader {
            names,
            longest: longest.max(5) + signs,
        }
    }

    /// The readings of a line.
    pub fn readings(self, line: &str, depth: usize) -> Vec<Said> {
        let mut all = Vec::new();
        for (group, rest) in self.items(line) {
            for (properties, more) in self.having(rest, group.is_none()) {
                all.push(Said {
                    depth,
                    group,
                    properties,
                    more,
                });
            }
        }
        all
    }

    /// "2 samples", "2 items by link 1" or "the top item", and what comes after it.
    fn items(self, line: &str) -> Vec<(Option<(Link, u32)>, &str)> {
        if let Some(rest) = line.strip_prefix("the top item") {
            return vec![(None, rest)];
        }
        let Some((count, words)) = line.split_once(' ') else {
            return Vec::new();
        };
        let Ok(count) = count.replace(',', "").parse() else {
            return Vec::new();
        };
        let ends = words.match_indices(", ").map(|(at, _)| at);
        let ends = ends.chain([words.len()]);
        let read = ends.filter_map(|at| {
            let (word, rest) = words.split_at(at);
            Some((Some((self.link(word, count)?, count)), rest))
        });
        read.collect()
    }

    fn link(self, word: &str, count: u32) -> Option<Link> {
        let items = if count == 1 { "item" } else { "items" };
        let number = word.strip_prefix(items);
        let number = number.and_then(|rest| rest.strip_prefix(" by link "));
        match number.and_then(|number| number.parse().ok()) {
            Some(number) if self.names.link(Link(number)).is_none() => Some(Link(number)),
            _ => own(word).and_then(|word| self.names.link_called(word)),
        }
    }

    /// What the items have: the properties, and how many are left out.
    fn having(self, rest: &str, top: bool) -> Vec<(Vec<Property>, usize)> {
        let beginnings = [" has", ", which has", ", each of which has"];
        let has = beginnings.iter().find_map(|has| rest.strip_prefix(has));
        let has = match (has, top) {
            (None, false) if rest.is_empty() => return vec![(Vec::new(), 0)],
            (Some(""), _) | (Some(" nothing"), true) => return vec![(Vec::new(), 0)],
            (None, _) => return Vec::new(),
            (Some(has), _) => has,
        };
        let of = |has: &str| match has.strip_prefix(" property ") {
            Some(one) => self.listed(one, false),
            None => has
                .strip_prefix(" properties ")
                .map_or_else(Vec::new, |several| self.listed(several, true)),
        };
        let both = [Some(has), has.strip_suffix(", and")];
        both.into_iter().flatten().flat_map(of).collect()
    }

    /// "a", or of several "a and b" or "a, b and c", where the last may be how many more there are.
    pub fn listed(self, text: &str, several: bool) -> Vec<(Vec<Property>, usize)> {
        if !several {
            let one = self.properties(text).into_iter();
            return one.map(|property| (vec![property], 0)).collect();
        }
        let mut all = Vec::new();
        for (at, sign) in text.match_indices(" and ") {
            let (before, last) = (&text[..at], &text[at + sign.len()..]);
            let more = last.strip_suffix(" more");
            let more = more.and_then(|more| more.replace(',', "").parse().ok());
            let last = self.properties(last);
            if last.is_empty() && more.is_none() {
                continue;
            }
            for list in self.series(before) {
                let with = |&one: &Property| ([&list[..], &[one]].concat(), 0);
                all.extend(last.iter().map(with));
                all.extend(more.map(|more| (list.clone(), more)));
            }
        }
        all
    }

    /// "a, b, c".
    fn series(self, text: &str) -> Vec<Vec<Property>> {
        let whole = self.properties(text).into_iter();
        let mut all: Vec<Vec<Property>> = whole.map(|one| vec![one]).collect();
        let ends = text.match_indices(", ");
        for (at, sign) in ends.take_while(|(at, _)| *at <= self.longest) {
            let first = self.properties(&text[..at]);
            if first.is_empty() {
                continue;
            }
            for rest in self.series(&text[at + sign.len()..]) {
                let with = |&one: &Property| [&[one][..], &rest].concat();
                all.extend(first.iter().map(with));
            }
        }
        all
    }

    /// The properties that a word may stand for: the one that it names, and the one without a name whose number it is.
    fn properties(self, word: &str) -> Vec<Property> {
        if word.len() > self.longest {
            return Vec::new();
        }
        let number = word.parse().ok().map(Property);
        let number = number.filter(|&property| self.names.property(property).is_none());
        let named = own(word).and_then(|word| self.names.property_called(word));
        number.into_iter().chain(named).collect()
    }
}

/// A word of the names, without the signs that may keep it apart.
fn own(word: &str) -> Option<&str> {
    let inside = word.strip_prefix(APART[0]);
    let inside = inside.and_then(|word| word.strip_suffix(APART[1]));
    Some(inside.unwrap_or(word)).filter(|word| !word.contains(APART))
}
