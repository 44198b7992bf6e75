//! Entries as text, pairs, dictionaries and lists of services.

use super::parse::{DICTIONARY, EXCLUDES, PAIRS, SERVICES};
use crate::dictionary::Part;
use crate::entry::{Entry, Link, Named, Property, Says, Sort};
use crate::names::Names;
use crate::pairs::Pair;
use crate::tree::Tree;

/// Which entries are written with their number.
#[derive(Clone, Copy, Debug, PartialEq, Eq)]
pub enum Numbers {
    /// Those that do not follow the entry written before them.
    WhereNeeded,
    /// All of them.
    All,
}

/// An accepted description or specimen as text, an entry on each line.
pub fn text(sort: Sort, entries: &[Entry], names: &Names, numbers: Numbers) -> String {
    let tree = Tree::new(entries);
    let mut writer = Writer::new(entries, &tree, names, numbers);
    if sort == Sort::Specimen || entries.is_empty() {
        writer.out.push_str(sort.word());
        writer.out.push('\n');
    }
    writer.place(0, 0);
    writer.out
}

/// An accepted description or specimen in desk notation, on one line.
pub fn desk(sort: Sort, entries: &[Entry]) -> String {
    let tree = Tree::new(entries);
    let names = Names::default();
    let mut writer = Writer::new(entries, &tree, &names, Numbers::WhereNeeded);
    if entries.is_empty() || Sort::guess(entries) != sort {
        writer.out.push_str(sort.word());
        writer.out.push(':');
        if !entries.is_empty() {
            writer.out.push(' ');
        }
    }
    writer.desk_place(0);
    writer.out
}

/// A list of pairs as text, a pair on each line after the heading.
pub fn pairs(pairs: &[Pair], names: &Names) -> String {
    let lines = pairs.iter().map(|&one| pair(one, names) + "\n");
    format!("{PAIRS}\n{}", lines.collect::<String>())
}

/// A list of pairs in desk notation, on one line.
pub fn desk_pairs(pairs: &[Pair]) -> String {
    let written: Vec<String> = pairs
        .iter()
        .map(|Pair(one, other)| format!("{},{}", one.0, other.0))
        .collect();
    format!("{PAIRS}: {}", written.join("; ")).trim_end().into()
}

/// One pair as a line of text.
pub fn pair(Pair(one, other): Pair, names: &Names) -> String {
    let [one, other] = [one, other].map(|property| self::property(property, names));
    format!("{one} {EXCLUDES} {other}")
}

/// A dictionary as text, its descriptions in brackets after the heading.
pub fn dictionary(parts: &[Part], names: &Names, numbers: Numbers) -> String {
    let begin = |number| description(Named(number), names);
    format!("{DICTIONARY}\n{}", bracketed(parts, names, numbers, begin))
}

/// A list of services as text, in the same manner.
pub fn services(parts: &[Part], names: &Names, numbers: Numbers) -> String {
    let begin = |number| format!("service {number}");
    format!("{SERVICES}\n{}", bracketed(parts, names, numbers, begin))
}

/// Descriptions in brackets, each after what its number begins with.
fn bracketed(
    parts: &[Part],
    names: &Names,
    numbers: Numbers,
    begin: impl Fn(u16) -> String,
) -> String {
    let mut out = String::new();
    for (number, part) in (1..).zip(parts) {
        let tree = Tree::new(&part.entries);
        let mut writer = Writer::new(&part.entries, &tree, names, numbers);
        writer.place(0, 1);
        out.push_str(&begin(number));
        match part.entries.is_empty() {
            true => out.push_str(" []\n"),
            false => out.push_str(&format!(" [\n{}]\n", writer.out)),
        }
    }
    out
}

/// A dictionary in desk notation, on one line.
pub fn desk_dictionary(parts: &[Part]) -> String {
    desk_bracketed(DICTIONARY, parts)
}

/// A list of services in desk notation, on one line.
pub fn desk_services(parts: &[Part]) -> String {
    desk_bracketed(SERVICES, parts)
}

fn desk_bracketed(heading: &str, parts: &[Part]) -> String {
    let written: Vec<String> = parts
        .iter()
        .map(|part| {
            let tree = Tree::new(&part.entries);
            let names = Names::default();
            let mut writer = Writer::new(&part.entries, &tree, &names, Numbers::WhereNeeded);
            writer.desk_place(0);
            format!("[{}]", writer.out)
        })
        .collect();
    format!("{heading}: {}", written.join("; "))
        .trim_end()
        .into()
}

/// A description of a dictionary by its number and its word.
pub fn description(named: Named, names: &Names) -> String {
    with_word("description", named.0, names.description(named))
}

struct Writer<'a> {
    entries: &'a [Entry],
    tree: &'a Tree,
    names: &'a Names,
    numbers: Numbers,
    /// The number that an entry has if none is written.
    due: usize,
    out: String,
}

impl<'a> Writer<'a> {
    fn new(entries: &'a [Entry], tree: &'a Tree, names: &'a Names, numbers: Numbers) -> Self {
        Writer {
            entries,
            tree,
            names,
            numbers,
            due: 1,
            out: String::new(),
        }
    }

    fn number(&mut self, number: usize) {
        if number != self.due || self.numbers == Numbers::All {
            self.out.push_str(&format!("#{number} "));
        }
        self.due = number + 1;
    }

    /// The entries of a place. There are at most 33 places above each other in an accepted input.
    fn place(&mut self, owner: usize, depth: usize) {
        for &number in self.tree.owned(owner) {
            let indent = "    ".repeat(depth);
            self.out.push_str(&indent);
            self.number(number);
            let e = self.entries[number - 1];
            self.out.push_str(&entry(e.says(), self.names));
            match (e.owns(), self.tree.owned(number).is_empty()) {
                (false, _) => self.out.push('\n'),
                (true, true) => self.out.push_str(" []\n"),
                (true, false) => {
                    self.out.push_str(" [\n");
                    self.place(number, depth + 1);
                    self.out.push_str(&indent);
                    self.out.push_str("]\n");
                }
            }
        }
    }

    fn desk_place(&mut self, owner: usize) {
        let mut first = true;
        for &number in self.tree.owned(owner) {
            if !first {
                self.out.push_str("; ");
            }
            first = false;
            self.number(number);
            let e = self.entries[number - 1];
            self.out.push_str(&desk_entry(&e));
            if e.owns() {
                self.out.push_str(" [");
                self.desk_place(number);
                self.out.push(']');
            }
        }
    }
}

/// Kind, name, number; zeros at the end left off.
fn desk_entry(e: &Entry) -> String {
    match (e.kind, e.name, e.number) {
        // A number that the kind always has is written, also where it is 0.
        (kind @ (3 | 4), name, number) => format!("{kind},{name},{number}"),
        (kind, 0, 0) => format!("{kind}"),
        (kind, name, 0) => format!("{kind},{name}"),
        (kind, name, number) => format!("{kind},{name},{number}"),
    }
}

/// One entry as a line of text, without what it owns.
pub fn entry(says: Says, names: &Names) -> String {
    match says {
        Says::Has(property) => format!("has {}", self::property(property, names)),
        Says::Lacks(property) => format!("lacks {}", self::property(property, names)),
        Says::AtLeast(link, n) => format!("at least {n} {}", link_name(link, names)),
        Says::AtMost(link, n) => format!("at most {n} {}", link_name(link, names)),
        Says::Every(link) => format!("every {}", link_name(link, names)),
        Says::Nothing => "nothing fits".into(),
        Says::Group(link, count) => format!("group of {count} {}", link_name(link, names)),
        Says::Named(named) => with_word("named", named.0, names.description(named)),
        Says::Unknown(kind) => format!("kind {kind}, which there is not"),
    }
}

/// A delivered record as text.
pub fn record(items: usize, entries: &[Entry], names: &Names) -> String {
    let word = if items == 1 { "item" } else { "items" };
    let mut out = format!("record of {items} {word}\n");
    for e in entries {
        out.push_str(&said_of_item(e, names));
        out.push('\n');
    }
    out
}

/// What an entry of a record says.
pub fn said_of_item(e: &Entry, names: &Names) -> String {
    let Entry {
        kind,
        owner,
        name,
        number,
        ..
    } = *e;
    match kind {
        1 => format!("item {owner} has {}", property(Property(name), names)),
        8 => format!(
            "item {owner} {} item {number}",
            link_name(Link(name), names)
        ),
        _ => format!("item {owner}, kind {kind}, name {name}, number {number}"),
    }
}

fn link_name(link: Link, names: &Names) -> String {
    with_word("link", link.0, names.link(link))
}

/// A property by its number and its word.
pub fn property(property: Property, names: &Names) -> String {
    with_word("property", property.0, names.property(property))
}

fn with_word(sort: &str, number: u16, word: Option<&str>) -> String {
    match word {
        Some(word) => format!("{sort} {number} {}", quoted(word)),
        None => format!("{sort} {number}"),
    }
}

/// The word in quotes.
pub fn quoted(word: &str) -> String {
    format!("\"{}\"", word.replace('\\', "\\\\").replace('"', "\\\""))
}
