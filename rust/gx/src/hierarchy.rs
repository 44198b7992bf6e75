//! Services from general to special: those that say the same are a class, and classes stand one below another.

use crate::json::Json;
use crate::library::Ranked;
use crate::shown::file_name;

/// Services that say the same.
#[derive(Clone, Debug, PartialEq, Eq)]
pub struct Class {
    /// The services, by their places in the list, from 0.
    pub members: Vec<usize>,
    /// The classes directly above.
    pub above: Vec<usize>,
    /// The classes directly below.
    pub below: Vec<usize>,
}

/// The classes of a list of services, by the first service of each.
#[derive(Clone, Debug, PartialEq, Eq)]
pub struct Hierarchy {
    /// The names of the services.
    pub names: Vec<String>,
    /// What the library answered.
    pub ranked: Ranked,
    /// The classes.
    pub classes: Vec<Class>,
}

impl Hierarchy {
    /// What the library answered of services of these names.
    pub fn new(names: Vec<String>, ranked: Ranked) -> Hierarchy {
        let first = |service: &usize| ranked.classes[*service] == *service;
        let firsts: Vec<usize> = (0..names.len()).filter(first).collect();
        let class = |&of: &usize| Class {
            members: (0..names.len())
                .filter(|&member| ranked.classes[member] == of)
                .collect(),
            above: places(&firsts, |other| ranked.superiors[of][other]),
            below: places(&firsts, |other| ranked.superiors[other][of]),
        };
        let classes = firsts.iter().map(class).collect();
        Hierarchy {
            names,
            ranked,
            classes,
        }
    }

    /// How many services and classes there are.
    pub fn counted(&self) -> String {
        let count = |count: usize, one: &str, more: &str| match count {
            1 => format!("1 {one}"),
            _ => format!("{count} {more}"),
        };
        let services = count(self.names.len(), "service", "services");
        let classes = count(self.classes.len(), "class", "classes");
        format!("{services} in {classes}")
    }

    /// The names of a class, as they are safe to show.
    pub fn named(&self, class: usize) -> Vec<String> {
        let members = self.classes[class].members.iter();
        members
            .map(|&member| file_name(&self.names[member]))
            .collect()
    }

    /// The name of a class, which is that of its first service.
    pub fn first(&self, class: usize) -> String {
        file_name(&self.names[self.classes[class].members[0]])
    }

    /// The classes in the order of the tree, each with its depth: below the first of those directly above it.
    pub fn tree(&self) -> Vec<(usize, usize)> {
        let mut out = Vec::new();
        let roots = self.hanging(None).into_iter().rev();
        let mut left: Vec<(usize, usize)> = roots.map(|class| (class, 0)).collect();
        while let Some((class, depth)) = left.pop() {
            out.push((class, depth));
            let below = self.hanging(Some(class)).into_iter().rev();
            left.extend(below.map(|class| (class, depth + 1)));
        }
        out
    }

    /// The classes that hang from this one in the tree, or from none.
    fn hanging(&self, from: Option<usize>) -> Vec<usize> {
        places(&self.classes, |class: Class| {
            class.above.first().copied() == from
        })
    }

    /// The tree, a line for each class.
    pub fn text(&self) -> String {
        let line = |(class, depth): (usize, usize)| {
            let names = self.named(class).join(" = ");
            format!("{}{names}{}\n", "    ".repeat(depth), self.also(class))
        };
        self.tree().into_iter().map(line).collect()
    }

    /// Below which others a class is that hangs from the first.
    fn also(&self, class: usize) -> String {
        let others = self.classes[class].above.iter().skip(1);
        let others: Vec<String> = others.map(|&above| self.first(above)).collect();
        match others.is_empty() {
            true => String::new(),
            false => format!(" (also below {})", others.join(", ")),
        }
    }

    /// A row for each service: its class, its direct superiors, and 1 in the column of each service that contains it.
    pub fn csv(&self) -> String {
        let columns: Vec<String> = self.names.iter().map(|name| cell(name)).collect();
        let mut out = format!("service,class,superiors,{}\n", columns.join(","));
        for (service, name) in self.names.iter().enumerate() {
            let superiors = self
                .superiors(service)
                .map(|other| self.names[other].as_str());
            let superiors = cell(&superiors.collect::<Vec<&str>>().join(";"));
            let class = cell(&self.names[self.ranked.classes[service]]);
            let row = self.ranked.table[service].iter();
            let row: Vec<&str> = row.map(|&in_it| if in_it { "1" } else { "0" }).collect();
            out.push_str(&format!(
                "{},{class},{superiors},{}\n",
                cell(name),
                row.join(",")
            ));
        }
        out
    }

    fn superiors(&self, service: usize) -> impl Iterator<Item = usize> + '_ {
        let row = &self.ranked.superiors[service];
        (0..row.len()).filter(|&other| row[other])
    }

    /// A graph for Graphviz, in which each class leads up to those directly above it.
    pub fn dot(&self) -> String {
        let mut out = String::from("digraph hierarchy {\n    rankdir=BT;\n    node [shape=box];\n");
        for class in 0..self.classes.len() {
            let names = self
                .named(class)
                .iter()
                .map(|name| quoted(name))
                .collect::<Vec<_>>();
            out.push_str(&format!(
                "    c{} [label=\"{}\"];\n",
                class + 1,
                names.join("\\n")
            ));
        }
        for (class, of) in self.classes.iter().enumerate() {
            for above in &of.above {
                out.push_str(&format!("    c{} -> c{};\n", class + 1, above + 1));
            }
        }
        out + "}\n"
    }

    /// For programs: each service with its class, those that contain it, and its direct superiors, by their numbers from 1.
    pub fn json(&self) -> Vec<(&'static str, Json)> {
        let numbers = |of: &[bool]| {
            let places = (1..).zip(of).filter(|(_, &is)| is);
            Json::List(places.map(|(number, _)| Json::number(number)).collect())
        };
        let service = |(service, name): (usize, &String)| {
            Json::Object(vec![
                ("service", Json::number(service + 1)),
                ("file", Json::text(name)),
                ("class", Json::number(self.ranked.classes[service] + 1)),
                ("contained", numbers(&self.ranked.table[service])),
                ("superiors", numbers(&self.ranked.superiors[service])),
            ])
        };
        let services = self.names.iter().enumerate().map(service);
        vec![
            ("answer", Json::text("hierarchy")),
            ("classes", Json::number(self.classes.len())),
            ("ranked", Json::List(services.collect())),
        ]
    }
}

/// The places of the items of which this is so.
fn places<T: Clone>(items: &[T], is: impl Fn(T) -> bool) -> Vec<usize> {
    let items = items.iter().enumerate();
    items
        .filter(|(_, item)| is((*item).clone()))
        .map(|(place, _)| place)
        .collect()
}

/// A cell of a table: in quotes where a comma, a quote or the end of a line stands in it.
fn cell(text: &str) -> String {
    match text.contains([',', '"', '\n', '\r']) {
        true => format!("\"{}\"", text.replace('"', "\"\"")),
        false => text.into(),
    }
}

/// A text inside the quotes of a graph.
fn quoted(text: &str) -> String {
    text.replace('\\', "\\\\").replace('"', "\\\"")
}
