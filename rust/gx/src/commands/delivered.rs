//! Which items of a delivered record fit a description, and for a no a path to the item that breaks it.

mod record;

use std::collections::VecDeque;
use std::path::Path;

use super::{Answer, Context, Extra, Status};
use crate::blocks::encode;
use crate::delivered::Delivered;
use crate::entry::{Entry, Link, Says};
use crate::input::{bytes_of, not_refused, Input};
use crate::json::Json;
use crate::library::{self, Refusal, Under};
use crate::names::Names;
use crate::page;
use crate::tree::{alone, way};
use crate::trouble::Trouble;
use crate::whereabouts;
use crate::words::{grouped, Words};

/// Why an item does not fit.
#[derive(Clone, Debug)]
pub struct Unmet {
    /// The first entry that it does not meet.
    pub entry: usize,
    /// The links from the item to the place of the entry.
    pub way: Vec<Link>,
    /// What the entry says.
    pub says: Says,
    /// The items from this one to the one that breaks it.
    pub path: Vec<usize>,
}

pub(super) fn delivered(context: &Context, file: &Path, d: &Path) -> Result<Answer, Trouble> {
    let record = context.record(file, bytes_of(file)?)?;
    let description = context.supplied(d, 2)?;
    let mut names = record.names.clone();
    names.join(&description.names).map_err(Trouble::Words)?;
    let under = context.background.under();
    let unmet = all_unmet(under, &record, &description);
    let unmet = unmet.map_err(|refusal| not_refused(d, refusal))?;
    let mut answer = answer(&record, &description, &unmet, &names);
    if context.options.html.is_some() {
        let page = page::delivered(page::Checked {
            record: &record,
            description: &description,
            unmet: &unmet,
            list: &context.background.list,
            names: &names,
            given: &context.given,
        })?;
        answer.extras.push((Extra::Html, page.into_bytes()));
    }
    Ok(answer.noted(&names))
}

/// For each item why it does not fit, if it does not. The library is asked of each entry with its owners alone which items meet that,
/// and of the entry by itself which items break it.
fn all_unmet(
    under: Under<'_>,
    record: &Delivered,
    description: &Input,
) -> Result<Vec<Option<Unmet>>, Refusal> {
    let asked = |bytes: &[u8]| library::fit_all(under, record.items, &record.bytes, bytes);
    let fits = asked(&description.bytes)?;
    let mut unmet: Vec<Option<Unmet>> = vec![None; fits.len()];
    for entry in 1..=description.entries.len() {
        let left = |item: &usize| !fits[*item] && unmet[*item].is_none();
        if !(0..fits.len()).any(|item| left(&item)) {
            break;
        }
        let meets = asked(&encode(&alone(&description.entries, entry)))?;
        let new: Vec<usize> = (0..fits.len()).filter(left).collect();
        let new: Vec<usize> = new.into_iter().filter(|&item| !meets[item]).collect();
        if new.is_empty() {
            continue;
        }
        let e = description.entries[entry - 1];
        let itself = asked(&encode(&[Entry { owner: 0, ..e }]))?;
        let way = way(&description.entries, entry);
        for item in new {
            unmet[item] = Some(Unmet {
                entry,
                says: e.says(),
                path: path(record, item + 1, &way, &itself),
                way: way.clone(),
            });
        }
    }
    Ok(unmet)
}

/// A path along these links to an item that does not meet the entry itself.
fn path(record: &Delivered, from: usize, way: &[Link], meets: &[bool]) -> Vec<usize> {
    let mut waiting = VecDeque::from([vec![from]]);
    while let Some(path) = waiting.pop_front() {
        let steps = path.len() - 1;
        let at = path[steps];
        match way.get(steps) {
            None if !meets.get(at - 1).copied().unwrap_or(true) => return path,
            None => (),
            Some(&link) => {
                for next in record.linked(at, link) {
                    // One path to each item after so many steps is enough.
                    let met = waiting
                        .iter()
                        .any(|other| other.get(steps + 1) == Some(&next));
                    if !met {
                        waiting.push_back([&path[..], &[next]].concat());
                    }
                }
            }
        }
    }
    vec![from]
}

impl Unmet {
    /// What the entry asks of the item.
    pub fn asks(&self, words: Words<'_>) -> String {
        words
            .asks(&self.way, self.says)
            .replace("of the top item", "of it")
            .replace("the top item", "it")
    }

    /// What the item at the end of the path has instead.
    pub fn shows(&self, record: &Delivered, words: Words<'_>) -> String {
        let item = self.path[self.path.len() - 1];
        let count = |link: Link| match record.linked(item, link).len() {
            0 => format!("no {}", words.item(link)),
            count => words.items(count as u32, link),
        };
        match self.says {
            Says::Has(property) => format!("lacks {}", words.property(property)),
            Says::Lacks(property) => format!("has {}", words.property(property)),
            Says::AtLeast(link, n) => {
                format!("{}, not at least {}", count(link), grouped(n.into()))
            }
            Says::AtMost(link, n) => format!("{}, not at most {}", count(link), grouped(n.into())),
            _ => "no item may be here".into(),
        }
    }

    /// The path in words: item 1, sample item 2, core item 5.
    pub fn steps(&self, words: Words<'_>) -> Vec<String> {
        let first = format!("item {}", self.path[0]);
        let later = self.path.iter().skip(1).zip(&self.way);
        let later = later.map(|(item, &link)| format!("{}: item {item}", words.item(link)));
        std::iter::once(first).chain(later).collect()
    }

    /// Which entry is not met, and the path to what breaks it.
    fn told(&self, record: &Delivered, description: &Input, words: Words<'_>) -> String {
        let place = whereabouts::told(description, self.entry, words.names());
        format!(
            "does not fit, entry {}{place}: {}\n    {}: {}\n",
            self.entry,
            self.asks(words),
            self.steps(words).join(", "),
            self.shows(record, words)
        )
    }

    fn json(&self, record: &Delivered, words: Words<'_>) -> Vec<(&'static str, Json)> {
        let path = self.path.iter().map(|&item| Json::number(item));
        vec![
            ("answer", Json::text("no")),
            ("entry", Json::number(self.entry)),
            ("asks", Json::text(self.asks(words))),
            ("path", Json::List(path.collect())),
            ("shows", Json::text(self.shows(record, words))),
        ]
    }
}

fn answer(
    record: &Delivered,
    description: &Input,
    unmet: &[Option<Unmet>],
    names: &Names,
) -> Answer {
    let words = Words::new(names);
    let line = counted(unmet);
    let mut full = format!("{line}\n\n");
    let mut items = Vec::new();
    for (item, unmet) in (1..).zip(unmet) {
        let mut fields = vec![("item", Json::number(item))];
        let told = match unmet {
            None => {
                fields.push(("answer", Json::text("yes")));
                "fits\n".into()
            }
            Some(unmet) => {
                fields.extend(unmet.json(record, words));
                unmet.told(record, description, words)
            }
        };
        full.push_str(&format!("item {item}: {told}"));
        items.push(Json::Object(fields));
    }
    let all = unmet.iter().all(Option::is_none);
    let (status, word) = if all {
        (Status::Yes, "yes")
    } else {
        (Status::No, "no")
    };
    Answer {
        status,
        full: full.into_bytes(),
        line,
        ending: "txt",
        json: vec![("answer", Json::text(word)), ("items", Json::List(items))],
        extras: Vec::new(),
        notes: Vec::new(),
    }
}

/// How many items fit.
fn counted(unmet: &[Option<Unmet>]) -> String {
    let fit = unmet.iter().filter(|unmet| unmet.is_none()).count();
    match (fit, unmet.len()) {
        (1, 1) => "the item fits".into(),
        (0, 1) => "the item does not fit".into(),
        (fit, all) if fit == all => format!("all {all} items fit"),
        (1, all) => format!("1 of {all} items fits"),
        (fit, all) => format!("{fit} of {all} items fit"),
    }
}
