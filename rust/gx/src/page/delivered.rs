//! The page of a delivered record: a table of its items, and of each that does not fit the path to what breaks it, drawn.

use std::collections::BTreeSet;

use super::description::{listing, Marks, FAILS_TOO};
use super::{answer, filed, framed, given, marked, readback, settled, where_kept};
use crate::commands::Unmet;
use crate::delivered::Delivered;
use crate::given::Given;
use crate::input::Input;
use crate::names::Names;
use crate::pairs::List;
use crate::shown::file_name;
use crate::svg;
use crate::tree::owners;
use crate::trouble::Trouble;
use crate::words::Words;

/// So many paths stand open, and the others behind one line.
const MOST_OPEN: usize = 40;

/// What the page is made of.
#[derive(Clone, Copy, Debug)]
pub struct Checked<'a> {
    /// The record.
    pub record: &'a Delivered,
    /// The description.
    pub description: &'a Input,
    /// For each item why it does not fit, if it does not.
    pub unmet: &'a [Option<Unmet>],
    /// The list of pairs.
    pub list: &'a List,
    /// The words of all.
    pub names: &'a Names,
    /// The files that the answer is given under.
    pub given: &'a Given,
}

/// The page.
///
/// # Errors
///
/// The description on it is not the one that was asked about.
pub fn delivered(sheet: Checked<'_>) -> Result<String, Trouble> {
    let words = Words::apart(sheet.names);
    let (says, head) = headed(sheet);
    let mut body = head;
    body.push_str(&table(sheet, words));
    body.push_str(&paths(sheet));
    let fails = |unmet: &Unmet| (unmet.entry, (FAILS_TOO, "not met".to_string()));
    let unmet = sheet.unmet.iter().flatten();
    let way = unmet
        .clone()
        .flat_map(|unmet| owners(&sheet.description.entries, unmet.entry));
    let marks = Marks {
        way: way.collect::<BTreeSet<usize>>().into_iter().collect(),
        notes: unmet.map(fails).collect(),
        ..Marks::default()
    };
    let described = listing(
        "description",
        "The description",
        sheet.description,
        &marks,
        words,
    );
    body.push_str(&described);
    readback::checked(&body, "description", sheet.description, sheet.names)?;
    body.push_str(&settled(sheet.names.settled()));
    body.push_str(&format!(
        "<footer>\n{FOOTER}{}</footer>\n",
        given(sheet.given)
    ));
    let [record, description] =
        [&sheet.record.title, &sheet.description.title].map(|title| file_name(title));
    Ok(framed(
        &format!("{says}: {record} and {description}"),
        &body,
    ))
}

const FOOTER: &str = "<p>Which items fit, and which entries they do not meet, is the answer of the proved library; this page words and draws \
it.</p>\n";

/// The answer, and that in large.
fn headed(sheet: Checked<'_>) -> (String, String) {
    let all = sheet.unmet.len();
    let fit = sheet.unmet.iter().filter(|unmet| unmet.is_none()).count();
    let kept = where_kept(sheet.list)
        .replace("<a href=\"#pairs\">", "")
        .replace("</a>", "");
    let sentence = format!(
        "Items of {} that fit {}.{kept}",
        filed(&sheet.record.title),
        filed(&sheet.description.title)
    );
    let (class, sign, says) = match fit == all {
        true => ("yes", "✓", format!("All {all} fit")),
        false if fit == 1 => ("no", "✕", format!("1 of {all} fits")),
        false => ("no", "✕", format!("{fit} of {all} fit")),
    };
    let head = answer(class, sign, &says, &sentence);
    (says, head)
}

/// As many items one after the other that fit have a row each; more have one together.
const FEW: usize = 3;

/// A row for each item that does not fit, and for those that do.
fn table(sheet: Checked<'_>, words: Words<'_>) -> String {
    let mut rows = String::new();
    let mut item = 1;
    for alike in sheet
        .unmet
        .chunk_by(|one, other| one.is_none() && other.is_none())
    {
        match &alike[0] {
            Some(unmet) => rows.push_str(&unmet_row(item, unmet, words)),
            None if alike.len() > FEW => {
                let last = item + alike.len() - 1;
                rows.push_str(&fitting_row(&format!("items {item} to {last}"), "fit"));
            }
            None => {
                let each = (item..item + alike.len()).map(|item| format!("item {item}"));
                rows.extend(each.map(|item| fitting_row(&item, "fits")));
            }
        }
        item += alike.len();
    }
    format!(
        "<section class=\"card\">\n<h2>The items</h2>\n<table class=\"index\">\n<thead><tr><th></th><th>Item</th><th>Answer</th></tr></thead>\n\
         <tbody>\n{rows}</tbody>\n</table>\n</section>\n"
    )
}

fn fitting_row(items: &str, says: &str) -> String {
    format!(
        "<tr class=\"yes\"><td aria-hidden=\"true\">✓</td><td>{items}</td><td>{says}</td></tr>\n"
    )
}

fn unmet_row(item: usize, unmet: &Unmet, words: Words<'_>) -> String {
    format!(
        "<tr class=\"no\"><td aria-hidden=\"true\">✕</td><td><a href=\"#item-{item}\">item {item}</a></td><td>\
         <a href=\"#description-{entry}\">entry {entry}</a>: {}</td></tr>\n",
        marked(&unmet.asks(words)),
        entry = unmet.entry
    )
}

/// The paths to what breaks each no.
fn paths(sheet: Checked<'_>) -> String {
    let words = Words::new(sheet.names);
    let bad: Vec<(usize, &Unmet)> = (1..)
        .zip(sheet.unmet)
        .filter_map(|(item, unmet)| Some((item, unmet.as_ref()?)))
        .collect();
    let drawn = |(item, unmet): &(usize, &Unmet)| {
        let shows = unmet.shows(sheet.record, words);
        let drawing = svg::chain(&unmet.steps(words), &shows);
        format!(
            "<section class=\"card\" id=\"item-{item}\">\n<h2>Item {item}</h2>\n<figure>\n<div class=\"draw\" tabindex=\"0\" role=\"group\" \
             aria-label=\"Path from item {item}\">\n{drawing}</div>\n</figure>\n</section>\n"
        )
    };
    let (open, folded) = bad.split_at(bad.len().min(MOST_OPEN));
    let mut out: String = open.iter().map(drawn).collect();
    if !folded.is_empty() {
        out.push_str(&format!(
            "<details class=\"run\"><summary>{} more paths</summary>\n{}</details>\n",
            folded.len(),
            folded.iter().map(drawn).collect::<String>()
        ));
    }
    out
}
