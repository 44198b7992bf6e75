//! The page for the two desks: the answer, why, both descriptions side by side, and the specimen drawn. It is one file, loads
//! nothing, and needs no script.

mod all;
mod delivered;
mod description;
mod desk;
mod doubles;
mod fitting;
mod folds;
mod hierarchy;
mod index;
mod kept;
mod missing;
mod narrowest;
mod readback;
mod shown;
mod specimen;
mod style;

use std::collections::BTreeSet;

use crate::explain::{Explained, Failure};
use crate::given::Given;
use crate::input::Input;
use crate::names::{Conflict, Names};
use crate::pairs::{List, Pair};
use crate::shown::file_name;
use crate::svg::{self, escaped};
use crate::text;
use crate::trouble::Trouble;
use crate::whereabouts;
use crate::words::{self, Words, APART};
use description::{listing, Marks};

pub use delivered::{delivered, Checked};
pub use desk::{drafted, Drafted};
pub use doubles::{doubles, Meaning};
pub use fitting::{fitting, Fitting};
pub use hierarchy::hierarchy;
pub use index::{index, Row};
pub use kept::{kept, Kept};
pub use missing::{missing, Lacking};
pub use narrowest::{narrowest, Joined, Lead};
pub use shown::{shown, text as shown_text, Shown};

/// What a page of a comparison is made of.
#[derive(Clone, Copy, Debug)]
pub struct Sheet<'a> {
    /// The answer.
    pub explained: &'a Explained,
    /// The list that it is about.
    pub list: &'a List,
    /// The supplier's description.
    pub supplier: &'a Input,
    /// The service's description.
    pub service: &'a Input,
    /// The words of all.
    pub names: &'a Names,
    /// The drawing shows each group.
    pub whole: bool,
    /// The files that the answer is given under.
    pub given: &'a Given,
    /// All entries that fail, where they are asked for.
    pub all: Option<&'a [Failure]>,
}

/// The page of a comparison.
///
/// # Errors
///
/// A description or a specimen on it is not the one that was compared.
pub fn page(sheet: Sheet<'_>) -> Result<String, Trouble> {
    let (title, body) = match sheet.explained {
        Explained::Contained(earning) => ("Contained", contained(sheet, earning)),
        Explained::NotContained(failure) => ("Not contained", not_contained(failure, sheet)),
    };
    for (id, input) in [("supplier", sheet.supplier), ("service", sheet.service)] {
        readback::checked(&body, id, input, sheet.names)?;
    }
    if let Explained::NotContained(failure) = sheet.explained {
        readback::specimen(&body, failure, sheet.names)?;
    }
    let [supplier, service] = [sheet.supplier, sheet.service].map(|input| file_name(&input.title));
    let title = format!("{title}: {supplier} in {service}");
    let (listed, footer) = match sheet.list.pairs.is_empty() {
        true => (String::new(), FOOTER.to_string()),
        false => (
            pairs(sheet),
            FOOTER.replace("two items,", "two items, and keeps these pairs,"),
        ),
    };
    let settled = settled(sheet.names.settled());
    let given = given(sheet.given);
    let footer = format!("<footer>\n{footer}{given}</footer>\n");
    Ok(framed(&title, &format!("{body}{listed}{settled}{footer}")))
}

/// The text for a page, with each word that is kept apart in an element that does so.
fn marked(text: &str) -> String {
    let [before, after] = APART;
    let mut parts = text.split(before);
    let mut out = escaped(parts.next().unwrap_or_default());
    for part in parts {
        let (word, rest) = part.split_once(after).unwrap_or((part, ""));
        let class = match word.chars().count() > LONG_WORD {
            true => " class=\"long\"",
            false => "",
        };
        out.push_str(&format!(
            "<bdi{class}>{}</bdi>{}",
            escaped(word),
            escaped(rest)
        ));
    }
    out
}

/// A word with more letters than this is cut where it is shown.
const LONG_WORD: usize = 60;

/// A file's name on a page.
fn filed(title: &str) -> String {
    format!("<bdi>{}</bdi>", escaped(&file_name(title)))
}

/// Of which records the answer speaks, where there is a list.
fn where_kept(list: &List) -> String {
    match list.pairs.len() {
        0 => String::new(),
        count => format!(
            " The answer is about records that keep the <a href=\"#pairs\">{}</a> of {}.",
            words::pairs(count),
            filed(&list.title)
        ),
    }
}

/// The properties that exclude each other.
fn pairs(sheet: Sheet<'_>) -> String {
    let pairs = sheet.list.pairs.iter().map(|&Pair(one, other)| {
        let [one, other] = [one, other].map(|one| escaped(&text::property(one, sheet.names)));
        format!("<li><bdi>{one}</bdi> excludes <bdi>{other}</bdi></li>\n")
    });
    format!(
        "<section class=\"card\" id=\"pairs\">\n<h2>Properties that exclude each other</h2>\n\
         <p>No item has both properties of a pair.</p>\n<ul>\n{}</ul>\n</section>\n",
        pairs.collect::<String>()
    )
}

/// The words that were sent and are not shown, since the names file has others.
fn settled(told: &[Conflict]) -> String {
    let lines = told.iter();
    let lines = lines.map(|told| format!("<li><bdi>{}</bdi></li>\n", escaped(&told.settled())));
    match told.is_empty() {
        true => String::new(),
        false => format!(
            "<section class=\"card\" id=\"words\">\n<h2>Words that the names file settles</h2>\n<ul>\n{}</ul>\n</section>\n",
            lines.collect::<String>()
        ),
    }
}

/// The page of inputs that have no answer.
pub fn refused(trouble: &Trouble, under: &Given) -> String {
    let sentence = "There is no answer: an input cannot be taken as it is.";
    let mut body = answer("no", "!", "Refused", sentence);
    body.push_str("<section class=\"card\">\n<h2>Why</h2>\n<pre>");
    body.push_str(&escaped(trouble.titled_lines().trim_end()));
    body.push_str("</pre>\n</section>\n");
    body.push_str(&format!("<footer>\n{}</footer>\n", given(under)));
    framed("Refused", &body)
}

/// Under which files an answer is given, and the versions.
fn given(given: &Given) -> String {
    let [files, versions] = given.words().map(|words| escaped(&words));
    format!("<p class=\"given\">Given: <bdi>{files}</bdi>; {versions}.</p>\n")
}

fn framed(title: &str, body: &str) -> String {
    framed_as(title, "", body)
}

/// The same with more to the style sheet.
fn framed_as(title: &str, more: &str, body: &str) -> String {
    format!(
        "<!DOCTYPE html>\n<html lang=\"en\">\n<head>\n<meta charset=\"utf-8\">\n\
         <meta name=\"viewport\" content=\"width=device-width, initial-scale=1\">\n\
         <title>{}</title>\n<style>\n{}{}{more}\n</style>\n</head>\n<body>\n<main>\n{body}</main>\n</body>\n</html>\n",
        escaped(title),
        style::STYLE,
        svg::STYLE
    )
}

const FOOTER: &str = "<p>Contained means: in every finite record that keeps the rule that links from 32,768 up never lead \
to two items, each item that fits the supplier’s description fits the service’s description. The answer, the entry that fails and \
the specimen are those of the proved library; this page words and draws them. Small numbers before entries are their numbers, \
counted from 1 over all blocks.</p>\n";

/// The answer, large.
fn answer(class: &str, sign: &str, says: &str, sentence: &str) -> String {
    format!(
        "<header class=\"answer {class}\">\n<h1 id=\"answer\"><span class=\"sign\" aria-hidden=\"true\">{sign}</span> {says}</h1>\n\
         <p>{sentence}</p>\n</header>\n"
    )
}

fn contained(sheet: Sheet<'_>, earning: &[bool]) -> String {
    let sentence = "Every consignment that the supplier’s description allows is one that the service’s description allows.";
    let sentence = format!("{sentence}{}", where_kept(sheet.list));
    let mut out = answer("yes", "✓", "Contained", &sentence);
    let said = Marks::earning(earning);
    out.push_str(&both(sheet, &said, &Marks::default()));
    out
}

fn not_contained(failure: &Failure, sheet: Sheet<'_>) -> String {
    let words = Words::apart(sheet.names);
    let sentence = "The supplier’s description allows a consignment that the service’s description does not allow.";
    let sentence = format!("{sentence}{}", where_kept(sheet.list));
    let mut out = answer("no", "✕", "Not contained", &sentence);
    out.push_str(&why(failure, sheet.supplier, sheet.service, words));
    out.push_str(&all::section(sheet, words));
    out.push_str(&drawn(failure, words.plain(), sheet.whole));
    let all = sheet.all.unwrap_or_default().iter();
    let owners = all.clone().flat_map(|other| &other.owners);
    let way: BTreeSet<usize> = owners.chain(&failure.owners).copied().collect();
    let asked = Marks {
        way: way.into_iter().collect(),
        fails: Some(failure.entry),
        too: all.map(|other| other.entry).collect(),
        ..Marks::default()
    };
    let said = Marks {
        way: failure.supplier_owners.clone(),
        says: failure.supplier.clone(),
        ..Marks::default()
    };
    out.push_str(&both(sheet, &said, &asked));
    out.push_str(&specimen::listing(failure, words));
    out
}

/// What is asked, what is said, and what the specimen shows.
fn why(failure: &Failure, supplier: &Input, service: &Input, words: Words<'_>) -> String {
    let line =
        |input: &Input, entry: usize| escaped(&whereabouts::told(input, entry, words.names()));
    let by: Vec<String> = failure
        .supplier
        .iter()
        .map(|&entry| format!("{entry}{}", line(supplier, entry)))
        .collect();
    let by = match by.len() {
        0 => String::new(),
        1 => format!("<small>its entry {}</small>", by[0]),
        _ => format!("<small>its entries {}</small>", words::listed(&by)),
    };
    let entry = failure.entry;
    format!(
        "<section class=\"card\">\n<h2>Why</h2>\n<dl class=\"why\">\n\
         <dt>The service asks</dt><dd>{}<small><a href=\"#service-{entry}\">its entry {entry}</a>{}, the first that fails</small></dd>\n\
         <dt>The supplier says there</dt><dd>{}{by}</dd>\n\
         <dt>The specimen shows</dt><dd>{}</dd>\n</dl>\n</section>\n",
        marked(&failure.asks(words)),
        line(service, entry),
        marked(&failure.supplier_says(words)),
        marked(&failure.shows(words)),
    )
}

fn drawn(failure: &Failure, words: Words<'_>, whole: bool) -> String {
    format!(
        "<section class=\"card\">\n<h2>A consignment that shows it</h2>\n<figure id=\"drawing\">\n\
         <div class=\"draw\" tabindex=\"0\" role=\"group\" aria-label=\"Drawing of the specimen\">\n{}</div>\n\
         <figcaption>The specimen: it fits the supplier’s description and not the service’s. Thick frames lead to the place where it \
         fails, which is named there. Sheets behind a frame stand for several items.</figcaption>\n</figure>\n</section>\n",
        svg::inside(failure, words, whole)
    )
}

/// Both descriptions, side by side where there is room.
fn both(sheet: Sheet<'_>, said: &Marks, asked: &Marks) -> String {
    let (c, d) = (sheet.supplier, sheet.service);
    let words = Words::apart(sheet.names);
    // Short ones are kept on one sheet of paper.
    let short = c.entries.len().max(d.entries.len()) <= 40;
    format!(
        "<div class=\"two{}\">\n{}{}</div>\n",
        if short { " short" } else { "" },
        listing("supplier", "The supplier’s description", c, said, words),
        listing("service", "The service’s description", d, asked, words)
    )
}
