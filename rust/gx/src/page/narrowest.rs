//! The page of the narrowest description that contains two: the first, the result and the second side by side.

use super::description::{listing, Marks};
use super::{filed, framed, given, marked, readback, settled, where_kept};
use crate::entry::{Entry, Says};
use crate::explain::on_subject;
use crate::given::Given;
use crate::input::Input;
use crate::names::Names;
use crate::pairs::List;
use crate::shown::file_name;
use crate::tree::{owners, places, way, Tree};
use crate::trouble::Trouble;
use crate::words::Words;

/// What an entry of the result comes from: entries of the first and of the second.
#[derive(Clone, Debug, Default, PartialEq, Eq)]
pub struct Lead {
    /// Their numbers.
    pub from: [Vec<usize>; 2],
}

/// What the page is made of.
#[derive(Clone, Copy, Debug)]
pub struct Joined<'a> {
    /// The two descriptions.
    pub inputs: [&'a Input; 2],
    /// Their normal forms.
    pub normal: &'a [Vec<Entry>; 2],
    /// The narrowest that contains both.
    pub result: &'a Input,
    /// What each entry of the result comes from.
    pub leads: &'a [Lead],
    /// For each entry of the two whether the result does not say it.
    pub given_up: [&'a [bool]; 2],
    /// The inputs that nothing fits.
    pub impossible: &'a [usize],
    /// The list of pairs.
    pub list: &'a List,
    /// The words of all.
    pub names: &'a Names,
    /// The files that the answer is given under.
    pub given: &'a Given,
}

/// The columns, from the left.
const IDS: [&str; 3] = ["first", "result", "second"];

/// The page.
///
/// # Errors
///
/// A description on it is not the one that was asked about.
pub fn narrowest(of: Joined<'_>) -> Result<String, Trouble> {
    let words = Words::apart(of.names);
    let kept = where_kept(of.list)
        .replace("<a href=\"#pairs\">", "")
        .replace("</a>", "");
    let [a, b] = of.inputs.map(|input| filed(&input.title));
    let sentence = match of.impossible {
        [] => format!("Whatever fits {a} or {b} fits it, and every description of which that is so contains it."),
        [1] => format!("Nothing fits {a}, so it is the normal form of {b}."),
        [2] => format!("Nothing fits {b}, so it is the normal form of {a}."),
        _ => format!("Nothing fits {a}, and nothing {b}."),
    };
    let mut body = format!(
        "<header class=\"answer\">\n<h1 id=\"answer\">The narrowest description</h1>\n<p>{sentence}{kept}</p>\n</header>\n"
    );
    let sides = [0, 1].map(|side| side_marks(of, side));
    let columns = [
        listing(IDS[0], "The first", of.inputs[0], &sides[0], words),
        listing(IDS[1], "Both", of.result, &result_marks(of), words),
        listing(IDS[2], "The second", of.inputs[1], &sides[1], words),
    ];
    body.push_str(&format!(
        "<div class=\"two\">\n{}</div>\n",
        columns.concat()
    ));
    for (id, input) in IDS.iter().zip([of.inputs[0], of.result, of.inputs[1]]) {
        readback::checked(&body, id, input, of.names)?;
    }
    body.push_str(&settled(of.names.settled()));
    body.push_str(&format!("<footer>\n{FOOTER}{}</footer>\n", given(of.given)));
    let [a, b] = of.inputs.map(|input| file_name(&input.title));
    Ok(framed(&format!("The narrowest of {a} and {b}"), &body))
}

const FOOTER: &str = "<p>The description, and which entries it gives up, are answers of the proved library; this page words them. Behind an \
entry stands what it comes from: entries of either that earn it.</p>\n";

/// What the result gives up of one of the two is grey, with the reason; the places of it are open, but where the other says nothing at all.
fn side_marks(of: Joined<'_>, side: usize) -> Marks {
    let this = of.inputs[side];
    let mut marks = Marks::default();
    for (entry, _) in (1..).zip(of.given_up[side]).filter(|(_, &gone)| gone) {
        let reason = reason(of, side, entry);
        marks.notes.insert(entry, (" gone", reason));
        marks.open.extend(owners(&this.entries, entry));
    }
    let closed =
        |owner: &usize| matches!(marks.notes.get(owner), Some((_, reason)) if !reason.is_empty());
    let open = marks.open.iter().copied().filter(|owner| !closed(owner));
    Marks {
        open: open.collect(),
        ..marks
    }
}

/// Why an entry of this description is given up: the other does not say it, and what that says instead.
fn reason(of: Joined<'_>, side: usize, entry: usize) -> String {
    let (this, other) = (&of.inputs[side].entries, &of.normal[1 - side]);
    let (says, mut way) = (this[entry - 1].says(), way(this, entry));
    let file = filed(&of.inputs[1 - side].title);
    if let Says::Every(link) = says {
        way.push(link);
        let there = places(other, &Tree::new(other), &way);
        return match there.is_empty() {
            true => format!("{file} says nothing there"),
            false => String::new(),
        };
    }
    let (of_same, _) = on_subject(other, &way, says);
    let instead = of_same.into_iter().find(|other| is_instead(says, *other));
    let instead = instead.map(|instead| marked(&Words::apart(of.names).says(instead)));
    let but = instead.map_or(String::new(), |instead| format!(", but {instead}"));
    format!("{file} does not say it{but}")
}

/// Whether an entry says something else of what another speaks of: another bound of the same side, or the opposite of a property.
fn is_instead(says: Says, other: Says) -> bool {
    use Says::{AtLeast, AtMost, Has, Lacks};
    match (says, other) {
        (AtLeast(_, n), AtLeast(_, m)) | (AtMost(_, n), AtMost(_, m)) => n != m,
        (Has(_), Lacks(_)) | (Lacks(_), Has(_)) => true,
        _ => false,
    }
}

/// Each entry of the result with links to what it comes from.
fn result_marks(of: Joined<'_>) -> Marks {
    let link = |id: &str, entries: &[usize]| -> Vec<String> {
        let links = entries.iter();
        links
            .map(|entry| format!("<a href=\"#{id}-{entry}\">{entry}</a>"))
            .collect()
    };
    let note = |(entry, lead): (usize, &Lead)| {
        let [first, second] =
            [(IDS[0], 0), (IDS[2], 1)].map(|(id, side)| link(id, &lead.from[side]));
        let told = match (first.is_empty(), second.is_empty()) {
            (true, true) => String::new(),
            (false, true) => format!("from {} of the first", first.join(", ")),
            (true, false) => format!("from {} of the second", second.join(", ")),
            _ => format!("from {} and {}", first.join(", "), second.join(", ")),
        };
        (entry, ("", told))
    };
    Marks {
        notes: (1..).zip(of.leads).map(note).collect(),
        ..Marks::default()
    }
}
