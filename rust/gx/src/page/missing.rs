//! The page of what a supplier's description lacks for a yes: that description with the addition in its places, and the service's. Where no
//! item fits both, the two with the entries that contradict each other.

use super::description::{listing, Marks, ADDED, FAILS_TOO};
use super::{answer, framed, given, readback, settled, where_kept};
use crate::given::Given;
use crate::input::Input;
use crate::library::Lack;
use crate::names::Names;
use crate::pairs::List;
use crate::shown::file_name;
use crate::tree::owners;
use crate::trouble::Trouble;
use crate::words::{entries, Words};

/// What the page is made of.
#[derive(Clone, Copy, Debug)]
pub struct Lacking<'a> {
    /// What is lacking.
    pub lack: Lack,
    /// The supplier's description with the addition in its places, and the service's.
    pub inputs: [&'a Input; 2],
    /// For each entry of the supplier's whether it contradicts those that are marked of the service's.
    pub against: &'a [bool],
    /// For each entry of the service's whether it is marked.
    pub missing: &'a [bool],
    /// Of the entries behind the supplier's own, the numbers that they have in the service's.
    pub behind: &'a [usize],
    /// The list of pairs.
    pub list: &'a List,
    /// The words of all.
    pub names: &'a Names,
    /// The files that the answer is given under.
    pub given: &'a Given,
}

/// The page.
///
/// # Errors
///
/// A description on it is not the one that was asked about.
pub fn missing(of: Lacking<'_>) -> Result<String, Trouble> {
    let words = Words::apart(of.names);
    let [c, d] = of.inputs;
    let (says, mut body) = headed(of);
    let (first, marks) = match of.lack {
        Lack::Addable => (
            "The supplier’s description with the addition",
            with_addition(of),
        ),
        _ => ("The supplier’s description", against(of)),
    };
    body.push_str(&format!(
        "<div class=\"two\">\n{}{}</div>\n",
        listing("supplier", first, c, &marks, words),
        listing("service", "The service’s description", d, &asked(of), words)
    ));
    for (id, input) in [("supplier", c), ("service", d)] {
        readback::checked(&body, id, input, of.names)?;
    }
    body.push_str(&settled(of.names.settled()));
    body.push_str(&format!(
        "<footer>\n{}{}</footer>\n",
        footer(of.lack),
        given(of.given)
    ));
    let [c, d] = of.inputs.map(|input| file_name(&input.title));
    Ok(framed(&format!("{says}: {c} for {d}"), &body))
}

/// The answer, and that in large.
fn headed(of: Lacking<'_>) -> (String, String) {
    let kept = where_kept(of.list)
        .replace("<a href=\"#pairs\">", "")
        .replace("</a>", "");
    let (class, sign, says, sentence) = match of.lack {
        Lack::Nothing => ("yes", "✓", "Nothing to add".into(), CONTAINED),
        Lack::Addable => (
            "add",
            "+",
            format!("{} to add", entries(of.behind.len())),
            ADDABLE,
        ),
        Lack::Against => ("no", "✕", "No item fits both".into(), AGAINST),
    };
    let head = answer(class, sign, &says, &format!("{sentence}{kept}"));
    (says, head)
}

const CONTAINED: &str = "Every consignment that the supplier’s description allows is one that the service’s description allows.";

const ADDABLE: &str = "With what is added, every consignment that the supplier’s description allows is one that the service’s description \
allows.";

const AGAINST: &str = "Nothing can be added: the entries that are marked contradict each other.";

fn footer(lack: Lack) -> &'static str {
    match lack {
        Lack::Nothing => "<p>The answer is that of the proved library; this page words it.</p>\n",
        _ => "<p>The answer and the marked entries are those of the proved library; this page puts them where they belong. It is one such set, \
              of which none can be left out, ‘every’ entries apart; leaving out was tried from the last entry to the first.</p>\n",
    }
}

/// The entries behind the supplier's own, each with a link to the service's that it is.
fn with_addition(of: Lacking<'_>) -> Marks {
    let whole = &of.inputs[0].entries;
    let own = whole.len() - of.behind.len();
    let numbered = (own + 1..).zip(of.behind);
    let note = |(entry, asked): (usize, &usize)| {
        let link = format!("<a href=\"#service-{asked}\">entry {asked}</a> of the service’s");
        (entry, (ADDED, format!("added: {link}")))
    };
    let owners = numbered.clone().flat_map(|(entry, _)| owners(whole, entry));
    Marks {
        way: owners.filter(|&owner| owner <= own).collect(),
        notes: numbered.map(note).collect(),
        ..Marks::default()
    }
}

/// The supplier's entries that contradict those that are marked.
fn against(of: Lacking<'_>) -> Marks {
    told(of.against, FAILS_TOO, "contradicts the service’s")
}

/// The service's entries that are to be added, or that contradict the supplier's. An 'every' of a place that the supplier's has is only on
/// the way.
fn asked(of: Lacking<'_>) -> Marks {
    if of.lack == Lack::Against {
        return told(of.missing, FAILS_TOO, "contradicts the supplier’s");
    }
    let marked = (1..).zip(of.missing).filter(|(_, &is)| is);
    let (added, way): (Vec<usize>, Vec<usize>) = marked
        .map(|(entry, _)| entry)
        .partition(|entry| of.behind.contains(entry));
    let note = |entry| (entry, (ADDED, "to be added".into()));
    Marks {
        way,
        notes: added.into_iter().map(note).collect(),
        ..Marks::default()
    }
}

fn told(marks: &[bool], class: &'static str, note: &str) -> Marks {
    let marked = (1..).zip(marks).filter(|(_, &is)| is);
    Marks {
        notes: marked
            .map(|(entry, _)| (entry, (class, note.into())))
            .collect(),
        ..Marks::default()
    }
}
