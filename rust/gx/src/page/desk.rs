//! The page of a drafting desk: the draft, the services that contain it where these are asked, and the stands to return to.

use super::description::{listing, Marks};
use super::{filed, framed, given, readback, where_kept};
use crate::given::Given;
use crate::input::Input;
use crate::pairs::List;
use crate::shown::file_name;
use crate::trouble::Trouble;
use crate::words::{self, Words};

/// What the page is made of.
#[derive(Clone, Copy, Debug)]
pub struct Drafted<'a> {
    /// What the desk holds.
    pub draft: &'a Input,
    /// The stands, each with its number and what it keeps.
    pub stands: &'a [(u16, Input)],
    /// The services that were asked, and whether each contains the draft.
    pub against: &'a [(String, bool)],
    /// The list of pairs.
    pub list: &'a List,
    /// The files that the draft is compared under.
    pub given: &'a Given,
}

/// The page.
///
/// # Errors
///
/// A description on it is not the one that the desk holds.
pub fn drafted(of: Drafted<'_>) -> Result<String, Trouble> {
    let words = Words::apart(&of.draft.names);
    let count = words::entries(of.draft.entries.len());
    let mut body = format!(
        "<header class=\"answer\">\n<h1 id=\"answer\">{count} on the desk</h1>\n<p>A description in the making, in {}{}.{}</p>\n</header>\n",
        filed(&of.draft.title),
        counted(of),
        match of.against.is_empty() {
            true => String::new(),
            false => where_kept(of.list)
                .replace("<a href=\"#pairs\">", "")
                .replace("</a>", ""),
        }
    );
    body.push_str(&listing(
        "draft",
        "The draft",
        of.draft,
        &Marks::default(),
        words,
    ));
    readback::checked(&body, "draft", of.draft, &of.draft.names)?;
    body.push_str(&against(of));
    for (number, kept) in of.stands {
        let (id, heading) = (format!("stand-{number}"), format!("Stand {number}"));
        body.push_str(&listing(&id, &heading, kept, &Marks::default(), words));
        readback::checked(&body, &id, kept, &of.draft.names)?;
    }
    body.push_str(&format!("<footer>\n{FOOTER}{}</footer>\n", given(of.given)));
    let title = file_name(&of.draft.title);
    Ok(framed(&format!("{title}: {count} on the desk"), &body))
}

const FOOTER: &str = "<p>The draft, what its stands keep, and which services contain it are answers of the proved library; this page words \
them.</p>\n";

/// The stands in a sentence.
fn counted(of: Drafted<'_>) -> String {
    let numbers: Vec<String> = of
        .stands
        .iter()
        .map(|(number, _)| number.to_string())
        .collect();
    match numbers.as_slice() {
        [] => ", without a stand to return to".into(),
        [one] => format!(", with stand {one} to return to"),
        _ => format!(", with stands {} to return to", words::listed(&numbers)),
    }
}

/// The services that contain the draft, and those that do not.
fn against(of: Drafted<'_>) -> String {
    if of.against.is_empty() {
        return String::new();
    }
    let row = |(name, is): &(String, bool)| {
        let (class, sign, says) = match is {
            true => ("yes", "✓", "contains the draft"),
            false => ("no", "✕", "does not contain it"),
        };
        format!(
            "<tr class=\"{class}\"><td aria-hidden=\"true\">{sign}</td><td>{}</td><td>{says}</td></tr>\n",
            filed(name)
        )
    };
    let contain = of.against.iter().filter(|(_, is)| *is).count();
    let says = if contain == 1 { "contains" } else { "contain" };
    let rows: String = of.against.iter().map(row).collect();
    format!(
        "<section class=\"card\" id=\"against\">\n<h2>{contain} of {} {says} it</h2>\n<table class=\"index\">\n\
         <thead><tr><th></th><th>Service</th><th>Answer</th></tr></thead>\n<tbody>\n{rows}</tbody>\n</table>\n</section>\n",
        words::services(of.against.len())
    )
}
