//! The page of the entries that earn a yes: both descriptions, the entries marked.

use super::description::{listing, Marks};
use super::{answer, framed, given, readback, settled, where_kept};
use crate::given::Given;
use crate::input::Input;
use crate::names::Names;
use crate::pairs::List;
use crate::shown::file_name;
use crate::trouble::Trouble;
use crate::words::Words;

/// What the page is made of.
#[derive(Clone, Copy, Debug)]
pub struct Kept<'a> {
    /// The supplier's description and the service's.
    pub inputs: [&'a Input; 2],
    /// The entries of the first that earn it.
    pub earning: &'a [bool],
    /// The list of pairs.
    pub list: &'a List,
    /// The words of all.
    pub names: &'a Names,
    /// The files that the answer is given under.
    pub given: &'a Given,
}

/// The page.
///
/// # Errors
///
/// A description on it is not the one that was asked about.
pub fn kept(sheet: Kept<'_>) -> Result<String, Trouble> {
    let words = Words::apart(sheet.names);
    let kept = where_kept(sheet.list)
        .replace("<a href=\"#pairs\">", "")
        .replace("</a>", "");
    let mut body = answer("yes", "✓", "Contained", &format!("{SENTENCE}{kept}"));
    let [c, d] = sheet.inputs;
    let (said, asked) = (Marks::earning(sheet.earning), Marks::default());
    body.push_str(&format!(
        "<div class=\"two\">\n{}{}</div>\n",
        listing("supplier", "The supplier’s description", c, &said, words),
        listing("service", "The service’s description", d, &asked, words)
    ));
    for (id, input) in [("supplier", c), ("service", d)] {
        readback::checked(&body, id, input, sheet.names)?;
    }
    body.push_str(&settled(sheet.names.settled()));
    body.push_str(&format!(
        "<footer>\n{FOOTER}{}</footer>\n",
        given(sheet.given)
    ));
    let [c, d] = sheet.inputs.map(|input| file_name(&input.title));
    Ok(framed(&format!("Contained: {c} in {d}"), &body))
}

const SENTENCE: &str = "Every consignment that the supplier’s description allows is one that the service’s description allows. \
The entries that are marked earn it; the others can be left out.";

const FOOTER: &str = "<p>The answer and the marked entries are those of the proved library; this page words them. It is one such set, of \
which none can be left out; leaving out was tried from the last entry to the first.</p>\n";
