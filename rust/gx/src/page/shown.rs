//! The page of one file: a description as a list of places that fold, a field sheet as a form for paper, anything else as its text.

use super::description::{listing, Marks};
use super::{filed, framed, framed_as, given, readback, settled, style};
use crate::entry::Sort;
use crate::given::Given;
use crate::input::Input;
use crate::names::Conflict;
use crate::shown::file_name;
use crate::svg::escaped;
use crate::trouble::Trouble;
use crate::words::{self, Words};

/// What the page is made of.
#[derive(Clone, Copy, Debug)]
pub struct Shown<'a> {
    /// The description or specimen.
    pub input: &'a Input,
    /// Whether the library accepts it as a field sheet.
    pub sheet: bool,
    /// Its text, read back.
    pub text: &'a str,
    /// The files that it is shown under.
    pub given: &'a Given,
}

/// The page.
///
/// # Errors
///
/// The description on it is not the one that was read.
pub fn shown(of: Shown<'_>) -> Result<String, Trouble> {
    let named = of.input.entries.iter().any(|e| e.says().named().is_some());
    if of.input.sort == Sort::Specimen || named {
        return Ok(as_text(of));
    }
    let body = match of.sheet {
        true => form(of),
        false => description(of),
    };
    readback::checked(&body, "description", of.input, &of.input.names)?;
    let title = file_name(&of.input.title);
    let (title, more) = match of.sheet {
        true => (format!("Field sheet: {title}"), style::FORM),
        false => (title, ""),
    };
    let end = format!(
        "{}<footer>\n{}{}</footer>\n",
        settled(of.input.names.settled()),
        if of.sheet { FOOTER } else { "" },
        given(of.given)
    );
    Ok(framed_as(&title, more, &(body + &end)))
}

const FOOTER: &str = "<p>A box for each line: it is ticked where what was seen is as the line says, and what was counted goes on the line \
behind it. What stands below a line with ‘every’ is asked of each such item. The proved library accepts the description as a field \
sheet.</p>\n";

fn description(of: Shown<'_>) -> String {
    let input = of.input;
    format!(
        "<header class=\"answer\">\n<h1 id=\"answer\">{}</h1>\n<p>A description of {}.</p>\n</header>\n{}",
        filed(&input.title),
        words::entries(input.entries.len()),
        listing(
            "description",
            "What it says",
            input,
            &Marks::default(),
            Words::apart(&input.names)
        )
    )
}

/// The form: who fills it in, a line for each entry with a box and room for what was counted, and room for remarks.
fn form(of: Shown<'_>) -> String {
    let marks = Marks {
        whole: true,
        ..Marks::default()
    };
    let blanks = ["Supplier", "Field", "Date", "Signed"];
    let blanks: String = blanks
        .iter()
        .map(|blank| format!("<span>{blank}</span>"))
        .collect();
    format!(
        "<header class=\"answer\">\n<h1 id=\"answer\">Field sheet</h1>\n<p class=\"blanks\">{blanks}</p>\n</header>\n\
         <div class=\"form\">\n{}<section class=\"card\">\n<h2>Remarks</h2>\n{}</section>\n</div>\n",
        listing(
            "description",
            "To be looked at",
            of.input,
            &marks,
            Words::apart(&of.input.names)
        ),
        "<p class=\"blank\"></p>\n".repeat(3)
    )
}

/// The page of a specimen, or of a description that names others.
fn as_text(of: Shown<'_>) -> String {
    let what = format!(
        "A {} of {}",
        of.input.sort.word(),
        words::entries(of.input.entries.len())
    );
    let settled = of.input.names.settled();
    text(&of.input.title, &what, of.text, settled, of.given)
}

/// The page of a file that is shown as its text, and what that is.
pub fn text(title: &str, what: &str, text: &str, told: &[Conflict], under: &Given) -> String {
    let body = format!(
        "<header class=\"answer\">\n<h1 id=\"answer\">{}</h1>\n<p>{what}.</p>\n</header>\n\
         <section class=\"card\">\n<h2>What it says</h2>\n<pre>{}</pre>\n</section>\n{}<footer>\n{}</footer>\n",
        filed(title),
        escaped(text.trim_end()),
        settled(told),
        given(under)
    );
    framed(&file_name(title), &body)
}
