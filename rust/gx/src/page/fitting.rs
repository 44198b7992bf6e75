//! The page of a fit answer: the answer, which entry is not met by which item, the specimen drawn and in words, and the description.

use super::description::{listing, Marks};
use super::{answer, drawn, filed, framed, given, marked, readback, settled, specimen, where_kept};
use crate::explain::Failure;
use crate::given::Given;
use crate::input::Input;
use crate::names::Names;
use crate::pairs::List;
use crate::shown::file_name;
use crate::svg::escaped;
use crate::trouble::Trouble;
use crate::whereabouts;
use crate::words::Words;

/// What the page is made of.
#[derive(Clone, Copy, Debug)]
pub struct Fitting<'a> {
    /// The specimen.
    pub specimen: &'a Input,
    /// The description.
    pub description: &'a Input,
    /// What is not met, where the answer is no.
    pub unmet: Option<&'a Failure>,
    /// The list that the specimen keeps.
    pub list: &'a List,
    /// The words of all.
    pub names: &'a Names,
    /// The files that the answer is given under.
    pub given: &'a Given,
}

/// The page.
///
/// # Errors
///
/// The description or the specimen on it is not the one that was asked about.
pub fn fitting(sheet: Fitting<'_>) -> Result<String, Trouble> {
    let words = Words::apart(sheet.names);
    let kept = where_kept(sheet.list)
        .replace("<a href=\"#pairs\">", "")
        .replace("</a>", "");
    let (title, mut body) = match sheet.unmet {
        None => {
            let sentence = "The top item of the specimen fits the description.";
            (
                "Fits",
                answer("yes", "✓", "Fits", &format!("{sentence}{kept}")),
            )
        }
        Some(failure) => {
            let sentence = "The top item of the specimen does not fit the description.";
            let head = answer("no", "✕", "Does not fit", &format!("{sentence}{kept}"));
            let drawing = drawn(failure, words.plain(), false);
            let drawing = drawing.replace("A consignment that shows it", "The specimen");
            let drawing = drawing.replace(
                "it fits the supplier’s description and not the service’s. ",
                "",
            );
            (
                "Does not fit",
                head + &why(sheet, failure, words) + &drawing,
            )
        }
    };
    let marks = sheet.unmet.map_or_else(Marks::default, |failure| Marks {
        way: failure.owners.clone(),
        fails: Some(failure.entry),
        ..Marks::default()
    });
    body.push_str(&listing(
        "description",
        "The description",
        sheet.description,
        &marks,
        words,
    ));
    readback::checked(&body, "description", sheet.description, sheet.names)?;
    if let Some(failure) = sheet.unmet {
        body.push_str(&specimen::listing(failure, words));
        readback::specimen(&body, failure, sheet.names)?;
    }
    body.push_str(&settled(sheet.names.settled()));
    body.push_str(&format!("<footer>\n{}</footer>\n", given(sheet.given)));
    let [specimen, description] =
        [sheet.specimen, sheet.description].map(|input| file_name(&input.title));
    Ok(framed(
        &format!("{title}: {specimen} and {description}"),
        &body,
    ))
}

/// What is asked, and which item does not meet it.
fn why(sheet: Fitting<'_>, failure: &Failure, words: Words<'_>) -> String {
    let entry = failure.entry;
    let place = escaped(&whereabouts::told(sheet.description, entry, sheet.names));
    let item = match failure.specimen.at {
        0 => "the top item".into(),
        group => {
            let line = sheet.specimen.line_of(group);
            let line = line.map_or(String::new(), |line| format!(", line {line}"));
            format!(
                "its entry {group}{line}, of {}",
                filed(&sheet.specimen.title)
            )
        }
    };
    format!(
        "<section class=\"card\">\n<h2>Why</h2>\n<dl class=\"why\">\n\
         <dt>The description asks</dt><dd>{}<small><a href=\"#description-{entry}\">its entry {entry}</a>{place}, the first that is not met</small></dd>\n\
         <dt>The specimen has</dt><dd>{}<small>{item}</small></dd>\n</dl>\n</section>\n",
        marked(&failure.asks(words)),
        marked(&failure.shows(words)),
    )
}
