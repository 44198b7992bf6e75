//! All entries of the service's description that fail, in a table.

use super::{marked, Sheet};
use crate::explain::Failure;
use crate::words::{self, Words};

/// The section, where all are asked for and there are several.
pub(super) fn section(sheet: Sheet<'_>, words: Words<'_>) -> String {
    let all = sheet.all.unwrap_or_default();
    if all.is_empty() {
        return String::new();
    }
    let rows: String = all
        .iter()
        .map(|failure| row(sheet, failure, words))
        .collect();
    format!(
        "<section class=\"card\" id=\"all\">\n<h2>All that fails</h2>\n<p class=\"size\">{} of {}</p>\n\
         <table>\n<thead><tr><th>Entry</th><th>The service asks</th><th>The supplier says there</th></tr></thead>\n<tbody>\n{rows}</tbody>\n\
         </table>\n</section>\n",
        words::entries(all.len()),
        words::entries(sheet.service.entries.len())
    )
}

fn row(sheet: Sheet<'_>, failure: &Failure, words: Words<'_>) -> String {
    let entry = failure.entry;
    let line = sheet.service.line_of(entry);
    let line = line.map_or(String::new(), |line| format!("<small>line {line}</small>"));
    format!(
        "<tr><td><a href=\"#service-{entry}\">{entry}</a>{line}</td><td>{}</td><td>{}</td></tr>\n",
        marked(&failure.asks(words)),
        marked(&failure.supplier_says(words))
    )
}
