//! All entries of the service's description that fail, told after the first.

use std::path::Path;

use super::{by_entries, origin_json, said_json};
use crate::commands::{Answer, Context};
use crate::explain::{all_failing, Explained, Failure};
use crate::input::{named, not_refused, Input};
use crate::json::Json;
use crate::names::Names;
use crate::trouble::Trouble;
use crate::whereabouts;
use crate::words::{self, Words};

/// The entries that fail; the first is that of the comparison.
pub(super) fn failing(
    context: &Context,
    explained: &Explained,
    (supplier, service): (&Input, &Input),
    d: &Path,
) -> Result<Vec<Failure>, Trouble> {
    let all = all_failing(&context.background, supplier, service);
    let all = all.map_err(|refusal| not_refused(d, refusal))?;
    let first = match explained {
        Explained::Contained(_) => None,
        Explained::NotContained(failure) => Some(failure.entry),
    };
    let as_compared = |all: &Vec<Failure>| all.first().map(|failure| failure.entry) == first;
    all.filter(as_compared).ok_or_else(|| Trouble::Fault {
        file: named(d),
        why: "the entries that fail one by one are not those of the comparison".into(),
    })
}

/// Tells them in an answer.
pub(super) fn tell(answer: &mut Answer, all: &[Failure], c: &Input, d: &Input, names: &Names) {
    let words = Words::new(names);
    let fields = all.iter().map(|failure| {
        let line = d.line_of(failure.entry).map_or(Json::Null, Json::number);
        let mut fields = vec![("entry", Json::number(failure.entry)), ("line", line)];
        fields.extend(origin_json(d, failure.entry));
        fields.extend(said_json(failure, words));
        Json::Object(fields)
    });
    answer.json.push(("all", Json::List(fields.collect())));
    if all.is_empty() {
        return;
    }
    let numbers: Vec<String> = all
        .iter()
        .map(|failure| failure.entry.to_string())
        .collect();
    let count = words::entries(all.len());
    let fail = if all.len() == 1 { "fails" } else { "fail" };
    let listed = words::listed(&numbers);
    answer.line = format!("{}; {count} {fail}: {listed}", answer.line);
    let mut full = format!(
        "\nAll that fails: {count} of {}, by {}\n",
        words::grouped(d.entries.len() as u32),
        if all.len() == 1 {
            "its number"
        } else {
            "their numbers"
        }
    );
    for failure in all {
        full.push_str(&format!(
            "    {}{}: {}\n        supplier: {}{}\n        specimen: {}\n",
            failure.entry,
            whereabouts::told(d, failure.entry, names),
            failure.asks(words),
            failure.supplier_says(words),
            by_entries(c, &failure.supplier, names),
            failure.shows(words)
        ));
    }
    answer.full.extend(full.bytes());
}
