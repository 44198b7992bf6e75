//! The fit answer, and for a no the first entry that the top item does not meet.

use std::path::Path;

use super::{words_of, Answer, Context, Extra, Status};
use crate::blocks::encode;
use crate::dictionary::Naming;
use crate::entry::{Entry, Sort};
use crate::explain::Failure;
use crate::input::{keeping, not_refused, Input};
use crate::json::Json;
use crate::library::{self, Refusal, Under};
use crate::names::Names;
use crate::page::{self, Fitting};
use crate::tree::{alone, beneath, places, way, Tree};
use crate::trouble::Trouble;
use crate::whereabouts;
use crate::words::Words;

pub(super) fn fit(context: &Context, specimen: &Path, file: &Path) -> Result<Answer, Trouble> {
    let reading = &context.reading;
    let shown = reading.input(specimen, Some(Sort::Specimen), 1, Naming::Nothing)?;
    let shown = keeping(specimen, context.worded(shown)?, &context.background.list)?;
    let description = context.supplied(file, 2)?;
    let names = words_of(&description, &shown)?;
    let under = context.background.under();
    let fits = library::fits(under, &shown.bytes, &description.bytes);
    let unmet = match fits.map_err(|refusal| not_refused(file, refusal))? {
        true => None,
        false => {
            let unmet = first_unmet(under, &shown, &description);
            Some(unmet.map_err(|refusal| not_refused(file, refusal))?)
        }
    };
    let mut answer = match &unmet {
        None => yes(),
        Some(unmet) => no(&shown, &description, unmet, &names),
    };
    if context.options.html.is_some() {
        let sheet = Fitting {
            specimen: &shown,
            description: &description,
            unmet: unmet.as_ref(),
            list: &context.background.list,
            names: &names,
            given: &context.given,
        };
        let page = page::fitting(sheet)?;
        answer.extras.push((Extra::Html, page.into_bytes()));
    }
    Ok(answer.noted(&names))
}

fn yes() -> Answer {
    let line = "yes: the top item of the specimen fits the description".to_string();
    Answer {
        status: Status::Yes,
        full: format!("{line}\n").into_bytes(),
        line,
        ending: "txt",
        json: vec![("answer", Json::text("yes"))],
        extras: Vec::new(),
        notes: Vec::new(),
    }
}

fn no(specimen: &Input, description: &Input, unmet: &Failure, names: &Names) -> Answer {
    let words = Words::new(names);
    let (entry, asks) = (unmet.entry, unmet.asks(words));
    let from = whereabouts::of_origin(description, entry, names);
    let line =
        format!("no: the specimen does not meet entry {entry} of the description{from}: {asks}");
    let place = whereabouts::told(description, entry, names);
    let shows = unmet.shows(words);
    let group = unmet.specimen.at;
    let of_group = match group {
        0 => "the top item".into(),
        group => {
            let line = specimen.line_of(group);
            let line = line.map_or(String::new(), |line| format!(" (line {line})"));
            format!("entry {group} of the specimen{line}")
        }
    };
    let numbers = |list: &[usize]| Json::List(list.iter().map(|&n| Json::number(n)).collect());
    let line_of = |line: Option<usize>| line.map_or(Json::Null, Json::number);
    Answer {
        status: Status::No,
        full: format!("{line}\n\n    asked by entry {entry}{place}\n    the item that fails: {of_group}\n    {shows}\n").into_bytes(),
        line,
        ending: "txt",
        json: vec![
            ("answer", Json::text("no")),
            ("entry", Json::number(entry)),
            ("line", line_of(description.line_of(entry))),
            ("asks", Json::text(asks)),
            ("item", Json::number(group)),
            ("item_line", line_of(specimen.line_of(group))),
            ("path", numbers(&unmet.specimen.path)),
            ("shows", Json::text(shows)),
        ],
        extras: Vec::new(),
        notes: Vec::new(),
    }
}

/// The first entry that is not met, and the item that does not meet it. An item fits a description if it fits, for each entry, the
/// description of that entry and its owners alone; so the library is asked of each of these. Then it is asked of each item that the
/// owners lead to whether it fits the entry by itself.
fn first_unmet(
    under: Under<'_>,
    specimen: &Input,
    description: &Input,
) -> Result<Failure, Refusal> {
    let mut entries = 1..=description.entries.len();
    let entry = loop {
        // The last one is not met where none before it is.
        let Some(entry) = entries.next() else {
            break description.entries.len();
        };
        let alone = encode(&alone(&description.entries, entry));
        if !library::fits(under, &specimen.bytes, &alone)? {
            break entry;
        }
    };
    let tree = Tree::new(&specimen.entries);
    let way = way(&description.entries, entry);
    let itself = Entry {
        owner: 0,
        ..description.entries[entry - 1]
    };
    let mut at = 0;
    for group in places(&specimen.entries, &tree, &way) {
        at = group;
        let item = encode(&beneath(&specimen.entries, &tree, group));
        if !library::fits(under, &item, &encode(&[itself]))? {
            break;
        }
    }
    Ok(Failure::of_specimen(
        &specimen.entries,
        &description.entries,
        entry,
        at,
    ))
}
