//! A description or specimen as text, and as blocks.

use std::path::Path;

use super::{entries_json, held, Alone, Answer, Context, Extra, Status, Written};
use crate::args::To;
use crate::blocks::BLOCK;
use crate::dictionary::Naming;
use crate::entry::Sort;
use crate::input::Input;
use crate::json::Json;
use crate::library;
use crate::page::{self, Shown};
use crate::text::{self, Numbers};
use crate::trouble::Trouble;
use crate::words;

pub(super) fn show(context: &Context, file: &Path) -> Result<Answer, Trouble> {
    let input = match context.alone(file, Naming::Any)? {
        Alone::Entries(input) => input,
        Alone::Held(of) => return held::show(context, &*of),
    };
    let written = Written::of(&input);
    let (full, ending) = context.written(written)?;
    let mut extras = Vec::new();
    if context.options.html.is_some() {
        extras.push((Extra::Html, page(context, &input)?.into_bytes()));
    }
    Ok(Answer {
        status: Status::Yes,
        line: written.desk()?,
        full,
        ending,
        json: fields(&input),
        extras,
        notes: input.names.settled().to_vec(),
    })
}

/// The page of a description or a specimen.
fn page(context: &Context, input: &Input) -> Result<String, Trouble> {
    let written = Written::of(input);
    let text = text::text(
        written.sort,
        written.entries,
        written.names,
        Numbers::WhereNeeded,
    );
    page::shown(Shown {
        input,
        sheet: input.sort == Sort::Description && library::read_sheet(&input.bytes).is_ok(),
        text: &written.read_back(text)?,
        given: &context.given,
    })
}

pub(super) fn write(context: &Context, file: &Path) -> Result<Answer, Trouble> {
    let input = match context.alone(file, Naming::Any)? {
        Alone::Entries(input) => input,
        Alone::Held(of) => return Ok(held::write(&*of)),
    };
    let (full, ending) = match context.options.to {
        Some(_) => context.written(Written::of(&input))?,
        None => (input.bytes.clone(), "blocks"),
    };
    let stored = match context.options.to {
        Some(To::Stored) => " in the stored form",
        _ => "",
    };
    Ok(Answer {
        status: Status::Yes,
        line: format!(
            "a {} of {} in {}{stored}",
            input.sort.word(),
            words::entries(input.entries.len()),
            words::blocks(full.len() / BLOCK)
        ),
        json: fields(&input),
        full,
        ending,
        extras: Vec::new(),
        notes: input.names.settled().to_vec(),
    })
}

fn fields(input: &Input) -> Vec<(&'static str, Json)> {
    vec![
        ("answer", Json::text("accepted")),
        ("sort", Json::text(input.sort.word())),
        ("entries", entries_json(&input.entries, &input.names)),
    ]
}
