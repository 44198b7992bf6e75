//! The reader's answer. A refusal is told by the input itself.

use std::path::Path;

use super::{held, Alone, Answer, Context, Status};
use crate::blocks::BLOCK;
use crate::dictionary::Naming;
use crate::entry::Sort;
use crate::input::{keeping, not_refused, Input};
use crate::json::Json;
use crate::trouble::Trouble;
use crate::words;

pub(super) fn check(context: &Context, file: &Path) -> Result<Answer, Trouble> {
    let input = match context.alone(file, Naming::Nothing)? {
        Alone::Entries(input) => input,
        Alone::Held(of) => return Ok(held::check(&*of)),
    };
    let input = match input.sort {
        Sort::Specimen => keeping(file, input, &context.background.list)?,
        Sort::Description => {
            let unfolded = input.unfolded(&context.background.dictionary);
            unfolded.map_err(|refusal| not_refused(file, refusal))?
        }
    };
    let sort = match context.options.sheet {
        true => "field sheet",
        false => input.sort.word(),
    };
    Ok(accepted(&input, sort))
}

/// What is told of an accepted input.
fn accepted(input: &Input, sort: &str) -> Answer {
    let blocks = input.stored.unwrap_or(input.bytes.len() / BLOCK);
    let entries = input.sent;
    let unfolded = input.entries.len();
    let mut line = format!(
        "accepted: a {sort} of {} in {}",
        words::entries(entries),
        words::blocks(blocks)
    );
    let mut json = vec![
        ("answer", Json::text("accepted")),
        ("sort", Json::text(sort)),
        ("entries", Json::number(entries)),
        ("blocks", Json::number(blocks)),
    ];
    if input.stored.is_some() {
        line.push_str(" in the stored form");
        json.push(("form", Json::text("stored")));
    }
    if input.is_unfolded() {
        line.push_str(&format!(", {unfolded} once unfolded"));
        json.push(("unfolded", Json::number(unfolded)));
    }
    Answer {
        status: Status::Yes,
        full: format!("{line}\n").into_bytes(),
        line,
        ending: "txt",
        json,
        extras: Vec::new(),
        notes: input.names.settled().to_vec(),
    }
}
