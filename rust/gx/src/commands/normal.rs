//! The normal form.

use std::path::Path;

use super::{entries_json, Answer, Context, Status, Written};
use crate::input::{not_refused, Input};
use crate::json::Json;
use crate::library;
use crate::trouble::Trouble;
use crate::words;

pub(super) fn normal(context: &Context, file: &Path) -> Result<Answer, Trouble> {
    let input: Input = context.supplied(file, 1)?;
    let blocks = library::normal(context.background.under(), &input.bytes);
    let blocks = blocks.map_err(|refusal| not_refused(file, refusal))?;
    let entries = library::entries(&blocks);
    let written = Written {
        entries: &entries,
        ..Written::of(&input)
    };
    let (full, ending) = context.written(written)?;
    Ok(Answer {
        status: Status::Yes,
        line: format!(
            "{}, {} in normal form: {}",
            words::entries(input.entries.len()),
            entries.len(),
            written.desk()?
        ),
        full,
        ending,
        json: vec![
            ("answer", Json::text("normal form")),
            ("sort", Json::text("description")),
            ("entries", entries_json(&entries, &input.names)),
        ],
        extras: Vec::new(),
        notes: input.names.settled().to_vec(),
    })
}
