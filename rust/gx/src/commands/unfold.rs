//! A description with each named entry replaced by what it stands for.

use std::path::Path;

use super::{entries_json, Answer, Context, Status, Written};
use crate::input::Input;
use crate::json::Json;
use crate::trouble::Trouble;
use crate::words;

pub(super) fn unfold(context: &Context, file: &Path) -> Result<Answer, Trouble> {
    let input: Input = context.description(file, 1)?;
    let written = Written::of(&input);
    let (full, ending) = context.written(written)?;
    Ok(Answer {
        status: Status::Yes,
        line: format!(
            "{}, {} once unfolded: {}",
            words::entries(input.sent),
            input.entries.len(),
            written.desk()?
        ),
        full,
        ending,
        json: vec![
            ("answer", Json::text("unfolded")),
            ("sort", Json::text("description")),
            ("entries", entries_json(&input.entries, &input.names)),
        ],
        extras: Vec::new(),
        notes: input.names.settled().to_vec(),
    })
}
