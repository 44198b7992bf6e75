//! Files that hold a list, a dictionary or a record: shown as text and as bytes, and the library's answer to them.

use super::{Answer, Context, Extra, Status};
use crate::args::To;
use crate::json::Json;
use crate::names::Names;
use crate::page;
use crate::text::Numbers;
use crate::trouble::Trouble;

/// What such a file holds, which the library accepts.
pub(super) trait Held {
    /// The file's name without its folder, or "standard input".
    fn title(&self) -> &str;

    /// What it is: "a list of 3 pairs".
    fn told(&self) -> String;

    /// Its text, read back.
    fn text(&self, numbers: Numbers) -> Result<String, Trouble>;

    /// Its line in the notation of the desk, read back, where it has one.
    fn desk(&self) -> Result<Option<String>, Trouble>;

    /// Its bytes.
    fn bytes(&self) -> &[u8];

    /// What a file of its bytes is called after its input.
    fn ending(&self) -> &'static str;

    /// The words of it.
    fn names(&self) -> &Names;

    /// What it is and what it holds, for programs.
    fn fields(&self) -> Vec<(&'static str, Json)>;
}

/// In the form that the options ask for.
pub(super) fn show(context: &Context, of: &dyn Held) -> Result<Answer, Trouble> {
    let desk = of.desk()?;
    let text = || of.text(context.numbers());
    let (full, ending) = match (context.options.to.unwrap_or(To::Text), &desk) {
        (To::Desk, Some(desk)) => (format!("{desk}\n").into_bytes(), "txt"),
        (To::Text | To::Desk, _) => (text()?.into_bytes(), "txt"),
        (To::Blocks | To::Stored, _) => (of.bytes().to_vec(), of.ending()),
    };
    let mut extras = Vec::new();
    if context.options.html.is_some() {
        let page = page::shown_text(
            of.title(),
            &of.told(),
            &text()?,
            of.names().settled(),
            &context.given,
        );
        extras.push((Extra::Html, page.into_bytes()));
    }
    Ok(Answer {
        full,
        ending,
        extras,
        ..answer(desk.unwrap_or(of.told()), of)
    })
}

/// As its bytes.
pub(super) fn write(of: &dyn Held) -> Answer {
    Answer {
        full: of.bytes().to_vec(),
        ending: of.ending(),
        ..answer(of.told(), of)
    }
}

/// That it is accepted.
pub(super) fn check(of: &dyn Held) -> Answer {
    let line = format!("accepted: {}", of.told());
    Answer {
        full: format!("{line}\n").into_bytes(),
        ..answer(line, of)
    }
}

/// The answer on this line, for which nothing is written.
fn answer(line: String, of: &dyn Held) -> Answer {
    let accepted = [("answer", Json::text("accepted"))].into_iter();
    Answer {
        status: Status::Yes,
        line,
        full: Vec::new(),
        ending: "txt",
        json: accepted.chain(of.fields()).collect(),
        extras: Vec::new(),
        notes: of.names().settled().to_vec(),
    }
}
