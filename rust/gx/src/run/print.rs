//! What is printed.

use std::io::{ErrorKind, IsTerminal, Write};

use super::lock;
use crate::commands::Status;
use crate::input::why;
use crate::json::Json;
use crate::trouble::Trouble;

/// The exit status where nobody reads on, as of a program that the system ends for it.
const CLOSED: i32 = 141;

/// Writes to standard output, and says whether that went well. Where nobody reads on, the work stops.
pub(super) fn print(bytes: &[u8]) -> bool {
    let mut out = std::io::stdout().lock();
    match out.write_all(bytes).and_then(|()| out.flush()) {
        Ok(()) => true,
        Err(error) if error.kind() == ErrorKind::BrokenPipe => {
            lock::release();
            std::process::exit(CLOSED)
        }
        Err(error) => {
            let why = why(&error);
            complain(&format!("gx: standard output cannot be written: {why}\n"));
            false
        }
    }
}

/// The text with its first line in the colour of how it ends, where a terminal shows it and nobody rules it out.
pub(super) fn painted(status: Status, text: &str) -> String {
    let set = |name: &str| std::env::var_os(name).filter(|value| !value.is_empty());
    let dumb = set("TERM").is_none_or(|terminal| terminal == "dumb");
    if set("NO_COLOR").is_some() || dumb || !std::io::stdout().is_terminal() {
        return text.into();
    }
    let colour = match status {
        Status::Yes => "32",
        Status::No => "31",
        Status::Bad | Status::Fault => "35",
    };
    let (first, rest) = text.split_at(text.find('\n').unwrap_or(text.len()));
    format!("\x1b[1;{colour}m{first}\x1b[0m{rest}")
}

/// The status of an answer, or bad where it could not be printed.
pub(super) fn printed(bytes: &[u8], status: Status) -> Status {
    match print(bytes) {
        true => status,
        false => status.max(Status::Bad),
    }
}

/// Writes to standard error.
pub(super) fn complain(words: &str) {
    let _ = std::io::stderr().lock().write_all(words.as_bytes());
}

/// Tells how far the run is, where somebody looks on.
pub(super) fn show_progress(looked_at: bool, at: usize, of: usize) {
    if looked_at {
        complain(&format!("\r{at} of {of}"));
    }
}

/// Takes away what tells it.
pub(super) fn end_progress(looked_at: bool) {
    if looked_at {
        complain("\r\x1b[K");
    }
}

/// Fields for programs.
pub(super) type Fields = Vec<(&'static str, Json)>;

/// What is said of one of many: how it ends, a line, and the same for programs.
pub(super) type Said = (Status, String, Fields);

/// What is said of one that has no answer, on the line of this file. Where the trouble is another file's, that is named too.
pub(super) fn said_of(trouble: &Trouble, file: &str) -> Said {
    let line = match trouble.title() {
        title if title == file || file.ends_with(&format!("/{title}")) => trouble.line(),
        title => format!("{}: {}", crate::shown::file_name(title), trouble.line()),
    };
    (trouble.status(), line, trouble.json())
}
