//! The page that leads to the pages of a folder: a table of all answers.

use super::{filed, framed, given};
use crate::args::Command;
use crate::commands::Status;
use crate::given::Given;
use crate::shown::file_name;
use crate::svg::escaped;
use crate::words;

/// A row of the table.
#[derive(Clone, Debug, PartialEq, Eq)]
pub struct Row {
    name: String,
    /// The file of the page.
    pub page: String,
    status: Status,
    line: String,
}

impl Row {
    /// What is said on a line of this input, and its page beside the table.
    pub fn new(name: &str, status: Status, line: &str) -> Row {
        Row {
            name: name.into(),
            page: format!("{name}.html"),
            status,
            line: line.into(),
        }
    }

    fn html(&self) -> String {
        let (class, sign) = match self.status {
            Status::Yes => ("yes", "✓"),
            Status::No => ("no", "✕"),
            Status::Bad | Status::Fault => ("bad", "!"),
        };
        format!(
            "<tr class=\"{class}\"><td aria-hidden=\"true\">{sign}</td><td><a href=\"{}\">{}</a></td><td>{}</td></tr>\n",
            escaped(&address(&self.page)),
            filed(&self.name),
            escaped(&self.line)
        )
    }
}

/// What a yes and a no of a command are called; no second where it has no no.
fn called(command: Command) -> (&'static str, Option<&'static str>) {
    match command {
        Command::Fit | Command::Delivered => ("fit", Some("do not")),
        Command::Missing => ("can be met", Some("cannot")),
        Command::Show => ("shown", None),
        Command::Narrowest => ("written", None),
        _ => ("contained", Some("not")),
    }
}

/// The page of these answers for one description, or for many where that has no name.
pub fn index(command: Command, supplier: &str, rows: &[Row], under: &Given) -> String {
    let count = |status: Status| rows.iter().filter(|row| row.status == status).count();
    let (yes, no) = (count(Status::Yes), count(Status::No));
    let bad = rows.len() - yes - no;
    let of = match supplier.is_empty() {
        true => String::new(),
        false => format!(" of {}", filed(supplier)),
    };
    let (is, is_not) = called(command);
    let mut says = format!("{yes} {is}");
    says.extend(is_not.map(|is_not| format!(", {no} {is_not}")));
    if bad > 0 {
        says.push_str(&format!(", {bad} without an answer"));
    }
    let title = format!("{}: {yes} {is}", counted(rows.len()));
    let mut body = format!(
        "<header class=\"answer\">\n<h1 id=\"answer\">{says}</h1>\n<p>{}{of}.</p>\n</header>\n",
        counted(rows.len())
    );
    let rows: String = rows.iter().map(Row::html).collect();
    body.push_str(&format!(
        "<section class=\"card\">\n<table class=\"index\">\n<thead><tr><th></th><th>Input</th><th>Answer</th></tr></thead>\n<tbody>\n{rows}</tbody>\n</table>\n</section>\n"
    ));
    body.push_str(&format!("<footer>\n{}</footer>\n", given(under)));
    framed(&file_name(&title), &body)
}

fn counted(count: usize) -> String {
    let word = if count == 1 { "answer" } else { "answers" };
    format!("{} {word}", words::grouped(count as u32))
}

/// A file's name as an address relative to the page.
fn address(name: &str) -> String {
    let mut out = String::from("./");
    for byte in name.bytes() {
        match byte {
            b'a'..=b'z' | b'A'..=b'Z' | b'0'..=b'9' | b'-' | b'.' | b'_' | b'~' | b'/' => {
                out.push(byte.into());
            }
            _ => out.push_str(&format!("%{byte:02X}")),
        }
    }
    out
}
