//! The help.

mod texts;

use crate::args::{Command, Opt};
use texts::{detail, ALL, COMPLETIONS};

/// A few lines for wrong usage.
pub fn usage() -> String {
    "usage: gx COMMAND [OPTIONS] FILE...\n       gx --help, gx COMMAND --help\n".into()
}

/// The commands, each with a line.
pub fn commands() -> String {
    let mut out = String::from("Commands:\n");
    for command in Command::ALL {
        let (words, about) = about(command);
        out.push_str(&columns(words, 29, about));
    }
    out.push_str(&columns(
        "completions SHELL",
        29,
        "completions for bash, zsh or fish",
    ));
    out
}

/// The help of all.
pub fn all() -> String {
    let mut out = String::from("gx - see, write, check and explain descriptions\n\n");
    out.push_str("usage: gx COMMAND [OPTIONS] FILE...\n\n");
    out.push_str(&commands());
    out.push_str(&wrapped(ALL));
    out
}

/// The help of one command.
pub fn of(command: Command) -> String {
    let (words, about) = about(command);
    let (word, inputs) = (command.word(), inputs(command));
    let mut out = wrapped(&format!("gx {words} - {about}\n"));
    out.push_str(&format!("\nusage: gx {word} [OPTIONS] {inputs}\n\n"));
    out.push_str(&wrapped(detail(command)));
    out.push_str("\nOptions:\n");
    for option in command.options() {
        out.push_str(&columns(&left(option), 20, option.about_of(command)));
    }
    out.push_str(&columns("--help, -h", 20, "this help"));
    let status = match command {
        Command::Fit => "0 yes, 1 no",
        Command::Delivered => "0 each item fits, 1 not",
        Command::Compare | Command::Keep => "0 contained, 1 not contained",
        Command::Missing => "0 nothing to add, or to be added, 1 no item fits both",
        Command::Catalogue => "0 contained in each (with --any, in one), 1 not",
        _ => "0 done",
    };
    out.push_str(&wrapped(&format!(
        "\nExit status: {status}, 2 refused or a mistake in an input, 64 wrong usage, 70 an error of gx.\n\
         gx --help tells how inputs, texts and names files are written.\n"
    )));
    out
}

/// The help of the completions.
pub fn of_completions() -> String {
    let mut out = String::from("gx completions SHELL - completions for bash, zsh or fish\n\n");
    out.push_str("usage: gx completions bash|zsh|fish\n\n");
    out.push_str(&wrapped(COMPLETIONS));
    out.push_str("\nOptions:\n");
    out.push_str(&columns("--help, -h", 20, "this help"));
    out.push_str("\nExit status: 0 done, 64 wrong usage.\n");
    out
}

/// An option with its value and its letter.
fn left(option: &Opt) -> String {
    let value = option
        .value
        .map_or(String::new(), |value| format!(" {value}"));
    let short = option
        .short
        .map_or(String::new(), |letter| format!(", -{letter}"));
    format!("{}{value}{short}", option.name)
}

/// The columns of a terminal that all help keeps to.
const WIDTH: usize = 80;

/// Two columns, the second of them wrapped.
fn columns(left: &str, width: usize, right: &str) -> String {
    let lines = lines(right, WIDTH - 2 - width);
    let mut out = String::new();
    let fits = left.chars().count() < width;
    if !fits {
        out.push_str(&format!("  {left}\n"));
    }
    for (at, line) in lines.iter().enumerate() {
        let left = if at == 0 && fits { left } else { "" };
        out.push_str(&format!("  {left:<width$}{line}\n"));
    }
    out
}

/// The text with its paragraphs wrapped; lines that begin with a space stay as they are.
fn wrapped(text: &str) -> String {
    let mut out = String::new();
    let mut paragraph = String::new();
    let end = |paragraph: &mut String, out: &mut String| {
        for line in lines(paragraph, WIDTH) {
            out.push_str(&line);
            out.push('\n');
        }
        paragraph.clear();
    };
    for line in text.lines() {
        if line.is_empty() || line.starts_with(' ') {
            end(&mut paragraph, &mut out);
            out.push_str(line);
            out.push('\n');
        } else {
            paragraph.push_str(line);
            paragraph.push(' ');
        }
    }
    end(&mut paragraph, &mut out);
    out
}

/// The words on lines of this width.
fn lines(text: &str, width: usize) -> Vec<String> {
    let mut lines: Vec<String> = Vec::new();
    for word in text.split_whitespace() {
        match lines.last_mut() {
            Some(line) if line.chars().count() + 1 + word.chars().count() <= width => {
                line.push(' ');
                line.push_str(word);
            }
            _ => lines.push(word.into()),
        }
    }
    lines
}

fn inputs(command: Command) -> &'static str {
    match command {
        Command::Fit => "SPECIMEN DESCRIPTION",
        Command::Compare | Command::Keep | Command::Missing => "SUPPLIER SERVICE",
        Command::Narrowest => "DESCRIPTION DESCRIPTION",
        Command::Owl => "SUPPLIER SERVICE...",
        Command::Catalogue => "SUPPLIER SERVICES...",
        Command::Hierarchy => "SERVICES...",
        Command::Doubles => "DESCRIPTIONS...",
        Command::Desk => "FILE [STEP]",
        Command::Delivered => "RECORD DESCRIPTION",
        _ => "[FILE...]",
    }
}

/// A command with its inputs, and what it does.
pub fn about(command: Command) -> (&'static str, &'static str) {
    match command {
        Command::Show => (
            "show FILE",
            "a description, specimen, list of pairs or dictionary as text",
        ),
        Command::Write => ("write FILE", "a text as blocks"),
        Command::Check => (
            "check FILE",
            "whether the reader accepts it; a refusal in words",
        ),
        Command::Normal => ("normal FILE", "the normal form of a description"),
        Command::Fit => (
            "fit SPECIMEN DESCRIPTION",
            "whether the specimen's top item fits",
        ),
        Command::Compare => (
            "compare SUPPLIER SERVICE",
            "whether the first is contained in the second; a no explained",
        ),
        Command::Keep => (
            "keep SUPPLIER SERVICE",
            "which entries of the first earn a yes",
        ),
        Command::Missing => (
            "missing SUPPLIER SERVICE",
            "which entries of the second to add to the first for a yes",
        ),
        Command::Narrowest => (
            "narrowest ONE OTHER",
            "the narrowest description that contains both",
        ),
        Command::Catalogue => (
            "catalogue SUPPLIER SERVICES",
            "which services contain the supplier's description",
        ),
        Command::Hierarchy => (
            "hierarchy SERVICES",
            "the services from general to special, and which say the same",
        ),
        Command::Delivered => (
            "delivered RECORD DESCRIPTION",
            "which items of a delivered record fit",
        ),
        Command::Desk => (
            "desk FILE STEP",
            "a description in the making, with stands to return to",
        ),
        Command::Doubles => ("doubles DESCRIPTIONS", "which descriptions mean the same"),
        Command::Unfold => (
            "unfold FILE",
            "a description with its named entries replaced by what they stand for",
        ),
        Command::Owl => (
            "owl SUPPLIER SERVICE",
            "the same question in OWL 2 functional syntax",
        ),
        Command::FromOwl => (
            "from-owl FILE",
            "a description from an OWL class expression",
        ),
    }
}
