//! The command line.

mod options;
mod read;

use std::path::PathBuf;

use crate::entry::Sort;
use crate::input::Form;

pub use options::{Opt, OPTIONS};
pub use read::read;

/// What `gx` is asked to do.
#[derive(Clone, Copy, Debug, PartialEq, Eq)]
pub enum Command {
    /// A description or specimen as text.
    Show,
    /// A text as blocks.
    Write,
    /// The reader's answer.
    Check,
    /// The normal form.
    Normal,
    /// The fit answer.
    Fit,
    /// The comparison.
    Compare,
    /// The entries that earn a yes.
    Keep,
    /// The entries that are missing for one.
    Missing,
    /// The narrowest description that contains two.
    Narrowest,
    /// One description compared with many.
    Catalogue,
    /// Many services from general to special.
    Hierarchy,
    /// The items of a delivered record that fit.
    Delivered,
    /// A description in the making.
    Desk,
    /// Descriptions that mean the same.
    Doubles,
    /// A description without named entries.
    Unfold,
    /// The question in OWL.
    Owl,
    /// A description from OWL.
    FromOwl,
}

impl Command {
    /// All commands, in the order of the help.
    pub const ALL: [Command; 17] = [
        Command::Show,
        Command::Write,
        Command::Check,
        Command::Normal,
        Command::Fit,
        Command::Compare,
        Command::Keep,
        Command::Missing,
        Command::Narrowest,
        Command::Catalogue,
        Command::Hierarchy,
        Command::Delivered,
        Command::Desk,
        Command::Doubles,
        Command::Unfold,
        Command::Owl,
        Command::FromOwl,
    ];

    /// The word for it on the command line.
    pub fn word(self) -> &'static str {
        match self {
            Command::Show => "show",
            Command::Write => "write",
            Command::Check => "check",
            Command::Normal => "normal",
            Command::Fit => "fit",
            Command::Compare => "compare",
            Command::Keep => "keep",
            Command::Missing => "missing",
            Command::Narrowest => "narrowest",
            Command::Catalogue => "catalogue",
            Command::Hierarchy => "hierarchy",
            Command::Delivered => "delivered",
            Command::Desk => "desk",
            Command::Doubles => "doubles",
            Command::Unfold => "unfold",
            Command::Owl => "owl",
            Command::FromOwl => "from-owl",
        }
    }

    /// The command of this word.
    pub fn called(word: &str) -> Option<Command> {
        Command::ALL
            .into_iter()
            .find(|command| command.word() == word)
    }

    /// The options that it takes, beside `--help`.
    pub fn options(self) -> impl Iterator<Item = &'static Opt> {
        OPTIONS
            .iter()
            .filter(move |option| option.of.contains(&self))
    }

    /// Whether it takes two inputs, and not any number of them.
    pub fn takes_pair(self) -> bool {
        matches!(
            self,
            Command::Fit
                | Command::Compare
                | Command::Keep
                | Command::Missing
                | Command::Narrowest
                | Command::Delivered
                | Command::Owl
        )
    }

    /// Whether what it prints is an answer and not data: then a refusal is an answer too.
    pub fn answers(self) -> bool {
        matches!(
            self,
            Command::Check
                | Command::Fit
                | Command::Compare
                | Command::Keep
                | Command::Missing
                | Command::Catalogue
                | Command::Hierarchy
                | Command::Delivered
                | Command::Doubles
        )
    }
}

/// The form of what is written.
#[derive(Clone, Copy, Debug, PartialEq, Eq)]
pub enum To {
    /// Text, an entry on each line.
    Text,
    /// The desk notation.
    Desk,
    /// Blocks.
    Blocks,
    /// The stored form.
    Stored,
}

/// What an input is, or is to be written.
#[derive(Clone, Copy, Debug, PartialEq, Eq)]
pub enum Content {
    /// A description or a specimen.
    Entries(Sort),
    /// A list of pairs.
    Pairs,
    /// A dictionary.
    Dictionary,
    /// A list of services.
    Services,
    /// A delivered record.
    Record,
}

/// The options.
#[derive(Clone, Debug, Default, PartialEq, Eq)]
pub struct Options {
    /// The names file.
    pub names: Option<PathBuf>,
    /// The list of properties that exclude each other.
    pub pairs: Option<PathBuf>,
    /// The dictionary of named descriptions.
    pub dictionary: Option<PathBuf>,
    /// For programs.
    pub json: bool,
    /// The form of the inputs, where it is not told by them.
    pub from: Option<Form>,
    /// What the inputs are, where it is not told by them.
    pub sort: Option<Content>,
    /// The form of the output.
    pub to: Option<To>,
    /// Each entry is written with its number.
    pub numbers: bool,
    /// The file or folder for the output.
    pub out: Option<PathBuf>,
    /// The file or folder for drawings.
    pub svg: Option<PathBuf>,
    /// The file or folder for pages.
    pub html: Option<PathBuf>,
    /// The file or folder for the blocks of specimens.
    pub specimen: Option<PathBuf>,
    /// The drawing shows each group.
    pub whole: bool,
    /// The class that is read from OWL.
    pub class: Option<String>,
    /// All entries that fail are told.
    pub all: bool,
    /// The services that a draft is compared with.
    pub against: Option<PathBuf>,
    /// How many items a record in blocks has.
    pub items: Option<usize>,
    /// The description has to be a field sheet; of two that are compared the first.
    pub sheet: bool,
    /// Folders stand for the files in their folders too.
    pub recursive: bool,
    /// No settings of a laboratory are looked for.
    pub no_lab: bool,
    /// Nothing is printed but what is wrong.
    pub quiet: bool,
    /// Each no of a catalogue is explained.
    pub why: bool,
    /// Only the services that contain the description are told.
    pub only_contained: bool,
    /// One service that contains the description is enough.
    pub any: bool,
    /// The question is written in the notation of FaCT++.
    pub fact: bool,
    /// A hierarchy is written as a table with commas.
    pub csv: bool,
    /// A hierarchy is written as a graph for Graphviz.
    pub dot: bool,
    /// A hierarchy is written as an ontology.
    pub owl: bool,
}

/// A shell that completes command lines.
#[derive(Clone, Copy, Debug, PartialEq, Eq)]
pub enum Shell {
    /// bash
    Bash,
    /// zsh
    Zsh,
    /// fish
    Fish,
}

/// A command line that makes sense.
#[derive(Clone, Debug, PartialEq, Eq)]
pub enum Args {
    /// The help of a command, or of all.
    Help(Option<Command>),
    /// The help of the completions.
    HelpOfCompletions,
    /// The version.
    Version,
    /// The completions for a shell.
    Completions(Shell),
    /// Something to do.
    Do(Command, Vec<PathBuf>, Box<Options>),
}
