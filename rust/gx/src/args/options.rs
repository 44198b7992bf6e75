//! The options, each with its words and the commands that take it: what reads the command line, the help and the completions go by
//! this table.

use super::Command::{
    self, Catalogue, Check, Compare, Delivered, Desk, Doubles, Fit, FromOwl, Hierarchy, Keep,
    Missing, Narrowest, Normal, Owl, Show, Unfold, Write,
};

/// An option.
#[derive(Clone, Copy, Debug)]
pub struct Opt {
    /// With its two signs before: `--out`.
    pub name: &'static str,
    /// One letter that stands for it.
    pub short: Option<char>,
    /// What its value is called in the help, where it has one.
    pub value: Option<&'static str>,
    /// The values that it takes, where these are words.
    pub words: &'static [&'static str],
    /// The help.
    pub about: &'static str,
    /// The commands that take it.
    pub of: &'static [Command],
}

impl Opt {
    /// The option of this name.
    pub fn called(name: &str) -> Option<&'static Opt> {
        OPTIONS.iter().find(|option| option.name == name)
    }

    /// The help of it for this command: one answer about all files is written into one file.
    pub fn about_of(&self, command: Command) -> &'static str {
        match (self.name, command) {
            ("--html", Hierarchy | Doubles | Desk) => "write a page with the answer into this file",
            ("--svg", Hierarchy) => "draw the classes into this file",
            ("--out", Hierarchy | Doubles | Desk) => "write into this file",
            ("--dictionary", Desk) => {
                "the dictionary of the descriptions that services of --against name; a desk takes none"
            }
            _ => self.about,
        }
    }

    /// The option that this letter stands for.
    pub fn of_letter(letter: char) -> Option<&'static Opt> {
        OPTIONS.iter().find(|option| option.short == Some(letter))
    }
}

const ALL: &[Command] = &Command::ALL;
const UNDER: &[Command] = &[
    Check, Normal, Fit, Compare, Keep, Missing, Narrowest, Catalogue, Hierarchy, Delivered, Desk,
    Doubles, Owl,
];
const NAMING: &[Command] = &[
    Show, Write, Check, Normal, Fit, Compare, Keep, Missing, Narrowest, Catalogue, Hierarchy,
    Delivered, Desk, Doubles, Unfold, Owl,
];
const READING: &[Command] = &[
    Show, Write, Check, Normal, Fit, Compare, Keep, Missing, Narrowest, Catalogue, Hierarchy,
    Delivered, Desk, Doubles, Unfold, Owl,
];
const TO: &[Command] = &[
    Show, Write, Normal, Keep, Missing, Narrowest, Desk, Unfold, FromOwl,
];
const TEXTS: &[Command] = &[Show, Normal, Keep, Missing, Narrowest, Unfold, FromOwl];

const fn flag(name: &'static str, about: &'static str, of: &'static [Command]) -> Opt {
    Opt {
        name,
        short: None,
        value: None,
        words: &[],
        about,
        of,
    }
}

const fn file(name: &'static str, about: &'static str, of: &'static [Command]) -> Opt {
    Opt {
        value: Some("FILE"),
        ..flag(name, about, of)
    }
}

const fn word(
    name: &'static str,
    words: &'static [&'static str],
    about: &'static str,
    of: &'static [Command],
) -> Opt {
    Opt {
        value: Some("WORD"),
        words,
        ..flag(name, about, of)
    }
}

/// All options.
pub const OPTIONS: &[Opt] = &[
    file("--names", "the words of properties, links and named descriptions", ALL),
    file("--pairs", "the list of properties that exclude each other", UNDER),
    file("--dictionary", "the dictionary of the descriptions that are named", NAMING),
    flag("--no-lab", "without the settings of laboratory.gx", ALL),
    flag("--json", "the answer for programs, one object on a line", ALL),
    Opt {
        short: Some('q'),
        ..flag("--quiet", "print nothing but what is wrong; the exit status answers", ALL)
    },
    flag("--recursive", "a folder stands for the files in its folders too", ALL),
    word("--from", &["blocks", "text", "stored"], "the inputs are 'blocks', 'text' or in the 'stored' form, whatever they look like", READING),
    word(
        "--sort",
        &["description", "specimen", "pairs", "dictionary", "services", "record"],
        "the input is a 'description', a 'specimen', a list of 'pairs' or of 'services', a 'dictionary' or a 'record'; of from-owl, write the \
         'description' or the 'pairs'",
        &[Show, Write, Check, FromOwl],
    ),
    word(
        "--to",
        &["text", "desk", "blocks", "stored"],
        "write 'text' (without this option), 'desk' (5,1 [3,2,1; 4,2,1]), 'blocks' or the shorter 'stored' form; write knows the last \
         two",
        TO,
    ),
    flag("--numbers", "in text, write each entry's number", TEXTS),
    Opt {
        short: Some('o'),
        ..file(
            "--out",
            "write into this file; for folders, into this folder",
            &[
                Show, Write, Normal, Keep, Missing, Narrowest, Hierarchy, Desk, Doubles, Unfold, Owl,
                FromOwl,
            ],
        )
    },
    file(
        "--svg",
        "draw the specimen; for folders, into this folder; of a hierarchy, draw the classes",
        &[Compare, Hierarchy],
    ),
    file(
        "--html",
        "write a page with the answer, of a field sheet that is shown a form for paper; for folders, and of a catalogue, into this folder, with an index",
        &[
            Show, Fit, Compare, Keep, Missing, Narrowest, Catalogue, Hierarchy, Delivered, Desk, Doubles,
        ],
    ),
    file(
        "--specimen",
        "write the specimen's blocks, where there is one; for folders, into this folder",
        &[Compare],
    ),
    flag("--whole", "draw each group of a large specimen", &[Compare]),
    flag(
        "--sheet",
        "the description has to be a field sheet, else it is refused (19); of a comparison the supplier's, of the narrowest both",
        &[Show, Check, Normal, Fit, Compare, Keep, Missing, Narrowest, Delivered],
    ),
    file(
        "--against",
        "after each step at the desk, and where it is shown, tell which services of this folder contain the draft",
        &[Desk],
    ),
    Opt {
        value: Some("N"),
        ..flag("--items", "how many items a record has that is given as blocks; blocks of which this is said are a record's", &[Show, Write, Check, Delivered])
    },
    flag("--all", "tell all entries that fail, not only the first", &[Compare]),
    flag("--why", "tell of each no which entry fails first", &[Catalogue]),
    word("--only", &["contained"], "tell only the services that contain the description", &[Catalogue]),
    flag("--csv", "write the whole table, a row for each service", &[Hierarchy]),
    flag("--dot", "write a graph for Graphviz", &[Hierarchy]),
    flag("--owl", "write an ontology with what was found, for a reasoner to agree with", &[Hierarchy]),
    flag("--any", "one service that contains the description is enough for a yes", &[Catalogue]),
    flag("--fact", "write the question in the notation of FaCT++", &[Owl]),
    Opt {
        value: Some("NAME"),
        ..flag("--class", "the class whose definition is read, where there are several", &[FromOwl])
    },
];
