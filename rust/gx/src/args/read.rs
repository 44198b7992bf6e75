//! The words of the command line as what is to be done.

use std::ffi::{OsStr, OsString};
use std::path::PathBuf;

use super::{Args, Command, Content, Opt, Options, Shell, To};
use crate::entry::Sort;
use crate::input::Form;
use crate::shown::file_name;
use crate::suggest::meant;

/// Reads the command line, without the program's own name.
///
/// # Errors
///
/// What is wrong with it, in words.
pub fn read(args: &[OsString]) -> Result<Args, String> {
    let Some((first, rest)) = args.split_first() else {
        return Err("a command is missing".into());
    };
    match first.to_str() {
        Some("--help" | "-h") => return Ok(Args::Help(None)),
        Some("--version" | "-V") => return Ok(Args::Version),
        Some("help") => return help(rest),
        Some("completions") => return completions(rest),
        _ => (),
    }
    Line::new(command(first)?, rest).read()
}

fn command(word: &OsStr) -> Result<Command, String> {
    let found = word.to_str().and_then(Command::called);
    found.ok_or_else(|| {
        let word = word.to_string_lossy();
        let known = Command::ALL.map(Command::word);
        let known = known.into_iter().chain(["help", "completions"]);
        let meant = meant(&word, known);
        format!("there is no command '{}'{meant}", file_name(&word))
    })
}

fn help(rest: &[OsString]) -> Result<Args, String> {
    match rest {
        [] => Ok(Args::Help(None)),
        [word] if word == "completions" => Ok(Args::HelpOfCompletions),
        [word] => Ok(Args::Help(Some(command(word)?))),
        _ => Err("help takes one command".into()),
    }
}

fn completions(rest: &[OsString]) -> Result<Args, String> {
    let [shell] = rest else {
        return Err("completions takes one of bash, zsh and fish".into());
    };
    if shell == "--help" || shell == "-h" {
        return Ok(Args::HelpOfCompletions);
    }
    let shells = [
        ("bash", Shell::Bash),
        ("zsh", Shell::Zsh),
        ("fish", Shell::Fish),
    ];
    one_of("completions", shell, &shells).map(Args::Completions)
}

/// The words after the command.
struct Line<'a> {
    command: Command,
    rest: std::slice::Iter<'a, OsString>,
    files: Vec<PathBuf>,
    options: Options,
    /// The options with a value that were given.
    given: Vec<&'static str>,
}

impl<'a> Line<'a> {
    fn new(command: Command, rest: &'a [OsString]) -> Line<'a> {
        Line {
            command,
            rest: rest.iter(),
            files: Vec::new(),
            options: Options::default(),
            given: Vec::new(),
        }
    }

    fn read(mut self) -> Result<Args, String> {
        while let Some(word) = self.rest.next() {
            match word.to_str() {
                Some("--help" | "-h") => return Ok(Args::Help(Some(self.command))),
                Some("--") => self.files.extend(self.rest.by_ref().map(PathBuf::from)),
                Some(option) if option.starts_with("--") => self.option(option)?,
                Some(option) if option.starts_with('-') && option != "-" => self.letter(option)?,
                _ => self.files.push(word.into()),
            }
        }
        self.counted()
    }

    /// Whether there are as many files as the command takes, and whether the options go together.
    fn counted(self) -> Result<Args, String> {
        self.enough()?;
        self.together()?;
        let mut files = self.files;
        if files.is_empty() {
            files.push("-".into());
        }
        let Options {
            names,
            pairs,
            dictionary,
            ..
        } = &self.options;
        let read = files.iter().chain(names).chain(pairs).chain(dictionary);
        let stdin = read.filter(|file| file.as_os_str() == "-");
        if stdin.count() > 1 {
            return Err("standard input can be read once only".into());
        }
        Ok(Args::Do(self.command, files, Box::new(self.options)))
    }

    fn enough(&self) -> Result<(), String> {
        let (word, count) = (self.command.word(), self.files.len());
        let given = match count {
            1 => "1 is given".into(),
            _ => format!("{count} are given"),
        };
        if self.command == Command::Desk && count == 0 {
            return Err("desk takes the file of a desk".into());
        }
        if self.command == Command::Desk && self.files[0].as_os_str() == "-" {
            return Err("a desk is a file; its steps are read from standard input".into());
        }
        let catalogue = self.command == Command::Owl && count > 2;
        if self.command.takes_pair() && count != 2 && !catalogue {
            return Err(format!("{word} takes two inputs, and {given}"));
        }
        if self.command == Command::Catalogue && count < 2 {
            return Err(format!("{word} takes two inputs or more, and {given}"));
        }
        Ok(())
    }

    fn together(&self) -> Result<(), String> {
        let options = &self.options;
        let sort = options.sort.unwrap_or(Content::Entries(Sort::Description));
        if options.sheet && sort != Content::Entries(Sort::Description) {
            return Err("a field sheet is a description; --sort says something else".into());
        }
        let written = [None, Some(To::Blocks), Some(To::Stored)];
        if self.command == Command::Write && !written.contains(&options.to) {
            return Err("write writes blocks or the stored form; gx show writes text".into());
        }
        let forms = [
            ("--csv", options.csv),
            ("--dot", options.dot),
            ("--owl", options.owl),
        ];
        let forms = forms.iter().filter(|form| form.1).map(|form| form.0);
        let forms: Vec<&str> = forms.collect();
        match forms.as_slice() {
            [one, other, ..] => Err(format!(
                "{one} and {other} are two forms of one answer; one of them can be written"
            )),
            _ => Ok(()),
        }
    }

    /// `-q`, or `-o FILE` and `-oFILE`.
    fn letter(&mut self, word: &str) -> Result<(), String> {
        let mut signs = word[1..].chars();
        let option = signs.next().and_then(Opt::of_letter);
        let joined = signs.as_str();
        match option {
            Some(option) => self.known(option, Some(joined).filter(|value| !value.is_empty())),
            None => Err(format!("there is no option '{}'", file_name(word))),
        }
    }

    fn option(&mut self, word: &str) -> Result<(), String> {
        let (name, joined) = match word.split_once('=') {
            Some((name, value)) => (name, Some(value)),
            None => (word, None),
        };
        match Opt::called(name) {
            Some(option) => self.known(option, joined),
            None => {
                let known = self.command.options().map(|option| option.name);
                let meant = meant(name, known.chain(["--help"]));
                let command = self.command.word();
                Err(format!(
                    "{command} has no option '{}'{meant}",
                    file_name(name)
                ))
            }
        }
    }

    fn known(&mut self, option: &'static Opt, joined: Option<&str>) -> Result<(), String> {
        let name = option.name;
        if !option.of.contains(&self.command) {
            let of: Vec<&str> = option.of.iter().map(|command| command.word()).collect();
            let command = self.command.word();
            return Err(format!(
                "{command} has no option '{name}'; {} has",
                of.join(", ")
            ));
        }
        if option.value.is_none() {
            return match joined {
                None => self.flagged(name),
                Some(_) => Err(format!("{name} takes no value")),
            };
        }
        if self.given.contains(&name) {
            return Err(format!("{name} is given twice"));
        }
        self.given.push(name);
        let value = match joined {
            Some(value) => value.into(),
            None => self
                .rest
                .next()
                .ok_or(format!("{name} takes a value"))?
                .clone(),
        };
        self.valued(name, value)
    }

    fn flagged(&mut self, name: &str) -> Result<(), String> {
        let options = &mut self.options;
        let flag = match name {
            "--json" => &mut options.json,
            "--numbers" => &mut options.numbers,
            "--whole" => &mut options.whole,
            "--all" => &mut options.all,
            "--sheet" => &mut options.sheet,
            "--recursive" => &mut options.recursive,
            "--no-lab" => &mut options.no_lab,
            "--quiet" => &mut options.quiet,
            "--why" => &mut options.why,
            "--fact" => &mut options.fact,
            "--csv" => &mut options.csv,
            "--dot" => &mut options.dot,
            "--owl" => &mut options.owl,
            _ => &mut options.any,
        };
        *flag = true;
        Ok(())
    }

    fn valued(&mut self, name: &str, value: OsString) -> Result<(), String> {
        let options = &mut self.options;
        match name {
            "--names" => options.names = Some(value.into()),
            "--pairs" => options.pairs = Some(value.into()),
            "--dictionary" => options.dictionary = Some(value.into()),
            "--out" => options.out = Some(value.into()),
            "--svg" => options.svg = Some(value.into()),
            "--html" => options.html = Some(value.into()),
            "--specimen" => options.specimen = Some(value.into()),
            "--against" => options.against = Some(value.into()),
            "--items" => options.items = Some(count(name, &value)?),
            "--class" => options.class = Some(value.to_string_lossy().into_owned()),
            "--from" => options.from = Some(one_of(name, &value, FORMS)?),
            "--only" => options.only_contained = one_of(name, &value, ONLY)?,
            "--sort" => {
                let sorts = match self.command {
                    Command::FromOwl => SORTS_FROM_OWL,
                    _ => SORTS,
                };
                options.sort = Some(one_of(name, &value, sorts)?);
            }
            _ => options.to = Some(one_of(name, &value, TARGETS)?),
        }
        Ok(())
    }
}

const FORMS: &[(&str, Form)] = &[
    ("blocks", Form::Blocks),
    ("text", Form::Text),
    ("stored", Form::Stored),
];
const ONLY: &[(&str, bool)] = &[("contained", true)];
const SORTS: &[(&str, Content)] = &[
    ("description", Content::Entries(Sort::Description)),
    ("specimen", Content::Entries(Sort::Specimen)),
    ("pairs", Content::Pairs),
    ("dictionary", Content::Dictionary),
    ("services", Content::Services),
    ("record", Content::Record),
];
const SORTS_FROM_OWL: &[(&str, Content)] = &[
    ("description", Content::Entries(Sort::Description)),
    ("pairs", Content::Pairs),
];
const TARGETS: &[(&str, To)] = &[
    ("text", To::Text),
    ("desk", To::Desk),
    ("blocks", To::Blocks),
    ("stored", To::Stored),
];

fn count(option: &str, value: &OsStr) -> Result<usize, String> {
    let read = value.to_str().and_then(|value| value.parse().ok());
    read.ok_or_else(|| format!("{option} takes a number"))
}

fn one_of<T: Copy>(option: &str, value: &OsStr, list: &[(&str, T)]) -> Result<T, String> {
    let found = list.iter().find(|(word, _)| value == *word);
    found.map(|&(_, value)| value).ok_or_else(|| {
        let words: Vec<&str> = list.iter().map(|(word, _)| *word).collect();
        let meant = meant(&value.to_string_lossy(), words.iter().copied());
        format!("{option} takes {}{meant}", words.join(" or "))
    })
}
