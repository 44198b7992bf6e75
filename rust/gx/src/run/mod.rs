//! One run of the program: the inputs of the command line, one by one, and what is printed of each answer.

mod catalogue;
mod desk;
mod doubles;
mod folders;
mod hierarchy;
mod lock;
mod outputs;
mod print;
mod store;

use std::ffi::OsString;
use std::io::IsTerminal;
use std::path::{Path, PathBuf};

use crate::args::{self, Args, Command, Options, To};
use crate::commands::{Answer, Context, Extra, Status};
use crate::completions;
use crate::given::{self, Source};
use crate::help;
use crate::input::{bytes_of, names_of, title, Reading};
use crate::json::Json;
use crate::names::settled_json;
use crate::page;
use crate::settings;
use crate::trouble::Trouble;
use print::{complain, painted, print, printed, Fields};
use store::{store, store_in};

/// The exit status for wrong usage.
const USAGE: u8 = 64;

/// Does what the command line says, and returns the exit status.
pub fn run(args: &[OsString]) -> u8 {
    let shown = |text: String| printed(text.as_bytes(), Status::Yes).code();
    match args::read(args) {
        Ok(Args::Help(command)) => shown(command.map_or(help::all(), help::of)),
        Ok(Args::HelpOfCompletions) => shown(help::of_completions()),
        Ok(Args::Version) => shown(format!("{}\n", given::versions().replacen(", ", "\n", 1))),
        Ok(Args::Completions(shell)) => shown(completions::of(shell)),
        Ok(Args::Do(command, files, options)) => done(command, &files, *options),
        Err(wrong) => {
            let commands = match args.is_empty() {
                true => format!("\n{}", help::commands()),
                false => String::new(),
            };
            complain(&format!("gx: {wrong}\n\n{}{commands}", help::usage()));
            USAGE
        }
    }
}

fn done(command: Command, files: &[PathBuf], options: Options) -> u8 {
    let mut run = Run {
        command,
        context: Context {
            reading: Reading {
                form: options.from,
                ..Reading::default()
            },
            options,
            background: Default::default(),
            given: Default::default(),
        },
        settings: None,
        alike: matches!(files, [one, other] if title(one) == title(other)),
    };
    let folders = files.iter().any(|file| file.is_dir());
    let many = folders || (!command.takes_pair() && files.len() > 1);
    let begun = run.read_settings().and_then(|()| run.read_names());
    if let Err(trouble) = begun {
        complain(&format!("gx: {}", trouble.lines()));
        return trouble.status().code();
    }
    if let Some(wrong) = run.wrong_outputs(files) {
        complain(&format!("gx: {wrong}\n"));
        return USAGE;
    }
    if let Err(trouble) = run.read_background() {
        run.print_trouble(&trouble, many);
        return trouble.status().code();
    }
    run.tell_standard_input(files);
    match command {
        Command::Catalogue => run.catalogue(files),
        Command::Hierarchy => run.hierarchy(files),
        Command::Desk => run.desk(files),
        Command::Doubles => run.doubles(files),
        _ if many => run.lines(files),
        _ => run.alone(files),
    }
}

struct Run {
    command: Command,
    context: Context,
    /// The file of the settings.
    settings: Option<PathBuf>,
    /// Two inputs have the same name, and only their folders tell them apart. Else no folder is printed as a part of an answer.
    alike: bool,
}

impl Run {
    fn options(&self) -> &Options {
        &self.context.options
    }

    /// Whether what is printed is an answer in words, and not data.
    fn tells(&self) -> bool {
        let Options { csv, dot, owl, .. } = self.options();
        let data = *csv || *dot || *owl;
        self.command.answers() && !data
    }

    /// The answer for one input, or for two.
    fn alone(&self, files: &[PathBuf]) -> u8 {
        let to = self.options().to;
        let blocks = self.command == Command::Write || matches!(to, Some(To::Blocks | To::Stored));
        if blocks && self.to_terminal() {
            complain("gx: blocks are not for a terminal; --out FILE writes them into a file\n");
            return USAGE;
        }
        let files: Vec<&Path> = files.iter().map(PathBuf::as_path).collect();
        self.one(&files).code()
    }

    /// Whether what --out is for is not the answer itself.
    fn writes_beside(&self) -> bool {
        matches!(self.command, Command::Keep | Command::Missing)
    }

    fn to_terminal(&self) -> bool {
        let options = self.options();
        options.out.is_none() && !options.json && std::io::stdout().is_terminal()
    }

    /// Takes the laboratory's settings, where there are any and they are not ruled out.
    fn read_settings(&mut self) -> Result<(), Trouble> {
        let Context { options, given, .. } = &mut self.context;
        let found = match options.no_lab {
            true => None,
            false => settings::found(),
        };
        if let Some(path) = found {
            let bytes = bytes_of(&path)?;
            given.settings = Some(Source::new(&path, &bytes));
            let settings = settings::of(&path, &bytes)?;
            settings.complete(options, self.command);
            self.settings = Some(path);
        }
        Ok(())
    }

    fn read_names(&mut self) -> Result<(), Trouble> {
        if let Some(path) = &self.context.options.names {
            let bytes = bytes_of(path)?;
            self.context.given.names = Some(Source::new(path, &bytes));
            self.context.reading.names = names_of(path, &bytes)?;
        }
        Ok(())
    }

    /// Reads the list and the dictionary that all answers are about, if they are given. The words that a dictionary gives its
    /// descriptions are known in every input.
    fn read_background(&mut self) -> Result<(), Trouble> {
        let Context {
            options,
            reading,
            background,
            given,
        } = &mut self.context;
        if let Some(path) = &options.pairs {
            let bytes = bytes_of(path)?;
            given.pairs = Some(Source::new(path, &bytes));
            background.list = reading.list_of(path, bytes)?;
        }
        if let Some(path) = &options.dictionary {
            let bytes = bytes_of(path)?;
            given.dictionary = Some(Source::new(path, &bytes));
            background.dictionary = reading.dictionary_of(path, bytes)?;
            let words = &background.dictionary.names;
            let joined = reading.names.join_descriptions(words);
            joined.map_err(Trouble::Words)?;
        }
        for words in [&background.list.names, &background.dictionary.names] {
            background.names.join(words).map_err(Trouble::Words)?;
        }
        Ok(())
    }

    /// Tells somebody at a terminal that the program waits for what is typed.
    fn tell_standard_input(&self, files: &[PathBuf]) {
        let waits = self.read(files).any(|file| file.as_os_str() == "-");
        if waits && std::io::stdin().is_terminal() {
            complain("gx: reads standard input; Ctrl-D ends it, and gx --help tells more\n");
        }
    }

    /// An answer for programs, with what it is given under.
    fn object(&self, mut fields: Fields) -> String {
        fields.push(("given", self.context.given.json()));
        format!("{}\n", Json::Object(fields))
    }

    /// One answer, in full.
    fn one(&self, files: &[&Path]) -> Status {
        let answer = self.context.answer(self.command, files);
        let answer = answer.and_then(|answer| {
            self.store_extras(&answer, None)?;
            Ok(answer)
        });
        match answer {
            Ok(answer) => self.print_one(answer),
            Err(trouble) => {
                self.print_trouble(&trouble, false);
                trouble.status()
            }
        }
    }

    fn print_one(&self, answer: Answer) -> Status {
        // What is told in words is printed also where a description is written beside it.
        let out = self.options().out.as_ref();
        let out = out.filter(|_| !self.writes_beside());
        if let Some(out) = out {
            if let Err(trouble) = store(out, &answer.full) {
                self.print_trouble(&trouble, false);
                return trouble.status();
            }
        }
        if self.options().json {
            let mut fields = answer.json;
            if !answer.notes.is_empty() {
                fields.push(("settled", settled_json(&answer.notes)));
            }
            return self.printed(self.object(fields).as_bytes(), answer.status);
        }
        let notes = answer.notes.iter();
        let notes: String = notes.map(|told| told.settled() + "\n").collect();
        let mut full = answer.full;
        if self.tells() {
            let blank = if notes.is_empty() { "" } else { "\n" };
            let given = self.context.given.line();
            let text = painted(answer.status, &String::from_utf8_lossy(&full));
            full = format!("{text}{blank}{notes}\n{given}").into_bytes();
        } else if !notes.is_empty() {
            // What is printed is data.
            complain(&format!("gx: {notes}"));
        }
        match out {
            Some(_) => answer.status,
            None => self.printed(&full, answer.status),
        }
    }

    /// Prints, unless nothing is to be printed.
    fn printed(&self, bytes: &[u8], status: Status) -> Status {
        match self.options().quiet {
            true => status,
            false => printed(bytes, status),
        }
    }

    /// What keeps one input from an answer, or all of many.
    fn print_trouble(&self, trouble: &Trouble, many: bool) {
        if !many {
            self.store_refused(trouble, None);
        }
        let told = matches!(
            trouble,
            Trouble::Mistake { .. } | Trouble::Words(_) | Trouble::Refused(_)
        );
        if self.options().json {
            print(self.object(trouble.json()).as_bytes());
        } else if self.tells() && told {
            let lines = match self.alike || matches!(trouble, Trouble::Mistake { .. }) {
                true => trouble.lines(),
                false => trouble.titled_lines(),
            };
            let given = self.context.given.line();
            print(format!("{}\n{given}", painted(Status::Bad, &lines)).as_bytes());
        } else {
            complain(&format!("gx: {}", trouble.lines()));
        }
    }

    /// Writes the drawing, the page and the specimen; into folders where there are several answers.
    fn store_extras(&self, answer: &Answer, name: Option<&str>) -> Result<(), Trouble> {
        for (extra, bytes) in &answer.extras {
            let (path, ending) = match extra {
                Extra::Html => (&self.options().html, "html"),
                Extra::Svg => (&self.options().svg, "svg"),
                Extra::Specimen => (&self.options().specimen, "blocks"),
                Extra::Out => (&self.options().out, "txt"),
            };
            match (path, name) {
                (Some(path), None) => store(path, bytes)?,
                (Some(folder), Some(name)) => {
                    store_in(&folder.join(format!("{name}.{ending}")), bytes)?;
                }
                (None, _) => (),
            }
        }
        Ok(())
    }

    /// Writes a page that says why there is no answer, so that no older page is taken for one.
    fn store_refused(&self, trouble: &Trouble, name: Option<&str>) {
        let Some(path) = &self.options().html else {
            return;
        };
        if matches!(trouble, Trouble::Unwritten { .. }) {
            // The page may be what could not be written.
            return;
        }
        let page = page::refused(trouble, &self.context.given);
        let stored = match name {
            None => store(path, page.as_bytes()),
            Some(name) => store_in(&path.join(format!("{name}.html")), page.as_bytes()),
        };
        if let Err(trouble) = stored {
            complain(&format!("gx: {}", trouble.lines()));
        }
    }
}
