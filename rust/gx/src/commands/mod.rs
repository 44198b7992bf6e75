//! What each command answers. A command knows nothing of folders, terminals and exit statuses: see [`crate::run`].

mod catalogue;
mod check;
mod compare;
mod delivered;
mod dictionary;
mod doubles;
mod fit;
mod held;
mod hierarchy;
mod keep;
mod list;
mod missing;
mod narrowest;
mod normal;
mod owl;
mod services;
mod show;
mod unfold;

use std::path::Path;

use crate::args::{Command, Content, Options, To};
use crate::background::Background;
use crate::delivered::Delivered;
use crate::dictionary::Naming;
use crate::entry::{Entry, Sort};
use crate::given::Given;
use crate::input::{bytes_of, not_refused, Form, Input, Reading};
use crate::json::Json;
use crate::library::{self, Reason};
use crate::names::{Conflict, Names};
use crate::readback;
use crate::stored;
use crate::text::{self, Numbers};
use crate::trouble::Trouble;

pub use catalogue::{Contained, Service};
pub use delivered::Unmet;
use held::Held;

/// How an answer ends the program.
#[derive(Clone, Copy, Debug, PartialEq, Eq, PartialOrd, Ord)]
pub enum Status {
    /// Yes, contained, accepted, done.
    Yes,
    /// No, not contained.
    No,
    /// Refused, or a mistake in the input.
    Bad,
    /// An error of this program.
    Fault,
}

impl Status {
    /// The exit status.
    pub fn code(self) -> u8 {
        match self {
            Status::Yes => 0,
            Status::No => 1,
            Status::Bad => 2,
            Status::Fault => 70,
        }
    }
}

/// What is written into files of their own.
#[derive(Clone, Copy, Debug, PartialEq, Eq)]
pub enum Extra {
    /// The page.
    Html,
    /// The drawing.
    Svg,
    /// The blocks of the specimen.
    Specimen,
    /// What --out is for beside an answer in words.
    Out,
}

/// What a command answers.
#[derive(Clone, Debug)]
pub struct Answer {
    /// How it ends.
    pub status: Status,
    /// On one line.
    pub line: String,
    /// In full: words or data.
    pub full: Vec<u8>,
    /// What the file for the data is called after its input.
    pub ending: &'static str,
    /// For programs.
    pub json: Vec<(&'static str, Json)>,
    /// What goes into files of its own.
    pub extras: Vec<(Extra, Vec<u8>)>,
    /// The words in place of which those of the names file are shown.
    pub notes: Vec<Conflict>,
}

impl Answer {
    /// The answer, with what these names settled.
    fn noted(mut self, names: &Names) -> Answer {
        self.notes = names.settled().to_vec();
        self
    }
}

/// What a command is to know.
#[derive(Clone, Debug)]
pub struct Context {
    /// The options.
    pub options: Options,
    /// How inputs are read.
    pub reading: Reading,
    /// The properties that exclude each other and the named descriptions; none where no list and no dictionary is given.
    pub background: Background,
    /// The files that it is given under.
    pub given: Given,
}

/// A file that is read alone.
enum Alone {
    /// A description or a specimen.
    Entries(Input),
    /// A list, a dictionary or a record.
    Held(Box<dyn Held>),
}

impl Alone {
    fn held(of: impl Held + 'static) -> Alone {
        Alone::Held(Box::new(of))
    }
}

impl Context {
    /// Answers a command for one input, or for two.
    ///
    /// # Errors
    ///
    /// What keeps an input from an answer.
    pub fn answer(&self, command: Command, files: &[&Path]) -> Result<Answer, Trouble> {
        match (command, files) {
            (Command::Show, &[file]) => show::show(self, file),
            (Command::Write, &[file]) => show::write(self, file),
            (Command::Check, &[file]) => check::check(self, file),
            (Command::Normal, &[file]) => normal::normal(self, file),
            (Command::Unfold, &[file]) => unfold::unfold(self, file),
            (Command::FromOwl, &[file]) => owl::from_owl(self, file),
            (Command::Fit, &[specimen, description]) => fit::fit(self, specimen, description),
            (Command::Compare, &[c, d]) => compare::compare(self, c, d),
            (Command::Keep, &[c, d]) => keep::keep(self, c, d),
            (Command::Missing, &[c, d]) => missing::missing(self, c, d),
            (Command::Narrowest, &[a, b]) => narrowest::narrowest(self, a, b),
            (Command::Delivered, &[record, d]) => delivered::delivered(self, record, d),
            (Command::Owl, [c, services @ ..]) => owl::owl(self, c, services),
            _ => Err(Trouble::File {
                file: command.word().into(),
                why: "wrong number of inputs".into(),
            }),
        }
    }

    /// What a file holds, where its heading, or else the ending of its name, tells that it is a list or a dictionary.
    fn told(&self, file: &Path, bytes: &[u8]) -> Option<Content> {
        let words = [
            (text::PAIRS, Content::Pairs),
            (text::DICTIONARY, Content::Dictionary),
            (text::SERVICES, Content::Services),
            (text::RECORD, Content::Record),
        ];
        let headed = |word| self.reading.is_headed(bytes, word);
        let ended = |word| file.extension().is_some_and(|ending| ending == word);
        let table = std::str::from_utf8(bytes).is_ok_and(text::is_table);
        if table && self.reading.form_of(bytes) == Form::Text {
            return Some(Content::Record);
        }
        let by_heading = words.iter().find(|&&(word, _)| headed(word));
        let told = by_heading.or_else(|| words.iter().find(|&&(word, _)| ended(word)));
        told.map(|&(_, content)| content)
    }

    /// A file of any sort: a list or a dictionary where the options, its heading or its ending say so. A description may
    /// name what the dictionary has; without one, these.
    fn alone(&self, file: &Path, naming: Naming<'_>) -> Result<Alone, Trouble> {
        let reading = &self.reading;
        let bytes = bytes_of(file)?;
        let sheet = self
            .options
            .sheet
            .then_some(Content::Entries(Sort::Description));
        let said = sheet.or(self.options.sort);
        let said = said.or_else(|| self.told(file, &bytes));
        // Only of a record is it said how many items its blocks have.
        let counted = self.options.items.is_some() && reading.form_of(&bytes) != Form::Text;
        let sort = match said.or(counted.then_some(Content::Record)) {
            Some(Content::Pairs) => return reading.list_of(file, bytes).map(Alone::held),
            Some(Content::Dictionary) => {
                let read = reading.dictionary_of(file, bytes);
                return read.map(Alone::held);
            }
            Some(Content::Services) => {
                let mut read = reading.services_of(file, bytes, self.naming(naming))?;
                let joined = read.names.join(&self.background.names);
                joined.map_err(Trouble::Words)?;
                return Ok(Alone::held(read));
            }
            Some(Content::Record) => return self.record(file, bytes).map(Alone::held),
            Some(Content::Entries(sort)) => Some(sort),
            None => None,
        };
        let naming = self.naming(naming);
        let read = reading.input_of(file, bytes, sort, 1, naming)?;
        self.worded(read).map(Alone::Entries)
    }

    /// The bytes of a file as a delivered record.
    fn record(&self, file: &Path, bytes: Vec<u8>) -> Result<Delivered, Trouble> {
        let under = self.background.list.under();
        let mut read = self
            .reading
            .record(file, bytes, self.options.items, under)?;
        let joined = read.names.join(&self.background.names);
        joined.map_err(Trouble::Words)?;
        Ok(read)
    }

    /// What a description may name: what the dictionary has; without one, these.
    fn naming<'a>(&'a self, without: Naming<'a>) -> Naming<'a> {
        match self.options.dictionary {
            _ if self.options.sheet => Naming::Sheet,
            Some(_) => Naming::All(&self.background.dictionary),
            None => without,
        }
    }

    /// A description, the call's input of this number, once unfolded.
    ///
    /// # Errors
    ///
    /// What keeps the input from an answer.
    pub fn description(&self, file: &Path, input: u16) -> Result<Input, Trouble> {
        self.description_of(file, bytes_of(file)?, input)
    }

    /// The same for the bytes of that file.
    fn description_of(&self, file: &Path, bytes: Vec<u8>, input: u16) -> Result<Input, Trouble> {
        let naming = Naming::All(&self.background.dictionary);
        self.described(file, bytes, input, naming)
    }

    /// The same for a description of a supplier, which has to be a field sheet where the options say so.
    fn supplied(&self, file: &Path, input: u16) -> Result<Input, Trouble> {
        let naming = self.naming(Naming::All(&self.background.dictionary));
        self.described(file, bytes_of(file)?, input, naming)
    }

    fn described(
        &self,
        file: &Path,
        bytes: Vec<u8>,
        input: u16,
        naming: Naming<'_>,
    ) -> Result<Input, Trouble> {
        let sort = Some(Sort::Description);
        self.unfolded(
            file,
            self.reading.input_of(file, bytes, sort, input, naming)?,
        )
    }

    /// An accepted description with all words, once unfolded.
    fn unfolded(&self, file: &Path, read: Input) -> Result<Input, Trouble> {
        let unfolded = self.worded(read)?.unfolded(&self.background.dictionary);
        unfolded.map_err(|refusal| not_refused(file, refusal))
    }

    /// The input with the words of the list and of the dictionary, if these go with its own.
    fn worded(&self, mut input: Input) -> Result<Input, Trouble> {
        let joined = input.names.join(&self.background.names);
        joined.map_err(Trouble::Words)?;
        Ok(input)
    }

    /// Which entries are written with their numbers.
    fn numbers(&self) -> Numbers {
        match self.options.numbers {
            true => Numbers::All,
            false => Numbers::WhereNeeded,
        }
    }

    /// Entries in the form that the options ask for, and the ending of a file that holds it.
    fn written(&self, of: Written<'_>) -> Result<(Vec<u8>, &'static str), Trouble> {
        Ok(match self.options.to.unwrap_or(To::Text) {
            To::Text => {
                let text = text::text(of.sort, of.entries, of.names, self.numbers());
                (of.read_back(text)?.into_bytes(), "txt")
            }
            To::Desk => ((of.desk()? + "\n").into_bytes(), "txt"),
            To::Blocks => (crate::blocks::encode(of.entries), "blocks"),
            To::Stored => (of.stored()?, stored::ENDING),
        })
    }
}

/// Entries that are written.
#[derive(Clone, Copy)]
struct Written<'a> {
    sort: Sort,
    entries: &'a [Entry],
    names: &'a Names,
    /// The file that they come from.
    title: &'a str,
}

impl<'a> Written<'a> {
    /// The entries of an input.
    fn of(input: &'a Input) -> Written<'a> {
        Written {
            sort: input.sort,
            entries: &input.entries,
            names: &input.names,
            title: &input.title,
        }
    }

    /// The stored form, which specimens do not have, nor descriptions that name others.
    fn stored(self) -> Result<Vec<u8>, Trouble> {
        let why = |why: &str| Trouble::Unwritten {
            file: self.title.into(),
            why: why.into(),
        };
        if self.sort == Sort::Specimen {
            return Err(why(
                "only descriptions have a stored form, and this is a specimen",
            ));
        }
        let stored = library::to_stored(&crate::blocks::encode(self.entries));
        stored.map_err(|refusal| match refusal.reason {
            Reason::Form => why("it names descriptions, which the stored form does not have; gx unfold puts them in"),
            _ => why(&refusal.to_string()),
        })
    }

    /// The line in desk notation.
    fn desk(self) -> Result<String, Trouble> {
        self.read_back(text::desk(self.sort, self.entries))
    }

    fn read_back(self, text: String) -> Result<String, Trouble> {
        readback::entries(text, self.sort, self.entries, self.names, self.title)
    }
}

/// The words of two inputs of a call, if they go together.
fn words_of(one: &Input, other: &Input) -> Result<Names, Trouble> {
    let mut names = one.names.clone();
    names.join(&other.names).map_err(Trouble::Words)?;
    Ok(names)
}

/// The entries for programs.
pub(crate) fn entries_json(entries: &[Entry], names: &Names) -> Json {
    let list = (1..).zip(entries).map(|(number, e)| {
        let says = e.says();
        let mut fields = vec![
            ("entry", Json::number(number)),
            ("kind", Json::number(e.kind.into())),
            ("owner", Json::number(e.owner.into())),
        ];
        if let Some(property) = says.property() {
            fields.push(("property", Json::number(property.0.into())));
            fields.push(("word", names.property(property).into()));
        }
        if let Some(named) = says.named() {
            fields.push(("description", Json::number(named.0.into())));
            fields.push(("word", names.description(named).into()));
        }
        if let Some(link) = says.link() {
            fields.push(("link", Json::number(link.0.into())));
            fields.push(("word", names.link(link).into()));
        }
        match e.kind {
            3 | 4 => fields.push(("number", Json::number(e.number.into()))),
            7 => fields.push(("count", Json::number(usize::from(e.number) + 1))),
            _ => (),
        }
        Json::Object(fields)
    });
    Json::List(list.collect())
}
