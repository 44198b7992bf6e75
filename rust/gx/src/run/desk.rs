//! The run of a drafting desk: steps on a file that is its bytes, from the command line or from standard input.

use std::fs;
use std::io::{self, BufRead, BufReader, IsTerminal, Stdin};
use std::path::{Path, PathBuf};

use super::lock::lock;
use super::print::{complain, print, Fields};
use super::store::{store, with_ending};
use super::{Run, USAGE};
use crate::args::To;
use crate::blocks;
use crate::commands::{entries_json, Status};
use crate::dictionary::Naming;
use crate::draft::{self, asked, stands, Asked};
use crate::entry::{Entry, Sort};
use crate::input::{named, not_refused, title, unreadable, Input};
use crate::json::Json;
use crate::library::{self, Desk, Reason, Refusal, Step, MOST_SERVICES};
use crate::page::{self, Drafted};
use crate::refused;
use crate::shown::file_name;
use crate::text::{self, Numbers};
use crate::trouble::{Refused, Trouble};
use crate::words;

/// How the file ends that has the desk before the last step.
pub(super) const BEFORE: &str = "~";
/// The bytes of steps that are read at once.
const READ: usize = 1 << 16;

/// A desk and the file that keeps it.
struct Kept<'a> {
    file: &'a Path,
    desk: Desk,
    /// The desk before the last step, where that is not stored yet.
    before: Option<Desk>,
    /// What the steps answered that are not stored yet.
    told: Vec<String>,
    /// The file could not be written, and no more steps are made.
    unwritten: bool,
    /// The services that the draft is compared with.
    against: Vec<(String, Vec<u8>)>,
    /// How reading these ended.
    read: Status,
}

impl Run {
    /// A step of the command line, or those of standard input line by line.
    pub(super) fn desk(&self, files: &[PathBuf]) -> u8 {
        let Some((file, step)) = files.split_first() else {
            return USAGE;
        };
        let begun = lock(file).and_then(|lock| Ok((lock, self.kept(file)?)));
        let (_lock, mut kept) = match begun {
            Ok(begun) => begun,
            Err(trouble) => {
                let of_file = matches!(trouble, Trouble::File { .. });
                self.print_trouble(&trouble, of_file);
                return trouble.status().code();
            }
        };
        let mut said = match step {
            [] => self.desk_lines(&mut kept),
            _ => {
                let words: Vec<String> =
                    step.iter().map(|word| word.display().to_string()).collect();
                self.desk_line(&mut kept, &words.join(" "))
            }
        };
        said = said.max(self.settled(&mut kept));
        if kept.unwritten {
            // A page would show what no file has.
            return said.code();
        }
        let paged = self.paged(&kept).unwrap_or_else(|trouble| {
            self.print_trouble(&trouble, true);
            trouble.status()
        });
        said.max(paged).max(kept.read).code()
    }

    /// The steps of standard input, line by line. The desk is stored before more of them are waited for.
    fn desk_lines(&self, kept: &mut Kept<'_>) -> Status {
        if io::stdin().is_terminal() {
            complain("gx: reads steps, a line each; Ctrl-D ends it, and gx desk --help tells which there are\n");
        }
        let mut steps = BufReader::with_capacity(READ, io::stdin());
        let mut worst = Status::Yes;
        while !kept.unwritten {
            let line = match next_line(&mut steps) {
                Ok(Some(line)) => line,
                Ok(None) => break,
                Err(wrong) => {
                    worst = worst.max(self.settled(kept)).max(Status::Bad);
                    self.mistaken_step(kept, &wrong);
                    continue;
                }
            };
            if !draft::step(&line).is_empty() {
                worst = worst.max(self.desk_line(kept, &line));
            }
            if !steps.buffer().contains(&b'\n') {
                worst = worst.max(self.settled(kept));
            }
        }
        worst
    }

    /// Stores the desk where steps altered it, and only then tells what they answered: the desk before the last of them in a file
    /// beside, and the new one whole or not at all.
    fn settled(&self, kept: &mut Kept<'_>) -> Status {
        let told = std::mem::take(&mut kept.told);
        let Some(before) = kept.before.take() else {
            return Status::Yes;
        };
        let beside = match kept.file.exists() || told.len() > 1 {
            true => store(&beside(kept.file), before.bytes()),
            false => Ok(()),
        };
        match beside.and_then(|()| store(kept.file, kept.desk.bytes())) {
            Ok(()) => self.printed(told.concat().as_bytes(), Status::Yes),
            Err(trouble) => {
                kept.unwritten = true;
                self.print_trouble(&trouble, true);
                trouble.status()
            }
        }
    }

    /// Tells what is wrong with the words of a step.
    fn mistaken_step(&self, kept: &Kept<'_>, wrong: &str) {
        match self.options().json {
            true => {
                let fields = vec![
                    ("answer", Json::text("mistake")),
                    ("of", Json::text(title(kept.file))),
                    ("words", Json::text(wrong)),
                ];
                print(self.object(fields).as_bytes());
            }
            false => complain(&format!("gx: {wrong}\n")),
        }
    }

    /// The desk of a file; where there is none, the empty one.
    fn kept<'a>(&self, file: &'a Path) -> Result<Kept<'a>, Trouble> {
        let desk = match fs::read(file) {
            Ok(bytes) => Desk::from_bytes(&bytes),
            Err(error) if error.kind() == io::ErrorKind::NotFound => Desk::new(),
            Err(error) => return Err(unreadable(file, &error)),
        };
        let mut kept = Kept {
            file,
            desk,
            before: None,
            told: Vec::new(),
            unwritten: false,
            against: Vec::new(),
            read: Status::Yes,
        };
        held(&kept)?;
        self.read_against(&mut kept)?;
        Ok(kept)
    }

    /// The services that the draft is compared with. One that is refused is told, and stops none of the others.
    fn read_against(&self, kept: &mut Kept<'_>) -> Result<(), Trouble> {
        let Some(folder) = &self.options().against else {
            return Ok(());
        };
        let (services, worst) = self.services(std::slice::from_ref(folder))?;
        kept.read = worst;
        for (service, read) in services.iter().zip(self.context.each_alone(&services)) {
            match read {
                Ok(input) => {
                    let blocks = blocks::encode(&input.entries);
                    kept.against.push((service.told(), blocks));
                }
                Err(trouble) => kept.read = kept.read.max(self.passed_over(&trouble)),
            }
        }
        Ok(())
    }

    fn desk_line(&self, kept: &mut Kept<'_>, line: &str) -> Status {
        let asked = asked(line, &self.context.reading.names);
        let step = match &asked {
            Ok(Asked::Step(step)) => self.step(kept, *step),
            _ => Ok(()),
        };
        if matches!((&asked, &step), (Ok(Asked::Step(_)), Ok(()))) {
            return Status::Yes;
        }
        // What is told is told in the order of the steps.
        let settled = self.settled(kept);
        let said = step.and_then(|()| match asked {
            Ok(Asked::Show) => self.shown(kept),
            Ok(Asked::Write) => self.written(kept),
            Ok(Asked::Step(_)) => Ok(Status::Yes),
            Err(wrong) => {
                self.mistaken_step(kept, &wrong);
                Ok(Status::Bad)
            }
        });
        settled.max(said.unwrap_or_else(|trouble| {
            self.print_trouble(&trouble, true);
            trouble.status()
        }))
    }

    /// A step, which is stored and told later.
    fn step(&self, kept: &mut Kept<'_>, step: Step) -> Result<(), Trouble> {
        let before = kept.desk.clone();
        let left = library::step(&mut kept.desk, step);
        let left = left.map_err(|refusal| self.refused_step(kept, step, refusal))?;
        kept.before = Some(before);
        let mut text = format!("{} on the desk\n", words::entries(left));
        let mut fields = vec![
            ("answer", Json::text("drafted")),
            ("entries", Json::number(left)),
        ];
        let (lines, contained) = self.told_against(kept)?;
        text.extend(lines.iter().map(|line| format!("    {line}\n")));
        fields.extend(contained);
        let told = self.worded(text, fields);
        kept.told.push(told);
        Ok(())
    }

    /// Where services are given, which of them contain what the desk holds: a line for each, and a field for programs.
    fn told_against(&self, kept: &Kept<'_>) -> Result<(Vec<String>, Fields), Trouble> {
        if kept.against.is_empty() {
            return Ok(Default::default());
        }
        let contained = self.compared(kept)?;
        let line = |(name, is): &(String, bool)| {
            let says = if *is { "contained" } else { "not contained" };
            format!("{}: {says}", file_name(name))
        };
        let names = contained.iter().filter(|(_, is)| *is);
        let names = names.map(|(name, _)| Json::text(name.as_str()));
        let field = ("contained_in", Json::List(names.collect()));
        Ok((contained.iter().map(line).collect(), vec![field]))
    }

    /// Which of the services contain what the desk holds.
    fn compared(&self, kept: &Kept<'_>) -> Result<Vec<(String, bool)>, Trouble> {
        let draft = held(kept)?;
        let under = library::Under {
            dictionary: &[],
            ..self.context.background.under()
        };
        let mut answers = Vec::new();
        for called in kept.against.chunks(MOST_SERVICES) {
            let services: Vec<&[u8]> = called.iter().map(|(_, service)| &service[..]).collect();
            let contain = library::catalogue(under, &draft, &services);
            let contain = contain.map_err(|refusal| not_refused(kept.file, refusal))?;
            let names = called.iter().map(|(name, _)| name.clone());
            answers.extend(names.zip(contain));
        }
        Ok(answers)
    }

    /// Writes the page of what the desk holds, where one is asked for.
    fn paged(&self, kept: &Kept<'_>) -> Result<Status, Trouble> {
        let Some(path) = &self.options().html else {
            return Ok(Status::Yes);
        };
        let mut kept_there = Vec::new();
        for (stand, _) in stands(kept.desk.bytes()) {
            // What a stand keeps is what a desk that goes back to it holds.
            let mut desk = kept.desk.clone();
            let back = library::step(&mut desk, Step::Back(stand));
            back.map_err(|refusal| refused_step(kept, Step::Back(stand), refusal))?;
            let there = library::held(&desk);
            let there = there.map_err(|refusal| refused_step(kept, Step::Back(stand), refusal))?;
            kept_there.push((stand, self.on_desk(kept, there)));
        }
        let page = page::drafted(Drafted {
            draft: &self.on_desk(kept, held(kept)?),
            stands: &kept_there,
            against: &self.compared(kept)?,
            list: &self.context.background.list,
            given: &self.context.given,
        })?;
        store(path, page.as_bytes()).map(|()| Status::Yes)
    }

    /// A description that a desk holds, or that one of its stands keeps.
    fn on_desk(&self, kept: &Kept<'_>, blocks: Vec<u8>) -> Input {
        let entries = library::entries(&blocks);
        Input {
            title: title(kept.file),
            sort: Sort::Description,
            sent: entries.len(),
            stored: None,
            entries,
            bytes: blocks,
            names: self.context.reading.names.clone(),
            positions: Vec::new(),
            origins: Vec::new(),
        }
    }

    /// What the desk holds as text, and its stands.
    fn shown(&self, kept: &Kept<'_>) -> Result<Status, Trouble> {
        let entries = library::entries(&held(kept)?);
        let names = &self.context.reading.names;
        let mut text = text::text(Sort::Description, &entries, names, Numbers::All);
        let stands = stands(kept.desk.bytes());
        for (stand, count) in &stands {
            text.push_str(&format!("// stand {stand}: {}\n", words::entries(*count)));
        }
        let (lines, contained) = self.told_against(kept)?;
        text.extend(lines.iter().map(|line| format!("// {line}\n")));
        let numbers = stands.iter().map(|&(stand, _)| Json::number(stand.into()));
        let mut fields = vec![
            ("answer", Json::text("drafted")),
            ("entries", entries_json(&entries, names)),
            ("stands", Json::List(numbers.collect())),
        ];
        fields.extend(contained);
        Ok(self.printed(self.worded(text, fields).as_bytes(), Status::Yes))
    }

    /// The description in the form that the options ask for.
    fn written(&self, kept: &Kept<'_>) -> Result<Status, Trouble> {
        let blocks = held(kept)?;
        let entries = library::entries(&blocks);
        let names = &self.context.reading.names;
        let bytes =
            match self.options().to.unwrap_or(To::Text) {
                To::Text => text::text(Sort::Description, &entries, names, Numbers::WhereNeeded)
                    .into_bytes(),
                To::Desk => (text::desk(Sort::Description, &entries) + "\n").into_bytes(),
                To::Blocks => blocks,
                To::Stored => library::to_stored(&blocks)
                    .map_err(|refusal| not_refused(kept.file, refusal))?,
            };
        if let Some(out) = &self.options().out {
            store(out, &bytes)?;
        }
        let fields = vec![
            ("answer", Json::text("drafted")),
            ("sort", Json::text("description")),
            ("entries", entries_json(&entries, names)),
        ];
        Ok(match (self.options().json, &self.options().out) {
            (true, _) => self.printed(self.object(fields).as_bytes(), Status::Yes),
            (false, None) => self.printed(&bytes, Status::Yes),
            (false, Some(_)) => Status::Yes,
        })
    }

    /// An answer in words, or for programs.
    fn worded(&self, text: String, fields: Fields) -> String {
        match self.options().json {
            true => self.object(fields),
            false => text,
        }
    }

    /// Why a step is refused, in words.
    fn refused_step(&self, kept: &Kept<'_>, step: Step, refusal: Refusal) -> Trouble {
        let Step::Add(Entry { kind: 9, .. }) = step else {
            return refused_step(kept, step, refusal);
        };
        if refusal.reason != Reason::Form {
            return refused_step(kept, step, refusal);
        }
        let number = library::entries(&library::held(&kept.desk).unwrap_or_default()).len() + 1;
        let given = match self.options().dictionary {
            Some(_) => "; --dictionary is for the services of --against",
            None => "",
        };
        let why = format!(
            "entry {number}: its kind is 9, which names a description, and a desk takes none{given}"
        );
        Refused::new(named(kept.file), refusal, why).into()
    }
}

/// The next step of standard input; none where it ends.
fn next_line(steps: &mut BufReader<Stdin>) -> Result<Option<String>, String> {
    let mut line = Vec::new();
    match steps.read_until(b'\n', &mut line) {
        Ok(0) | Err(_) => Ok(None),
        Ok(_) => String::from_utf8(line)
            .map(Some)
            .map_err(|_| "standard input: a line is no text in UTF-8".into()),
    }
}

/// The blocks of what a desk holds.
fn held(kept: &Kept<'_>) -> Result<Vec<u8>, Trouble> {
    let held = library::held(&kept.desk);
    held.map_err(|refusal| refused_step(kept, Step::TakeOff, refusal))
}

/// Why a step is refused, in words; of a desk that is none, which file has the one before.
fn refused_step(kept: &Kept<'_>, step: Step, refusal: Refusal) -> Trouble {
    let before = beside(kept.file);
    let why = match (refusal.reason, step) {
        (Reason::Desk, _) if before.exists() => format!(
            "the file holds no desk that steps could give; {} has the one before",
            named(&before)
        ),
        (Reason::Desk, _) => "the file holds no desk that steps could give".into(),
        (Reason::Stand, Step::Stand(0)) => "stands have numbers from 1".into(),
        (Reason::Stand, Step::Stand(_)) => {
            format!(
                "the desk has four stands: {}; gx desk FILE drop N drops one",
                listed(kept)
            )
        }
        (Reason::Stand, Step::Back(stand) | Step::Drop(stand)) => {
            format!("the desk has no stand {stand}; {}", listed(kept))
        }
        (Reason::Form | Reason::Owner | Reason::Depth, Step::Add(e)) => {
            refused::why(refusal, Sort::Description, &with(kept, e), Naming::Nothing)
        }
        _ => refused::rule(refusal),
    };
    Refused::new(named(kept.file), refusal, why).into()
}

fn listed(kept: &Kept<'_>) -> String {
    let stands = stands(kept.desk.bytes());
    let numbers: Vec<String> = stands.iter().map(|(stand, _)| stand.to_string()).collect();
    match numbers.is_empty() {
        true => "it has none".into(),
        false => format!("it has {}", words::listed(&numbers)),
    }
}

/// The blocks that the description would have with one entry more.
fn with(kept: &Kept<'_>, entry: Entry) -> Vec<u8> {
    let blocks = library::held(&kept.desk).unwrap_or_default();
    let mut entries = library::entries(&blocks);
    entries.push(entry);
    blocks::encode(&entries)
}

/// The file that has the desk before the last step.
fn beside(file: &Path) -> PathBuf {
    with_ending(file, BEFORE)
}
