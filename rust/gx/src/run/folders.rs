//! Many inputs: a line for each.

use std::collections::{BTreeMap, BTreeSet};
use std::fs::canonicalize;
use std::io::IsTerminal;
use std::path::{Component, Path, PathBuf};

use super::print::{complain, end_progress, painted, said_of, show_progress, Fields, Said};
use super::store::store_in;
use super::{Run, USAGE};
use crate::commands::Status;
use crate::input::{files_of, named, title};
use crate::json::Json;
use crate::names::{settled_json, Conflict};
use crate::page::Row;
use crate::shown::file_name;
use crate::trouble::Trouble;

/// A file with the name that its line has: in a folder the way from there, else the name without folders.
#[derive(Clone, Debug)]
pub(super) struct Told {
    pub(super) path: PathBuf,
    pub(super) name: String,
}

/// What is answered on a line.
pub(super) struct Job {
    pub(super) files: Vec<PathBuf>,
    pub(super) name: String,
}

impl Run {
    /// A line for each input, or for each pair of inputs; the worst status.
    pub(super) fn lines(&self, files: &[PathBuf]) -> u8 {
        let (sides, mut worst) = self.sides(files);
        let jobs = self.jobs(&sides, files);
        if let Some(wrong) = self
            .written_twice(&jobs)
            .or_else(|| self.overwritten(&jobs))
        {
            complain(&format!("gx: {wrong}\n"));
            return USAGE;
        }
        self.tell_given();
        let progress = std::io::stderr().is_terminal();
        let mut rows = Vec::new();
        for (at, job) in jobs.iter().enumerate() {
            show_progress(progress, at + 1, jobs.len());
            let (said, shown) = self.line(job, progress);
            rows.push(Row::new(&job.name, said.0, &said.1));
            worst = worst.max(said.0).max(shown);
        }
        end_progress(progress);
        let supplier = match files {
            [file, _] if self.command.takes_pair() && !file.is_dir() => title(file),
            _ => String::new(),
        };
        if let Err(trouble) = self.store_index(&supplier, &rows) {
            complain(&format!("gx: {}", trouble.lines()));
            worst = worst.max(trouble.status());
        }
        worst.code()
    }

    /// What is to be answered. The name on a line is that of the file, and of a pair those that come from folders.
    fn jobs(&self, sides: &[Vec<Told>], given: &[PathBuf]) -> Vec<Job> {
        if !self.command.takes_pair() {
            let all = sides.iter().flatten();
            let job = |told: &Told| Job {
                files: vec![told.path.clone()],
                name: told.name.clone(),
            };
            return all.map(job).collect();
        }
        let ([c, d], [from_c, from_d]) = (sides, given) else {
            return Vec::new();
        };
        let job = |c: &Told, d: &Told| Job {
            files: vec![c.path.clone(), d.path.clone()],
            name: match (from_c.is_dir(), from_d.is_dir()) {
                (true, false) => c.name.clone(),
                (false, true) => d.name.clone(),
                _ => format!("{} and {}", c.name, d.name),
            },
        };
        let with = |one| d.iter().map(move |other| job(one, other));
        c.iter().flat_map(with).collect()
    }

    /// The files that each argument names. A folder that cannot be read, or has no input, is told, and makes the status a bad one;
    /// a folder in it that is passed over is told.
    pub(super) fn sides(&self, files: &[PathBuf]) -> (Vec<Vec<Told>>, Status) {
        let mut worst = Status::Yes;
        let mut sides = Vec::new();
        for file in files {
            match self.side(file) {
                Ok(side) => sides.push(side),
                Err(trouble) => worst = worst.max(self.passed_over(&trouble)),
            }
        }
        (sides, worst)
    }

    /// Tells why an argument, or a list among files, is passed over.
    pub(super) fn passed_over(&self, trouble: &Trouble) -> Status {
        match self.options().json {
            true => self.print_trouble(trouble, true),
            false => complain(&format!("gx: {}", trouble.lines())),
        }
        trouble.status()
    }

    /// The files that an argument names.
    fn side(&self, file: &Path) -> Result<Vec<Told>, Trouble> {
        if !file.is_dir() {
            return Ok(vec![Told {
                path: file.into(),
                name: title(file),
            }]);
        }
        let listed = files_of(file, self.options().recursive)?;
        if listed.files.is_empty() {
            return Err(Trouble::Empty {
                file: named(file),
                passed: listed.passed(),
            });
        }
        for folder in &listed.folders {
            let folder = file_name(&named(folder));
            complain(&format!(
                "gx: {folder}: a folder, which is passed over; --recursive takes its files too\n"
            ));
        }
        let told = |path: PathBuf| Told {
            name: path
                .strip_prefix(file)
                .map_or_else(|_| title(&path), |way| way.to_string_lossy().into_owned()),
            path,
        };
        Ok(listed.files.into_iter().map(told).collect())
    }

    fn line(&self, job: &Job, progress: bool) -> (Said, Status) {
        let name = &job.name;
        let paths: Vec<&Path> = job.files.iter().map(PathBuf::as_path).collect();
        let answer = self.context.answer(self.command, &paths);
        let answer = answer.and_then(|answer| {
            self.store_extras(&answer, Some(name))?;
            if let (Some(out), false) = (&self.options().out, self.writes_beside()) {
                store_in(&out.join(format!("{name}.{}", answer.ending)), &answer.full)?;
            }
            Ok(answer)
        });
        let said = match answer {
            Ok(answer) => noted((answer.status, answer.line, answer.json), &answer.notes),
            Err(trouble) => {
                self.store_refused(&trouble, Some(name));
                said_of(&trouble, name)
            }
        };
        let first = vec![("file", Json::text(name))];
        let shown = self.print_line(name, first, said.clone(), progress);
        (said, shown)
    }

    /// Prints what is said of one of many: on a line after its name, or for programs after these fields.
    pub(super) fn print_line(
        &self,
        name: &str,
        first: Fields,
        (status, line, json): Said,
        progress: bool,
    ) -> Status {
        let shown = match self.options().json {
            true => self.object([first, json].concat()),
            false => format!("{}: {}\n", file_name(name), painted(status, &line)),
        };
        end_progress(progress && std::io::stdout().is_terminal());
        self.printed(shown.as_bytes(), status)
    }

    /// Tells, before the lines of answers, under what they are given; for programs each has it.
    pub(super) fn tell_given(&self) {
        let options = self.options();
        if self.command.answers() && !options.json && !options.quiet {
            complain(&format!("gx: {}", self.context.given.line()));
        }
    }
}

/// The files, those of one name with as much of the way to them as tells them apart.
pub(super) fn told_apart(mut all: Vec<Told>) -> Vec<Told> {
    let mut alike: BTreeMap<String, Vec<usize>> = BTreeMap::new();
    for (at, told) in all.iter().enumerate() {
        alike.entry(told.name.clone()).or_default().push(at);
    }
    for (name, of) in alike.into_iter().filter(|(_, of)| of.len() > 1) {
        let given = |at: &usize| parts(&all[*at].path);
        let system = |at: &usize| parts(&canonicalize(&all[*at].path).unwrap_or_default());
        let ways: [Vec<Vec<String>>; 2] = [
            of.iter().map(given).collect(),
            of.iter().map(system).collect(),
        ];
        let names = ways
            .iter()
            .find_map(|ways| apart(ways, parts(Path::new(&name)).len()));
        for (at, name) in of.into_iter().zip(names.unwrap_or_default()) {
            all[at].name = name;
        }
    }
    all
}

/// The names on the way to a file, and its own.
fn parts(path: &Path) -> Vec<String> {
    let normal = path.components().filter_map(|part| match part {
        Component::Normal(name) => Some(name.to_string_lossy().into_owned()),
        _ => None,
    });
    normal.collect()
}

/// The ends of these ways, of more than so many names, that are all different, where there are such.
fn apart(ways: &[Vec<String>], than: usize) -> Option<Vec<String>> {
    let longest = ways.iter().map(Vec::len).max().unwrap_or(0);
    let ends = |count: usize| -> Vec<String> {
        let end = |way: &Vec<String>| way[way.len().saturating_sub(count)..].join("/");
        ways.iter().map(end).collect()
    };
    let mut ends = (than + 1..=longest).map(ends);
    ends.find(|ends| ends.iter().collect::<BTreeSet<&String>>().len() == ends.len())
}

/// What is said, with the words that the names file settles.
pub(super) fn noted((status, mut line, mut json): Said, notes: &[Conflict]) -> Said {
    if !notes.is_empty() {
        let told: Vec<String> = notes.iter().map(Conflict::settled).collect();
        line = format!("{line} ({})", told.join("; "));
        json.push(("settled", settled_json(notes)));
    }
    (status, line, json)
}
