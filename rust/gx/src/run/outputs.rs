//! Whether what is to be written would replace something that is not to be lost.

use std::collections::{BTreeMap, BTreeSet};
use std::path::{Path, PathBuf};

use super::folders::Job;
use super::store::{identity, place, with_ending, Identity};
use super::{desk, lock, Run};
use crate::args::Command;
use crate::input::named;
use crate::shown::file_name;

impl Run {
    /// The places where something is to be written, with their options.
    fn outputs(&self) -> Vec<(&'static str, &PathBuf)> {
        let options = self.options();
        let all = [
            ("--out", &options.out),
            ("--html", &options.html),
            ("--svg", &options.svg),
            ("--specimen", &options.specimen),
        ];
        let given = all.into_iter();
        given
            .filter_map(|(option, path)| Some((option, path.as_ref()?)))
            .collect()
    }

    /// The files that are read, as they are named.
    pub(super) fn read<'a>(&'a self, files: &'a [PathBuf]) -> impl Iterator<Item = &'a PathBuf> {
        let options = &self.context.options;
        let beside = [&options.names, &options.pairs, &options.dictionary];
        let beside = beside.into_iter().flatten().chain(&self.settings);
        files.iter().chain(beside)
    }

    /// What is wrong with the outputs of one answer: one is a file that is read, or two are one file.
    pub(super) fn wrong_outputs(&self, files: &[PathBuf]) -> Option<String> {
        let files = match self.command {
            // The other words are a step.
            Command::Desk => files.get(..1).unwrap_or_default(),
            _ => files,
        };
        let read: BTreeMap<Identity, &PathBuf> = self
            .read(files)
            .filter_map(|file| Some((identity(file)?, file)))
            .collect();
        let outputs = self.outputs();
        for (option, path) in &outputs {
            if let Some(input) = identity(path).and_then(|of| read.get(&of)) {
                return Some(replaced(option, path, input));
            }
        }
        if let Some(wrong) = self.wrong_at_desk(files) {
            return Some(wrong);
        }
        let same = |(one, path): &(&'static str, &PathBuf)| {
            let other = outputs
                .iter()
                .find(|(other, there)| other != one && there == path);
            other.map(|(other, _)| (*one, *other, file_name(&named(path))))
        };
        // A hierarchy is one answer, however many files it is about, and so are doubles.
        let many = files.iter().any(|file| file.is_dir()) || files.len() > 2;
        let folders = many && !matches!(self.command, Command::Hierarchy | Command::Doubles);
        let (one, other, file) = outputs.iter().find_map(same).filter(|_| !folders)?;
        Some(format!("{one} and {other} would both write {file}"))
    }

    /// An output that is a file of the desk: the desk, which may not be there yet, the one before it, and its lock.
    fn wrong_at_desk(&self, files: &[PathBuf]) -> Option<String> {
        let desk = files.first().filter(|_| self.command == Command::Desk)?;
        let told = [
            ("", "is the desk"),
            (desk::BEFORE, "has the desk before"),
            (lock::ENDING, "keeps others from the desk"),
        ];
        self.outputs().into_iter().find_map(|(option, path)| {
            let is = |ending: &&(&str, &str)| {
                let own = with_ending(desk, ending.0);
                let same = |one: Option<Identity>| one.is_some() && one == identity(path);
                same(identity(&own)) || place(&own).is_some_and(|at| Some(at) == place(path))
            };
            let (_, what) = told.iter().find(is)?;
            let path = file_name(&named(path));
            Some(format!("{option} would replace {path}, which {what}"))
        })
    }

    /// A name that two answers have, where answers are written into files called by their names.
    pub(super) fn written_twice(&self, jobs: &[Job]) -> Option<String> {
        self.outputs().first()?;
        let mut names = BTreeSet::new();
        let twice = jobs.iter().find(|job| !names.insert(&job.name))?;
        let name = file_name(&twice.name);
        Some(format!(
            "two inputs are called {name}, and would be written into one file"
        ))
    }

    /// An input that an answer would be written over, where answers are written into folders.
    pub(super) fn overwritten(&self, jobs: &[Job]) -> Option<String> {
        let outputs = self.outputs();
        if outputs.is_empty() {
            return None;
        }
        let files = jobs.iter().flat_map(|job| &job.files);
        let beside = self.read(&[]).cloned().collect::<Vec<PathBuf>>();
        let read: BTreeMap<Identity, &PathBuf> = files
            .chain(&beside)
            .filter_map(|file| Some((identity(file)?, file)))
            .collect();
        for (option, folder) in outputs {
            for job in jobs {
                for ending in endings(option) {
                    let path = folder.join(format!("{}.{ending}", job.name));
                    if let Some(input) = identity(&path).and_then(|of| read.get(&of)) {
                        return Some(replaced(option, &path, input));
                    }
                }
            }
        }
        None
    }
}

fn replaced(option: &str, path: &Path, input: &Path) -> String {
    let (path, input) = (file_name(&named(path)), file_name(&named(input)));
    match path == input {
        true => format!("{option} would replace {path}, which is read"),
        false => format!("{option} would replace {path}, which is {input} and is read"),
    }
}

/// How the files may end that an option writes into a folder.
fn endings(option: &str) -> &'static [&'static str] {
    match option {
        "--out" => &[
            "txt",
            "blocks",
            "pairs",
            "dictionary",
            "services",
            "ofn",
            "lisp",
        ],
        "--html" => &["html"],
        "--svg" => &["svg"],
        _ => &["blocks"],
    }
}
