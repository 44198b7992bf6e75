//! Descriptions that mean the same: their normal forms are the same bytes.

use std::collections::BTreeMap;

use super::{Answer, Context, Extra, Service, Status};
use crate::input::{not_refused, Input};
use crate::json::Json;
use crate::library;
use crate::names::Names;
use crate::page::{self, Meaning};
use crate::shown::file_name;
use crate::trouble::Trouble;
use crate::words;

impl Context {
    /// Each of these descriptions read, as the input of a call of its own.
    pub fn each_alone(&self, services: &[Service]) -> Vec<Result<Input, Trouble>> {
        let read = services
            .iter()
            .map(|service| self.alone_service(service, 1));
        read.collect()
    }

    /// Which of the descriptions that are accepted mean the same.
    ///
    /// # Errors
    ///
    /// A word stands for two numbers.
    pub fn doubles(&self, read: &[(&Service, Input)]) -> Result<Answer, Trouble> {
        let mut names = Names::default();
        for (_, input) in read {
            names.join(&input.names).map_err(Trouble::Words)?;
        }
        let meanings = self.meanings(read)?;
        let mut extras = Vec::new();
        if self.options.html.is_some() {
            let list = &self.background.list;
            let page = page::doubles(&meanings, list, &names, &self.given)?;
            extras.push((Extra::Html, page.into_bytes()));
        }
        let line = counted(read.len(), &meanings);
        Ok(Answer {
            status: Status::Yes,
            full: format!("{line}\n\n{}", told(&meanings)).into_bytes(),
            line,
            ending: "txt",
            json: vec![
                ("answer", Json::text("doubles")),
                ("meanings", Json::List(meanings.iter().map(json).collect())),
            ],
            extras,
            notes: names.settled().to_vec(),
        })
    }

    /// The meanings, in the order in which each first comes.
    fn meanings(&self, read: &[(&Service, Input)]) -> Result<Vec<Meaning>, Trouble> {
        let mut met: BTreeMap<Vec<u8>, usize> = BTreeMap::new();
        let mut meanings: Vec<Meaning> = Vec::new();
        for (service, input) in read {
            let normal = library::normal(self.background.under(), &input.bytes);
            let normal = normal.map_err(|refusal| not_refused(service.file(), refusal))?;
            let at = *met.entry(normal).or_insert_with_key(|normal| {
                meanings.push(Meaning {
                    files: Vec::new(),
                    entries: library::entries(normal),
                });
                meanings.len() - 1
            });
            meanings[at].files.push(service.told());
        }
        Ok(meanings)
    }
}

fn counted(descriptions: usize, meanings: &[Meaning]) -> String {
    let count = match meanings.len() {
        1 => "1 meaning".into(),
        count => format!("{count} meanings"),
    };
    format!("{}, {count}", words::descriptions(descriptions))
}

/// A line for each meaning that several have, and one for those that stand alone.
fn told(meanings: &[Meaning]) -> String {
    let names = |meaning: &Meaning| -> Vec<String> {
        meaning.files.iter().map(|file| file_name(file)).collect()
    };
    let (doubles, alone): (Vec<&Meaning>, Vec<&Meaning>) =
        meanings.iter().partition(|meaning| meaning.files.len() > 1);
    let mut out: String = doubles
        .iter()
        .map(|meaning| names(meaning).join(" = ") + "\n")
        .collect();
    if !alone.is_empty() {
        let alone: Vec<String> = alone.iter().flat_map(|meaning| names(meaning)).collect();
        out.push_str(&format!("no double: {}\n", alone.join(", ")));
    }
    out
}

fn json(meaning: &Meaning) -> Json {
    let files = meaning.files.iter().map(Json::text);
    Json::List(files.collect())
}
