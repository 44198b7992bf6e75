//! The run of a catalogue: a line for each service, in calls for at most 64 of them.

use std::io::IsTerminal;
use std::path::PathBuf;

use super::folders::{noted, told_apart, Told};
use super::print::{complain, end_progress, said_of, show_progress, Said};
use super::{Run, USAGE};
use crate::commands::{Contained, Service, Status};
use crate::input::{named, Input};
use crate::json::Json;
use crate::library::MOST_SERVICES;
use crate::page::Row;
use crate::text;
use crate::trouble::Trouble;

/// How the services answered so far.
#[derive(Default)]
struct Tally {
    worst: Option<Status>,
    contained: bool,
    rows: Vec<Row>,
}

impl Run {
    /// The supplier's description against all services; the worst status, or with `--any` the best answer.
    pub(super) fn catalogue(&self, files: &[PathBuf]) -> u8 {
        let Some((path, given)) = files.split_first() else {
            return Status::Bad.code();
        };
        let read = self.context.description(path, 1);
        let read = read.and_then(|supplier| Ok((supplier, self.services(given)?)));
        let (supplier, (services, worst)) = match read {
            Ok(read) => read,
            Err(trouble) => {
                self.print_trouble(&trouble, true);
                return trouble.status().code();
            }
        };
        if let Some(wrong) = self.pages_twice(path, &services) {
            complain(&format!("gx: {wrong}\n"));
            return USAGE;
        }
        self.tell_given();
        let mut tally = Tally {
            worst: Some(worst).filter(|&worst| worst > Status::Yes),
            ..Tally::default()
        };
        self.services_answered(&supplier, &services, &mut tally);
        if let Err(trouble) = self.store_index(&supplier.title, &tally.rows) {
            complain(&format!("gx: {}", trouble.lines()));
            tally.worst = tally.worst.max(Some(trouble.status()));
        }
        let worst = tally.worst.unwrap_or(Status::Yes);
        match self.options().any && tally.contained && worst == Status::No {
            true => Status::Yes.code(),
            false => worst.code(),
        }
    }

    fn services_answered(&self, supplier: &Input, services: &[Service], tally: &mut Tally) {
        let progress = std::io::stderr().is_terminal();
        let mut done = 0;
        for called in services.chunks(MOST_SERVICES) {
            done += called.len();
            show_progress(progress, done, services.len());
            let answers = self.context.catalogue(supplier, called);
            for (service, answer) in called.iter().zip(answers) {
                self.service(service, answer, progress, tally);
            }
        }
        end_progress(progress);
    }

    /// The services that the arguments name: the files of folders, and files; one file alone may be a list.
    pub(super) fn services(&self, given: &[PathBuf]) -> Result<(Vec<Service>, Status), Trouble> {
        if let [file] = given {
            if !file.is_dir() {
                let services = self.context.services(file.clone())?;
                return Ok((services, Status::Yes));
            }
        }
        let (sides, mut worst) = self.sides(given);
        let told = told_apart(sides.into_iter().flatten().collect());
        let mut services = Vec::new();
        for told in told {
            match self.services_of(told) {
                Ok(found) => services.extend(found),
                Err(trouble) => worst = worst.max(self.passed_over(&trouble)),
            }
        }
        Ok((services, worst))
    }

    /// One of several files: a service, or the services of a list by its ending.
    fn services_of(&self, Told { path, name }: Told) -> Result<Vec<Service>, Trouble> {
        if path
            .extension()
            .is_none_or(|ending| ending != text::SERVICES)
        {
            return Ok(vec![Service::of_file(path, name)]);
        }
        let mut services = self.context.services(path)?;
        for service in &mut services {
            service.name.clone_from(&name);
        }
        Ok(services)
    }

    /// What is wrong where pages are written: two have one name, or one would replace what is read.
    fn pages_twice(&self, supplier: &std::path::Path, services: &[Service]) -> Option<String> {
        let jobs: Vec<super::folders::Job> = services
            .iter()
            .map(|service| super::folders::Job {
                files: vec![supplier.into(), service.file().into()],
                name: service.told(),
            })
            .collect();
        self.written_twice(&jobs)
            .or_else(|| self.overwritten(&jobs))
    }

    fn service(
        &self,
        service: &Service,
        answer: Result<Contained, Trouble>,
        progress: bool,
        tally: &mut Tally,
    ) {
        let name = service.told();
        let mut first = vec![("file", Json::text(&service.name))];
        first.extend(
            service
                .number
                .map(|number| ("service", Json::number(number))),
        );
        let answer = answer.and_then(|answer| {
            if let Some(compared) = &answer.compared {
                self.store_extras(compared, Some(&name))?;
            }
            Ok(answer)
        });
        let contained = matches!(&answer, Ok(answer) if answer.contained);
        let said = match answer {
            Ok(answer) => self.told(answer),
            Err(trouble) => {
                self.store_refused(&trouble, Some(&name));
                said_of(&trouble, &service.name)
            }
        };
        tally.contained |= contained;
        tally.rows.push(Row::new(&name, said.0, &said.1));
        let shown = match contained || !self.options().only_contained || said.0 > Status::No {
            true => self.print_line(&name, first, said, progress),
            false => said.0,
        };
        tally.worst = tally.worst.max(Some(shown));
    }

    /// What is said of a service that is accepted.
    fn told(&self, answer: Contained) -> Said {
        let words = match answer.contained {
            true => "contained",
            false => "not contained",
        };
        let status = match answer.contained {
            true => Status::Yes,
            false => Status::No,
        };
        let said = match answer.compared {
            Some(compared) if self.options().why => (status, compared.line, compared.json),
            _ => (status, words.into(), vec![("answer", Json::text(words))]),
        };
        noted(said, &answer.notes)
    }

    /// Writes the page with a table of all, where pages are written into a folder.
    pub(super) fn store_index(&self, supplier: &str, rows: &[Row]) -> Result<(), Trouble> {
        let Some(folder) = &self.options().html else {
            return Ok(());
        };
        let page = crate::page::index(self.command, supplier, rows, &self.context.given);
        let path = folder.join("index.html");
        match rows.iter().any(|row| row.page == "index.html") {
            true => Err(Trouble::Unwritten {
                file: named(&path),
                why: "it is the page of an input called index".into(),
            }),
            false => super::store::store_in(&path, page.as_bytes()),
        }
    }
}
