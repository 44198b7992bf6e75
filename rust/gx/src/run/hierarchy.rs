//! The run of a hierarchy: one answer for all services.

use std::path::PathBuf;

use super::print::{complain, said_of};
use super::{Run, USAGE};
use crate::commands::{Service, Status};
use crate::input::Input;
use crate::json::Json;
use crate::trouble::Trouble;

impl Run {
    /// The services ranked. Where one has no answer all that have none are told, and nothing is ranked.
    pub(super) fn hierarchy(&self, given: &[PathBuf]) -> u8 {
        let (services, worst) = match self.services(given) {
            Ok(found) => found,
            Err(trouble) => return self.without(&trouble),
        };
        if worst > Status::Yes || services.is_empty() {
            return worst.max(Status::Bad).code();
        }
        let files: Vec<PathBuf> = services
            .iter()
            .map(|service| service.file().into())
            .collect();
        if let Some(wrong) = self.wrong_outputs(&files) {
            complain(&format!("gx: {wrong}\n"));
            return USAGE;
        }
        let read = match self.context.ranked_services(&services) {
            Ok(read) => read,
            Err(trouble) => return self.without(&trouble),
        };
        let (inputs, bad) = parted(&services, read);
        if !bad.is_empty() {
            return self.all_bad(&bad).code();
        }
        let answer = self.context.hierarchy(&services, &inputs);
        let stored = answer.and_then(|answer| self.store_extras(&answer, None).map(|()| answer));
        match stored {
            Ok(answer) => self.print_one(answer).code(),
            Err(trouble) => self.without(&trouble),
        }
    }

    /// Tells why there is no hierarchy.
    pub(super) fn without(&self, trouble: &Trouble) -> u8 {
        self.print_trouble(trouble, false);
        trouble.status().code()
    }

    /// Tells, on a line for each, what keeps these from an answer.
    fn all_bad(&self, bad: &[(&Service, Trouble)]) -> Status {
        if let Some((_, first)) = bad.first() {
            self.store_refused(first, None);
        }
        self.tell_given();
        let mut worst = Status::Bad;
        for (service, trouble) in bad {
            worst = worst.max(self.print_bad(service, trouble));
        }
        complain("gx: no hierarchy: what is missing could stand between two others\n");
        worst
    }

    /// Tells on a line what keeps one of many from an answer.
    pub(super) fn print_bad(&self, service: &Service, trouble: &Trouble) -> Status {
        let said = said_of(trouble, &service.name);
        let mut first = vec![("file", Json::text(&service.name))];
        let number = service
            .number
            .map(|number| ("service", Json::number(number)));
        first.extend(number);
        self.print_line(&service.told(), first, said, false)
    }
}

/// The services that are accepted, and those that are not with the reason.
fn parted(
    services: &[Service],
    read: Vec<Result<Input, Trouble>>,
) -> (Vec<Input>, Vec<(&Service, Trouble)>) {
    let (mut inputs, mut bad) = (Vec::new(), Vec::new());
    for (service, read) in services.iter().zip(read) {
        match read {
            Ok(input) => inputs.push(input),
            Err(trouble) => bad.push((service, trouble)),
        }
    }
    (inputs, bad)
}
