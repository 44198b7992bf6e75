//! The run of doubles: one answer for all descriptions.

use std::path::PathBuf;

use super::print::complain;
use super::{Run, USAGE};
use crate::commands::{Service, Status};
use crate::input::Input;

impl Run {
    /// The descriptions that mean the same. Those without an answer are told, and the others compared all the same.
    pub(super) fn doubles(&self, given: &[PathBuf]) -> u8 {
        let (services, mut worst) = match self.services(given) {
            Ok(found) => found,
            Err(trouble) => return self.without(&trouble),
        };
        let files: Vec<PathBuf> = services.iter().map(|one| one.file().into()).collect();
        if let Some(wrong) = self.wrong_outputs(&files) {
            complain(&format!("gx: {wrong}\n"));
            return USAGE;
        }
        let read = self.context.each_alone(&services);
        let mut accepted: Vec<(&Service, Input)> = Vec::new();
        for (service, read) in services.iter().zip(read) {
            match read {
                Ok(input) => accepted.push((service, input)),
                Err(trouble) => {
                    worst = worst.max(Status::Bad);
                    worst = worst.max(self.print_bad(service, &trouble));
                }
            }
        }
        if accepted.is_empty() {
            return worst.max(Status::Bad).code();
        }
        let answer = self.context.doubles(&accepted);
        let stored = answer.and_then(|answer| self.store_extras(&answer, None).map(|()| answer));
        match stored {
            Ok(answer) => worst.max(self.print_one(answer)).code(),
            Err(trouble) => self.without(&trouble),
        }
    }
}
