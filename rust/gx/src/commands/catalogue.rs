//! One description against many services: the ones that are accepted go into one call of the library.

use std::path::{Path, PathBuf};
use std::rc::Rc;

use super::compare::of_inputs;
use super::{words_of, Answer, Context, Status};
use crate::dictionary::{split, Naming};
use crate::input::{accepted, bytes_of, not_refused, title, Form, Input};
use crate::library::{self, MOST_SERVICES};
use crate::names::Conflict;
use crate::services::Services;
use crate::text;
use crate::trouble::Trouble;

/// A service: a file, or a part of a file that is a list of them.
#[derive(Clone, Debug)]
pub struct Service {
    /// The file.
    file: PathBuf,
    /// The name on its line: the file's without its folder, or the way from the folder that is given.
    pub name: String,
    /// The bytes, where they are read already.
    bytes: Option<Vec<u8>>,
    /// The list that it is a part of.
    list: Option<Rc<Services>>,
    /// The number in the list, from 1, where it is a part of one.
    pub number: Option<usize>,
}

impl Service {
    /// This file is a service, and is read when its turn comes.
    pub fn of_file(file: PathBuf, name: String) -> Service {
        Service {
            file,
            name,
            bytes: None,
            list: None,
            number: None,
        }
    }

    /// The file.
    pub fn file(&self) -> &Path {
        &self.file
    }

    /// The name on its line, and of a part of a list its number.
    pub fn told(&self) -> String {
        match self.number {
            Some(number) => format!("{} service {number}", self.name),
            None => self.name.clone(),
        }
    }
}

/// Whether one service contains the description; and that explained, where it is asked for.
#[derive(Clone, Debug)]
pub struct Contained {
    /// The library's answer.
    pub contained: bool,
    /// The words of both that the names file settles.
    pub notes: Vec<Conflict>,
    /// The comparison with this service alone.
    pub compared: Option<Answer>,
}

impl Context {
    /// The services of a file: those of a list, which is blocks with more than one numbered 1 or a text that is headed so, or the
    /// file itself.
    ///
    /// # Errors
    ///
    /// The file cannot be read, or the library refuses the list as a whole.
    pub fn services(&self, file: PathBuf) -> Result<Vec<Service>, Trouble> {
        let bytes = bytes_of(&file)?;
        let is_list = match self.reading.form_of(&bytes) {
            Form::Text => self.reading.is_headed(&bytes, text::SERVICES),
            Form::Blocks => split(&bytes).len() > 1,
            Form::Stored => false,
        };
        if !is_list {
            return Ok(vec![Service {
                name: title(&file),
                file,
                bytes: Some(bytes),
                list: None,
                number: None,
            }]);
        }
        let list = Rc::new(self.reading.unread_services_of(&file, bytes)?);
        let services = (1..=list.parts.len()).map(|number| Service {
            file: file.clone(),
            name: title(&file),
            bytes: None,
            list: Some(list.clone()),
            number: Some(number),
        });
        Ok(services.collect())
    }

    /// Whether the supplier's description is contained in each of these services, at most [`MOST_SERVICES`]: one call for all that
    /// are accepted. The n-th is the call's input 1 + n, whether those before it are accepted or not.
    pub fn catalogue(
        &self,
        supplier: &Input,
        services: &[Service],
    ) -> Vec<Result<Contained, Trouble>> {
        let inputs = (2..).zip(services.iter().take(MOST_SERVICES));
        let read: Vec<Result<Input, Trouble>> = inputs
            .map(|(input, service)| self.service(supplier, service, input))
            .collect();
        let accepted = read.iter().flatten();
        let bytes: Vec<&[u8]> = accepted.map(|input| input.bytes.as_slice()).collect();
        let under = self.background.under();
        let answers = match bytes.is_empty() {
            true => Ok(Vec::new()),
            false => library::catalogue(under, &supplier.bytes, &bytes),
        };
        let mut answers = answers.map(Vec::into_iter);
        let answer = |(service, input): (&Service, Result<Input, Trouble>)| {
            let input = input?;
            match &mut answers {
                Ok(answers) => {
                    let contained = answers.next().unwrap_or(false);
                    self.explained(supplier, service, input, contained)
                }
                Err(refusal) => Err(not_refused(&service.file, *refusal)),
            }
        };
        services.iter().zip(read).map(answer).collect()
    }

    /// The answer for one service, explained by the comparison with it where a page or the reason is asked for.
    fn explained(
        &self,
        supplier: &Input,
        service: &Service,
        input: Input,
        contained: bool,
    ) -> Result<Contained, Trouble> {
        let notes = input.names.settled().to_vec();
        let compared = match self.options.why || self.options.html.is_some() {
            true => Some(of_inputs(self, supplier.clone(), input, &service.file)?),
            false => None,
        };
        let told = compared.as_ref().map(|answer| answer.status == Status::Yes);
        match told.is_some_and(|told| told != contained) {
            true => Err(Trouble::Fault {
                file: service.name.clone(),
                why: "the catalogue's answer is not that of the comparison".into(),
            }),
            false => Ok(Contained {
                contained,
                notes,
                compared,
            }),
        }
    }

    fn service(&self, supplier: &Input, service: &Service, input: u16) -> Result<Input, Trouble> {
        let read = self.alone_service(service, input)?;
        let names = words_of(supplier, &read)?;
        Ok(Input { names, ..read })
    }

    /// A service, as the call's input of this number, once unfolded.
    pub(super) fn alone_service(&self, service: &Service, input: u16) -> Result<Input, Trouble> {
        let file = &service.file;
        match (&service.list, service.number, &service.bytes) {
            (Some(list), Some(number), _) => {
                let naming = Naming::All(&self.background.dictionary);
                let read = accepted(file, list.draft(number), input, naming)?;
                self.unfolded(file, read)
            }
            (_, _, Some(bytes)) => self.description_of(file, bytes.clone(), input),
            _ => self.description(file, input),
        }
    }
}
