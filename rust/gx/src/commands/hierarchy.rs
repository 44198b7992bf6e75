//! Services as a hierarchy: all of them go into one call of the library.

use std::path::Path;

use super::{Answer, Context, Extra, Service, Status};
use crate::args::Options;
use crate::hierarchy::Hierarchy;
use crate::input::{not_refused, Input};
use crate::library::{self, Refusal, MOST_SERVICES};
use crate::names::Names;
use crate::owl::{self, Asked};
use crate::page;
use crate::svg;
use crate::trouble::{Refused, Trouble};

impl Context {
    /// Each of these services read, as the call's input of its number.
    ///
    /// # Errors
    ///
    /// There are more than [`MOST_SERVICES`], which the library refuses.
    pub fn ranked_services(
        &self,
        services: &[Service],
    ) -> Result<Vec<Result<Input, Trouble>>, Trouble> {
        if services.len() > MOST_SERVICES {
            return Err(too_many(services.len()));
        }
        let numbered = (2..).zip(services);
        let read = numbered.map(|(input, service)| self.alone_service(service, input));
        Ok(read.collect())
    }

    /// The hierarchy of services that are accepted.
    ///
    /// # Errors
    ///
    /// A word stands for two numbers.
    pub fn hierarchy(&self, services: &[Service], read: &[Input]) -> Result<Answer, Trouble> {
        let mut words = Names::default();
        for input in read {
            words.join(&input.names).map_err(Trouble::Words)?;
        }
        let file = |at: usize| services.get(at).map_or(Path::new(""), Service::file);
        let unfolded = read.iter().enumerate().map(|(at, input)| {
            let unfolded = self.unfolded_bytes(input);
            unfolded.map_err(|refusal| not_refused(file(at), refusal))
        });
        let unfolded = unfolded.collect::<Result<Vec<Vec<u8>>, Trouble>>()?;
        let bytes: Vec<&[u8]> = unfolded.iter().map(Vec::as_slice).collect();
        let ranked = library::hierarchy(self.background.under().pairs, &bytes);
        let ranked = ranked.map_err(|refusal| {
            let at = usize::from(refusal.input).saturating_sub(2);
            not_refused(file(at), refusal)
        })?;
        let names = services.iter().map(Service::told).collect();
        let hierarchy = Hierarchy::new(names, ranked);
        let (full, ending) = self.ranked_form(&hierarchy, read, &words);
        let mut extras = Vec::new();
        if self.options.html.is_some() {
            let page = page::hierarchy(&hierarchy, &self.background.list, &self.given);
            extras.push((Extra::Html, page.into_bytes()));
        }
        if self.options.svg.is_some() {
            extras.push((Extra::Svg, svg::hierarchy(&hierarchy).into_bytes()));
        }
        Ok(Answer {
            status: Status::Yes,
            line: hierarchy.counted(),
            full: full.into_bytes(),
            ending,
            json: hierarchy.json(),
            extras,
            notes: words.settled().to_vec(),
        })
    }

    /// The hierarchy in the form that the options ask for.
    fn ranked_form(
        &self,
        hierarchy: &Hierarchy,
        read: &[Input],
        names: &Names,
    ) -> (String, &'static str) {
        let Options { csv, dot, owl, .. } = &self.options;
        match (*csv, *dot, *owl) {
            (true, ..) => (hierarchy.csv(), "csv"),
            (_, true, _) => (hierarchy.dot(), "dot"),
            (.., true) => {
                let services = hierarchy.names.iter().zip(read);
                let asked = Asked {
                    pairs: &self.background.list.pairs,
                    dictionary: &[],
                    supplier: &[],
                    services: services
                        .map(|(name, input)| (name.as_str(), input.entries.as_slice()))
                        .collect(),
                    names,
                };
                (owl::ranked(&asked, hierarchy), "ofn")
            }
            _ => (
                format!("{}\n\n{}", hierarchy.counted(), hierarchy.text()),
                "txt",
            ),
        }
    }

    /// The blocks of an accepted input once unfolded: the call takes no dictionary.
    fn unfolded_bytes(&self, input: &Input) -> Result<Vec<u8>, Refusal> {
        match self.background.under().dictionary {
            [] => Ok(input.bytes.clone()),
            dictionary => library::unfold(dictionary, &input.bytes),
        }
    }
}

/// The library refuses a list of so many services as a whole.
fn too_many(count: usize) -> Trouble {
    let file = "the services".to_string();
    match library::read_ranked(count) {
        Err(refusal) => {
            let why = format!("they are {count} services, and the most is {MOST_SERVICES}");
            Refused::new(file, refusal, why).into()
        }
        Ok(()) => Trouble::Fault {
            file,
            why: "the library does not refuse too many services".into(),
        },
    }
}
