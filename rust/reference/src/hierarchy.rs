//! A list of services as a hierarchy, from special to general.

use crate::blocks::Entry;
use crate::catalogue::read_services;
use crate::compare::first_that_fails;
use crate::pairs::Pairs;
use crate::reading::{read, Sort};
use crate::refusal::Refusal;
use crate::rules::normal_place;
use crate::tree::top_place;

/// Writes which of n services are contained in which, which are the direct
/// superiors of which, and the class of each, and answers the number of bytes
/// filled: twice n times n, and n. Later bytes stay.
///
/// A row is that of the one that is contained. The list is input 2 and its
/// services are inputs 2 to 65, as for the call that compares one description
/// with all services; there is no input 1 and no dictionary. 7 is the answer
/// exactly where the output is shorter than the bytes to be filled.
pub fn hierarchy(pairs: &[u8], list: &[u8], out: &mut [u8]) -> Result<usize, Refusal> {
    let pairs = Pairs::read(pairs)?;
    let services = read_services(list, |service, input| {
        read(service, Sort::Description, input)
    })?;
    let n = services.len();
    let length = n.saturating_mul(n).saturating_mul(2).saturating_add(n);
    let Some(answers) = out.get_mut(..length) else {
        return Err(Refusal::output_too_short());
    };
    let bytes = Table::of(&services, &pairs).bytes();
    for (answer, byte) in answers.iter_mut().zip(bytes) {
        *answer = byte;
    }
    Ok(length)
}

/// For each service, for each service, whether the first is contained in the
/// second.
struct Table(Vec<Vec<bool>>);

impl Table {
    fn of(services: &[Vec<Entry>], pairs: &Pairs) -> Table {
        let row = |c: &Vec<Entry>| {
            let n = normal_place(top_place(c), pairs);
            let contained = |d: &Vec<Entry>| first_that_fails(&n, d, pairs).is_none();
            services.iter().map(contained).collect()
        };
        Table(services.iter().map(row).collect())
    }

    /// The table, the superiors, row by row, and the classes.
    fn bytes(&self) -> Vec<u8> {
        let all = 0..self.0.len();
        let cells = || all.clone().flat_map(|c| all.clone().map(move |d| (c, d)));
        let mut bytes: Vec<u8> = cells().map(|(c, d)| u8::from(self.holds(c, d))).collect();
        bytes.extend(cells().map(|(c, d)| u8::from(self.is_superior(c, d))));
        bytes.extend(all.clone().map(|c| self.class(c)));
        bytes
    }

    /// Whether c is contained in d.
    fn holds(&self, c: usize, d: usize) -> bool {
        let cell = self.0.get(c).and_then(|row| row.get(d));
        cell.copied().unwrap_or(false)
    }

    /// Whether c is contained in d and d is not contained in c.
    fn strictly(&self, c: usize, d: usize) -> bool {
        self.holds(c, d) && !self.holds(d, c)
    }

    /// Whether d strictly contains c with no third strictly between.
    fn is_superior(&self, c: usize, d: usize) -> bool {
        let between = |third| self.strictly(c, third) && self.strictly(third, d);
        self.strictly(c, d) && !(0..self.0.len()).any(between)
    }

    /// The lowest position, from 1, of a service that contains this one and is
    /// contained in it.
    fn class(&self, c: usize) -> u8 {
        let alike = |&d: &usize| self.holds(c, d) && self.holds(d, c);
        let lowest = (0..self.0.len()).find(alike).unwrap_or(c);
        u8::try_from(lowest.saturating_add(1)).unwrap_or(u8::MAX)
    }
}
