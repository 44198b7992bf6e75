//! The drafting desk: a description in the making, and stands to return to.

use std::collections::BTreeMap;

use crate::blocks::{length_in_blocks, write, Entry};
use crate::reading::{check_entries, Sort, MOST_ENTRIES};
use crate::refusal::{Refusal, FULL, NONE_LEFT, STAND};

/// The most stands of a desk.
const MOST_STANDS: usize = 4;

/// A desk: the description it holds, and the descriptions it held when its
/// stands were last named.
///
/// A desk here is only ever made by calls from the empty one, so it is never
/// one that no calls give.
#[derive(Clone, Debug, Default, PartialEq, Eq)]
pub struct Desk {
    held: Vec<Entry>,
    stands: BTreeMap<u16, Vec<Entry>>,
}

/// Each call answers the number of entries left, or a refusal of input 1, and
/// then nothing has changed.
impl Desk {
    /// Adds an entry at the end. To 1,008 none can be added (16); else the
    /// entry is refused as it would be when read, at the number that it would
    /// have. There is no dictionary.
    pub fn add(&mut self, entry: Entry) -> Result<usize, Refusal> {
        if self.held.len() >= MOST_ENTRIES {
            return Err(Refusal::at(FULL, 1, 0));
        }
        let mut longer = self.held.clone();
        longer.push(entry);
        check_entries(&longer, Sort::Description, 1)?;
        self.held = longer;
        Ok(self.held.len())
    }

    /// Takes off the last entry, if there is one (17).
    pub fn take_off(&mut self) -> Result<usize, Refusal> {
        match self.held.pop() {
            Some(_) => Ok(self.held.len()),
            None => Err(Refusal::at(NONE_LEFT, 1, 0)),
        }
    }

    /// Names a stand: what is held now is what it stands for, also if it stood
    /// for something else before. A fifth, or number 0, is refused (18).
    pub fn name(&mut self, stand: u16) -> Result<usize, Refusal> {
        let full = self.stands.len() >= MOST_STANDS && !self.stands.contains_key(&stand);
        if stand == 0 || full {
            return Err(Refusal::at(STAND, 1, 0));
        }
        self.stands.insert(stand, self.held.clone());
        Ok(self.held.len())
    }

    /// Goes back to a stand, which stays, as do the others. One that the desk
    /// doesn't have is refused (18).
    pub fn go_back(&mut self, stand: u16) -> Result<usize, Refusal> {
        match self.stands.get(&stand) {
            Some(stood) => self.held = stood.clone(),
            None => return Err(Refusal::at(STAND, 1, 0)),
        }
        Ok(self.held.len())
    }

    /// Drops a stand; what is held stays. A stand that the desk doesn't have is
    /// refused (18).
    pub fn drop_stand(&mut self, stand: u16) -> Result<usize, Refusal> {
        match self.stands.remove(&stand) {
            Some(_) => Ok(self.held.len()),
            None => Err(Refusal::at(STAND, 1, 0)),
        }
    }

    /// Writes the description in blocks; later bytes of the output stay. 7 is
    /// the answer exactly where the output is shorter than these blocks.
    pub fn write_out(&self, out: &mut [u8]) -> Result<usize, Refusal> {
        if out.len() < length_in_blocks(&self.held) {
            return Err(Refusal::output_too_short());
        }
        write(&self.held, out);
        Ok(self.held.len())
    }
}

/// A call of a desk.
#[derive(Clone, Copy, Debug, PartialEq, Eq)]
pub enum Call {
    /// Adds an entry at the end.
    Add(Entry),
    /// Takes off the last entry.
    TakeOff,
    /// Names a stand.
    Name(u16),
    /// Goes back to a stand.
    GoBack(u16),
    /// Drops a stand.
    Drop(u16),
    /// Writes the description over an output of this many bytes.
    Write(usize),
}

/// What a call of a desk came to.
#[derive(Clone, Debug, PartialEq, Eq)]
pub struct Outcome {
    /// The number of entries, or the refusal.
    pub answer: Result<usize, Refusal>,
    /// The bytes written, from the start of the output: none unless the call is
    /// [`Call::Write`] and is not refused.
    pub written: Vec<u8>,
}

/// What each call of a list answers, from an empty desk.
pub fn desk_answers(calls: &[Call]) -> Vec<Outcome> {
    let mut desk = Desk::default();
    calls.iter().map(|&call| outcome(&mut desk, call)).collect()
}

fn outcome(desk: &mut Desk, call: Call) -> Outcome {
    let mut written = Vec::new();
    let answer = match call {
        Call::Add(entry) => desk.add(entry),
        Call::TakeOff => desk.take_off(),
        Call::Name(stand) => desk.name(stand),
        Call::GoBack(stand) => desk.go_back(stand),
        Call::Drop(stand) => desk.drop_stand(stand),
        Call::Write(length) => {
            // Bytes beyond those to be written stay, so they need not be there.
            written.resize(length.min(length_in_blocks(&desk.held)), 0);
            let answer = desk.write_out(&mut written);
            if answer.is_err() {
                written.clear();
            }
            answer
        }
    };
    Outcome { answer, written }
}
