//! Vectors: calls with their bytes, and the line that the reference gives for each.
//!
//! A vector is a header of eight words of two bytes, low byte first, and then the bytes of what the call is given:
//!
//! | Bytes of the header | Word |
//! |---|---|
//! | 0-1 | the number of the call, see [`Call`] |
//! | 2-3 | the length of the list of pairs |
//! | 4-5 | the length of the dictionary |
//! | 6-7 | the length of input 1 |
//! | 8-9 | the length of input 2, which of the catalogue and the hierarchy is the list of services; 0 for a call of one input |
//! | 10-11 | the length of the output, 0 for a call without one |
//! | 12-15 | the number of items of a delivered record, low byte first; 0 for the other calls |
//!
//! After byte 15 come the list, the dictionary, input 1 and input 2, with nothing between them and nothing before the next header. The
//! fit answer, the normal form, the comparison, the narrowest, the catalogue and the call on delivered items are always made with the
//! list and the dictionary, which may be empty; the unfolding is made with the dictionary, and its list has length 0; the hierarchy and
//! what earns a yes, fails or lacks for one are made with the list, and their dictionary has length 0, as has the hierarchy's input 1;
//! the three readers, the stored form's two calls and the desk take neither. A call without pairs is one with a list of length 0, and one without a
//! dictionary one with a dictionary of length 0. No length of a dictionary is above [`MOST_DICTIONARY`], none of a list of services
//! above [`MOST_LIST`], and no other above [`MOST_LENGTH`]. Each byte of the output is [`FILL`] before the call.
//!
//! Input 1 of a desk is calls on an empty desk, 9 bytes each ([`rows_of`]): what it is (1 to add, 2 to take off, 3 to name, 4 to go
//! back, 5 to drop, 6 to write out), and then the entry, or in two bytes the stand or how many bytes of the output there are, and 0.

use std::fmt;

use reference::{Comparison, Missing, Refusal};

use crate::agree::{bytes_of, entry_of};
use crate::excluding::Given;
use crate::{drawn, named, word};

/// Each byte of an output before the call.
pub const FILL: u8 = 165;
/// The most bytes of a list, input or output of a vector: 34 blocks.
pub const MOST_LENGTH: usize = 17_408;
/// The most bytes of a dictionary of a vector: 66 blocks.
pub const MOST_DICTIONARY: usize = 33_792;
/// The most bytes of the list of services of a vector: 66 blocks.
pub const MOST_LIST: usize = 33_792;
/// The most vectors of a list.
pub const MOST_VECTORS: usize = 3000;
/// What the digest of an output stays below, the largest prime below 2^32.
const MODULUS: u64 = 4_294_967_291;

/// The calls, with their numbers in a header.
#[derive(Clone, Copy, Debug, PartialEq, Eq)]
pub enum Call {
    /// Input 1 is read as a description.
    Description = 1,
    /// Input 1 is read as a specimen.
    Specimen = 2,
    /// The fit answer for the specimen in input 1 and the description in input 2, under the list and the dictionary.
    Fit = 3,
    /// The normal form of input 1, under the list and the dictionary.
    NormalForm = 4,
    /// Input 1 compared with input 2, under the list and the dictionary.
    Compare = 5,
    /// Input 1 unfolded, with the dictionary.
    Unfold = 6,
    /// Input 1 compared with each service of the list in input 2, under the list of pairs and the dictionary.
    Catalogue = 7,
    /// The services of the list in input 2 ranked, under the list of pairs.
    Hierarchy = 8,
    /// Input 1 is read as a field sheet.
    Sheet = 9,
    /// The items of the delivered record in input 1 judged by input 2, under the list and the dictionary.
    Items = 10,
    /// Input 1 written in the stored form.
    ToStored = 11,
    /// Input 1, in the stored form, written as a description.
    FromStored = 12,
    /// What of input 1 earns that it is contained in input 2, under the list.
    Earning = 13,
    /// The calls in input 1, on an empty desk.
    Desk = 14,
    /// Which entries of input 2 fail for input 1, under the list.
    Failing = 15,
    /// What input 1 lacks for input 2, under the list.
    Missing = 16,
    /// The narrowest description that contains input 1 and input 2, under the list and the dictionary.
    Narrowest = 17,
}

impl Call {
    /// Whether the call has an output.
    pub fn writes(self) -> bool {
        !matches!(
            self,
            Call::Description | Call::Specimen | Call::Sheet | Call::Fit
        )
    }
}

impl fmt::Display for Call {
    fn fmt(&self, f: &mut fmt::Formatter<'_>) -> fmt::Result {
        f.write_str(match self {
            Call::Description => "description",
            Call::Specimen => "specimen",
            Call::Fit => "fit",
            Call::NormalForm => "normal form",
            Call::Compare => "compare",
            Call::Unfold => "unfold",
            Call::Catalogue => "catalogue",
            Call::Hierarchy => "hierarchy",
            Call::Sheet => "sheet",
            Call::Items => "fit all",
            Call::ToStored => "to stored",
            Call::FromStored => "from stored",
            Call::Earning => "earning",
            Call::Desk => "desk",
            Call::Failing => "failing",
            Call::Missing => "missing",
            Call::Narrowest => "narrowest",
        })
    }
}

/// What the reference answers.
#[derive(Clone, Debug, PartialEq, Eq)]
pub enum Answer {
    /// An accepted input of so many entries.
    Accepted(usize),
    /// Whether the top item fits, or whether input 1 is contained in input 2.
    Fits(bool),
    /// So many entries that are written, or bytes that are filled.
    Wrote(usize),
    /// The answer of the comparison.
    Compared(Comparison),
    /// What is missing.
    Lacks(Missing),
    /// A refusal.
    Refused(Refusal),
    /// What each call of a desk answers: entries, or a refusal.
    Drafted(Vec<Result<usize, Refusal>>),
}

impl Answer {
    /// The words of the answer without its numbers; of a refusal the number and the input.
    fn sort(&self) -> String {
        match self {
            Answer::Accepted(_) => " accepted".to_string(),
            Answer::Wrote(_) | Answer::Drafted(_) => String::new(),
            Answer::Compared(Comparison::NotContained { .. }) => " not contained".to_string(),
            Answer::Refused(Refusal { number, input, .. }) => {
                format!(" refused {number} input {input}")
            }
            whole => whole.to_string(),
        }
    }
}

impl fmt::Display for Answer {
    fn fmt(&self, f: &mut fmt::Formatter<'_>) -> fmt::Result {
        match self {
            Answer::Accepted(entries) => write!(f, " accepted {entries}"),
            Answer::Fits(true) => f.write_str(" yes"),
            Answer::Fits(false) => f.write_str(" no"),
            Answer::Wrote(entries) => write!(f, " {entries}"),
            Answer::Compared(Comparison::Contained) => f.write_str(" contained"),
            Answer::Compared(Comparison::NotContained { entry, entries }) => {
                write!(f, " not contained {entry} entries {entries}")
            }
            Answer::Lacks(Missing::NothingToAdd) => f.write_str(" nothing"),
            Answer::Lacks(Missing::ToBeAdded) => f.write_str(" addable"),
            Answer::Lacks(Missing::NothingFitsBoth) => f.write_str(" against"),
            Answer::Refused(Refusal {
                number,
                input,
                place,
            }) => write!(f, " refused {number} input {input} place {place}"),
            Answer::Drafted(answers) => answers.iter().try_for_each(|answer| match answer {
                Ok(entries) => write!(f, " {entries}"),
                Err(refusal) => Answer::Refused(*refusal).fmt(f),
            }),
        }
    }
}

/// A call with what it is given and the length of its output.
#[derive(Clone, Debug, PartialEq, Eq)]
pub struct Vector {
    /// The call.
    pub call: Call,
    /// The list and the dictionary.
    pub given: Given,
    /// Input 1.
    pub first: Vec<u8>,
    /// Input 2; empty for a call of one input.
    pub second: Vec<u8>,
    /// The length of the output; 0 for a call without one.
    pub output: usize,
    /// How many items a delivered record has; 0 for the other calls.
    pub total: usize,
}

impl Vector {
    /// Reading as a description.
    pub fn description(first: Vec<u8>) -> Vector {
        Vector::of(Call::Description, first, Vec::new(), 0)
    }

    /// Reading as a specimen.
    pub fn specimen(first: Vec<u8>) -> Vector {
        Vector::of(Call::Specimen, first, Vec::new(), 0)
    }

    /// Reading as a field sheet.
    pub fn sheet(first: Vec<u8>) -> Vector {
        Vector::of(Call::Sheet, first, Vec::new(), 0)
    }

    /// The fit answer.
    pub fn fit(specimen: Vec<u8>, description: Vec<u8>) -> Vector {
        Vector::of(Call::Fit, specimen, description, 0)
    }

    /// The normal form, with an output of this length.
    pub fn normal_form(description: Vec<u8>, output: usize) -> Vector {
        Vector::of(Call::NormalForm, description, Vec::new(), output)
    }

    /// The comparison, with an output of this length.
    pub fn compare(c: Vec<u8>, d: Vec<u8>, output: usize) -> Vector {
        Vector::of(Call::Compare, c, d, output)
    }

    /// The unfolding, with an output of this length.
    pub fn unfold(description: Vec<u8>, output: usize) -> Vector {
        Vector::of(Call::Unfold, description, Vec::new(), output)
    }

    /// The catalogue, with an output of this length.
    pub fn catalogue(c: Vec<u8>, list: Vec<u8>, output: usize) -> Vector {
        Vector::of(Call::Catalogue, c, list, output)
    }

    /// The hierarchy, with an output of this length.
    pub fn hierarchy(list: Vec<u8>, output: usize) -> Vector {
        Vector::of(Call::Hierarchy, Vec::new(), list, output)
    }

    /// The items of a delivered record of so many, with an output of this length.
    pub fn items(total: usize, record: Vec<u8>, description: Vec<u8>, output: usize) -> Vector {
        Vector {
            total,
            ..Vector::of(Call::Items, record, description, output)
        }
    }

    /// A description written in the stored form, with an output of this length.
    pub fn to_stored(description: Vec<u8>, output: usize) -> Vector {
        Vector::of(Call::ToStored, description, Vec::new(), output)
    }

    /// A stored input written as a description, with an output of this length.
    pub fn from_stored(stored: Vec<u8>, output: usize) -> Vector {
        Vector::of(Call::FromStored, stored, Vec::new(), output)
    }

    /// What earns a yes, with an output of this length.
    pub fn earning(c: Vec<u8>, d: Vec<u8>, output: usize) -> Vector {
        Vector::of(Call::Earning, c, d, output)
    }

    /// Which entries fail, with an output of this length.
    pub fn failing(c: Vec<u8>, d: Vec<u8>, output: usize) -> Vector {
        Vector::of(Call::Failing, c, d, output)
    }

    /// What is missing, with an output of this length.
    pub fn missing(c: Vec<u8>, d: Vec<u8>, output: usize) -> Vector {
        Vector::of(Call::Missing, c, d, output)
    }

    /// The narrowest of two, with an output of this length.
    pub fn narrowest(a: Vec<u8>, b: Vec<u8>, output: usize) -> Vector {
        Vector::of(Call::Narrowest, a, b, output)
    }

    /// Calls on an empty desk, with an output of this length.
    pub fn desk(calls: &[reference::Call], output: usize) -> Vector {
        Vector::of(Call::Desk, rows_of(calls), Vec::new(), output)
    }

    fn of(call: Call, first: Vec<u8>, second: Vec<u8>, output: usize) -> Vector {
        Vector {
            call,
            given: Given::default(),
            first,
            second,
            output,
            total: 0,
        }
    }

    /// The same call under a list of these pairs.
    pub fn under(self, pairs: &[(u16, u16)]) -> Vector {
        self.given(Given::pairs(pairs))
    }

    /// The same call with this dictionary, and its list as it is.
    pub fn with(self, dictionary: &[u8]) -> Vector {
        let pairs = self.given.pairs.clone();
        let dictionary = dictionary.to_vec();
        self.given(Given { pairs, dictionary })
    }

    /// The same call with this list and dictionary.
    pub fn given(self, given: Given) -> Vector {
        Vector { given, ..self }
    }

    /// What the header says the lengths of: the list, the dictionary and the inputs.
    pub fn parts(&self) -> [&[u8]; 4] {
        let Given { pairs, dictionary } = &self.given;
        [pairs, dictionary, &self.first, &self.second]
    }

    /// The header, and the list, the dictionary and the inputs.
    pub fn bytes(&self) -> Vec<u8> {
        let mut header = vec![self.call as usize];
        header.extend(self.parts().map(<[u8]>::len));
        header.extend([self.output, self.total, self.total >> 16]);
        let mut bytes: Vec<u8> = header
            .into_iter()
            .flat_map(|n| word(n).to_le_bytes())
            .collect();
        bytes.extend(self.parts().concat());
        bytes
    }

    /// What the reference answers, and the output after the call.
    pub fn answer(&self) -> (Answer, Vec<u8>) {
        let [pairs, dict, first, second] = self.parts();
        let mut out = vec![FILL; self.output];
        let answer = match self.call {
            Call::Description => reference::read_description(first).map(Answer::Accepted),
            Call::Specimen => reference::read_specimen(first).map(Answer::Accepted),
            Call::Sheet => reference::read_sheet(first).map(Answer::Accepted),
            Call::Fit => reference::fit_with(pairs, dict, first, second).map(Answer::Fits),
            Call::NormalForm => {
                reference::normal_with(pairs, dict, first, &mut out).map(Answer::Wrote)
            }
            Call::Compare => {
                reference::compare_with(pairs, dict, first, second, &mut out).map(Answer::Compared)
            }
            Call::Unfold => reference::unfold(dict, first, &mut out).map(Answer::Wrote),
            Call::Catalogue => {
                reference::catalogue(pairs, dict, first, second, &mut out).map(Answer::Wrote)
            }
            Call::Hierarchy => reference::hierarchy(pairs, second, &mut out).map(Answer::Wrote),
            Call::Items => reference::fit_all(pairs, dict, self.total, first, second, &mut out)
                .map(Answer::Wrote),
            Call::ToStored => reference::to_stored(first, &mut out).map(Answer::Wrote),
            Call::FromStored => reference::from_stored(first, &mut out).map(Answer::Wrote),
            Call::Earning => reference::earning(pairs, first, second, &mut out).map(Answer::Fits),
            Call::Failing => reference::failing(pairs, first, second, &mut out).map(Answer::Fits),
            Call::Missing => reference::missing(pairs, first, second, &mut out).map(Answer::Lacks),
            Call::Narrowest => {
                reference::narrowest(pairs, dict, first, second, &mut out).map(Answer::Wrote)
            }
            Call::Desk => Ok(Answer::Drafted(drafted(first, &mut out))),
        };
        (answer.unwrap_or_else(Answer::Refused), out)
    }

    /// The sort of the answer: the call and the words of the answer without its numbers; of a refusal the number and the input.
    pub fn sort(&self) -> String {
        format!("{}{}", self.call, self.answer().0.sort())
    }

    /// The line that is printed for the vector with this number, without its end.
    pub fn line(&self, number: usize) -> String {
        let (answer, out) = self.answer();
        let line = format!("{number} {}{answer}", self.call);
        if self.call.writes() {
            return format!("{line} output {}", digest(&out));
        }
        line
    }
}

/// Calls of a desk as bytes, 9 each.
pub fn rows_of(calls: &[reference::Call]) -> Vec<u8> {
    let row = |call: &reference::Call| {
        let (number, word) = match *call {
            reference::Call::Add(entry) => {
                let mut row = [1; 9];
                row[1..].copy_from_slice(&bytes_of(entry));
                return row;
            }
            reference::Call::TakeOff => (2, 0),
            reference::Call::Name(stand) => (3, stand),
            reference::Call::GoBack(stand) => (4, stand),
            reference::Call::Drop(stand) => (5, stand),
            reference::Call::Write(length) => (6, word(length)),
        };
        let [low, high] = word.to_le_bytes();
        [number, low, high, 0, 0, 0, 0, 0, 0]
    };
    calls.iter().flat_map(row).collect()
}

/// The calls of these bytes.
pub fn calls_of(rows: &[u8]) -> Vec<reference::Call> {
    let call = |row: &[u8]| {
        let stand = u16::from_le_bytes([row[1], row[2]]);
        match row[0] {
            1 => reference::Call::Add(entry_of(&row[1..])),
            2 => reference::Call::TakeOff,
            3 => reference::Call::Name(stand),
            4 => reference::Call::GoBack(stand),
            5 => reference::Call::Drop(stand),
            _ => reference::Call::Write(stand.into()),
        }
    };
    rows.chunks_exact(9).map(call).collect()
}

/// What the reference answers to each of these calls on an empty desk, which write to this output.
fn drafted(rows: &[u8], out: &mut [u8]) -> Vec<Result<usize, Refusal>> {
    let outcomes = reference::desk_answers(&calls_of(rows));
    let answers = outcomes.into_iter().map(|outcome| {
        out[..outcome.written.len()].copy_from_slice(&outcome.written);
        outcome.answer
    });
    answers.collect()
}

/// The digest of an output: each byte is added to 257 times what came before.
pub fn digest(bytes: &[u8]) -> u64 {
    bytes
        .iter()
        .fold(0, |h, &byte| (h * 257 + u64::from(byte)) % MODULUS)
}

/// All vectors, in order.
pub fn all() -> Vec<Vector> {
    let lists = [
        named::limits(),
        named::checks(),
        named::single_links(),
        named::excluding::all(),
        named::naming::all(),
        named::catalogue::all(),
        named::hierarchy::all(),
        named::sheets::all(),
        named::items::all(),
        named::stored::all(),
        named::earning::all(),
        named::failing::all(),
        named::missing::all(),
        named::narrowest::all(),
        named::drafting::all(),
        named::doubles::all(),
        named::desk(),
        named::report(),
        drawn::drawn(),
        drawn::listed(),
        drawn::naming(),
        drawn::catalogues(),
        drawn::at_the_limit(),
    ];
    lists.into_iter().flatten().collect()
}

/// What is read: the vectors one after the other.
pub fn standard_input(vectors: &[Vector]) -> Vec<u8> {
    vectors.iter().flat_map(Vector::bytes).collect()
}

/// What has to be printed: a line for each vector.
pub fn standard_output(vectors: &[Vector]) -> String {
    let lines = (1..).zip(vectors);
    lines
        .map(|(number, vector)| vector.line(number) + "\n")
        .collect()
}
