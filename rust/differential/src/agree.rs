//! The calls on both sides, compared.
//!
//! Each function here makes one call of the proved library and of the reference on the same bytes. It gives the
//! answer if both agree and all else that the specification says of the answer is so, and otherwise the difference.
//! Those that are made under a list are the plain calls where the list and the dictionary are empty: then these are
//! made too, and have to give the same. Those that are made with a dictionary are made again with none, on the
//! unfolded descriptions, and have to give the same.

mod catalogue;
mod desk;
mod earning;
mod failing;
mod hierarchy;
mod items;
mod missing;
mod narrowest;
mod sheets;
mod stored;

use std::fmt;

use goltximen::Under;
use reference::{encode, Comparison, Entry, Refusal};

use crate::catalogue::{cut, MOST_SERVICES};
use crate::chance::Chance;
use crate::damage::Sort;
use crate::excluding::Given;
use crate::{length_of, BLOCK, MOST_DESCRIPTION};

pub use catalogue::catalogue;
pub use desk::{bytes_of, desk_bytes, entry_of, is_given, Drafting};
pub use earning::earning;
pub use failing::failing;
pub use hierarchy::hierarchy;
pub use items::fit_all;
pub use missing::missing;
pub use narrowest::narrowest;
pub use sheets::read_sheet;
pub use stored::{from_stored, to_stored};

/// What both answered.
#[derive(Clone, Copy, Debug, PartialEq, Eq, PartialOrd, Ord)]
pub enum Answer {
    /// A refusal, with its number and input.
    Refused(u8, u16),
    /// A number of entries, or of bytes that are filled.
    Count(usize),
    /// The top item fits.
    Yes,
    /// It does not.
    No,
    /// 'Contained'.
    Contained,
    /// 'Not contained', with the entry that fails and the number of specimen entries.
    NotContained(usize, usize),
}

/// Where the two do not agree, or where an answer is not what the specification says of it.
#[derive(Clone, Debug)]
pub struct Difference {
    /// The call and what is wrong.
    pub what: String,
    /// The list and the dictionary of the call.
    pub given: Given,
    /// The inputs of the call.
    pub inputs: Vec<Vec<u8>>,
}

impl fmt::Display for Difference {
    fn fmt(&self, f: &mut fmt::Formatter<'_>) -> fmt::Result {
        writeln!(f, "{}", self.what)?;
        write_bytes(f, "pairs", &self.given.pairs)?;
        write_bytes(f, "dictionary", &self.given.dictionary)?;
        for (number, input) in (1..).zip(&self.inputs) {
            write_bytes(f, &format!("input {number}"), input)?;
        }
        Ok(())
    }
}

/// A line with these bytes.
fn write_bytes(f: &mut fmt::Formatter<'_>, name: &str, bytes: &[u8]) -> fmt::Result {
    write!(f, "{name}, {} bytes: ", bytes.len())?;
    for byte in bytes {
        write!(f, "{byte:02x}")?;
    }
    writeln!(f)
}

impl std::error::Error for Difference {}

/// A call, by its name, what it is given and its inputs.
#[derive(Clone, Copy)]
struct Case<'a> {
    call: &'static str,
    under: Under<'a>,
    inputs: &'a [&'a [u8]],
}

impl Case<'_> {
    fn difference(&self, what: &str) -> Difference {
        Difference {
            what: format!("{}: {what}", self.call),
            given: given(self.under),
            inputs: self.inputs.iter().map(|input| input.to_vec()).collect(),
        }
    }

    /// A difference unless this is so.
    fn ensure(&self, so: bool, what: &str) -> Result<(), Difference> {
        if so {
            return Ok(());
        }
        Err(self.difference(what))
    }

    /// A difference unless the plain call gives the same, where there is no list and no dictionary.
    fn ensure_plain(&self, same: impl FnOnce() -> bool) -> Result<(), Difference> {
        let so = self.under != Under::default() || same();
        self.ensure(so, "the call without a list answers otherwise")
    }

    /// A difference unless the call gives the same without the dictionary on the unfolded descriptions, if none is refused.
    fn ensure_unfolded<const N: usize>(
        &self,
        descriptions: [&[u8]; N],
        same: impl FnOnce(Under, [&[u8]; N]) -> bool,
    ) -> Result<(), Difference> {
        let dictionary = self.under.dictionary;
        if dictionary.is_empty() {
            return Ok(());
        }
        let unfolded = descriptions.map(|d| unfolded(dictionary, d));
        if unfolded.iter().any(Option::is_none) {
            return Ok(());
        }
        let alone = Under {
            dictionary: &[],
            ..self.under
        };
        let plain = unfolded.each_ref().map(|d| d.as_deref().unwrap_or(&[]));
        self.ensure(
            same(alone, plain),
            "the call on what is unfolded answers otherwise",
        )
    }

    /// The answer that both gave.
    fn same<T: PartialEq + fmt::Debug>(&self, proved: T, plain: T) -> Result<T, Difference> {
        if proved == plain {
            return Ok(plain);
        }
        Err(self.difference(&format!(
            "the library answers {proved:?}, the reference {plain:?}"
        )))
    }

    /// The output is the same in both, and is as it was from this byte on.
    fn same_output(&self, run: &Run, written: usize) -> Result<(), Difference> {
        let differs = run.proved.iter().zip(&run.plain).position(|(a, b)| a != b);
        if let Some(at) = differs {
            return Err(self.difference(&format!("output byte {at} differs")));
        }
        let later = run.proved.get(written..) == run.before.get(written..);
        self.ensure(later, "a byte is changed that is due to stay")
    }
}

/// The same as bytes of its own.
fn given(under: Under) -> Given {
    Given {
        pairs: under.pairs.to_vec(),
        dictionary: under.dictionary.to_vec(),
    }
}

/// The blocks of a description once it is unfolded, by the library, or none if it or the dictionary is refused.
fn unfolded(dictionary: &[u8], d: &[u8]) -> Option<Vec<u8>> {
    let mut out = vec![0; length_of(MOST_DESCRIPTION)];
    let entries = goltximen::unfold(dictionary, d, &mut out).ok()?;
    out.truncate(length_of(entries));
    Some(out)
}

/// The blocks that a call goes by: those of the description once it is unfolded. As they are if it is refused.
pub fn plain(under: Under, d: &[u8]) -> Vec<u8> {
    let named = !under.dictionary.is_empty();
    let unfolded = named.then(|| unfolded(under.dictionary, d)).flatten();
    unfolded.unwrap_or_else(|| d.to_vec())
}

/// An output of noise, and what the two make of it.
struct Run {
    before: Vec<u8>,
    proved: Vec<u8>,
    plain: Vec<u8>,
}

impl Run {
    fn new(chance: &mut Chance, length: usize) -> Run {
        let before = chance.noise(length);
        Run {
            proved: before.clone(),
            plain: before.clone(),
            before,
        }
    }

    /// Whether this call, made on the output as it was, gives this answer and writes what the library wrote.
    fn repeats<T: PartialEq>(&self, answer: &T, call: impl FnOnce(&mut [u8]) -> T) -> bool {
        let mut out = self.before.clone();
        call(&mut out) == *answer && out == self.proved
    }
}

/// A refusal of the library in the reference's form.
fn in_form(refusal: goltximen::Refusal) -> Refusal {
    Refusal {
        number: refusal.reason.number(),
        input: refusal.input,
        place: u32::from(refusal.place),
    }
}

/// The answer for a refusal.
fn refused(refusal: Refusal) -> Answer {
    Answer::Refused(refusal.number, refusal.input)
}

/// The refusal of the output alone.
const TOO_SHORT: Refusal = Refusal {
    number: 7,
    input: 0,
    place: 0,
};

/// The refusal of the list of pairs, if it has one: it is looked at before the lengths of the inputs.
fn of_pairs(under: Under) -> Option<Refusal> {
    let refusal = under.fit(&[], &[]).err();
    let of_pairs = refusal.filter(|refusal| refusal.reason == goltximen::Reason::Pairs);
    of_pairs.map(in_form)
}

/// The services of a list, or the refusal of the list as a whole.
fn services_of(list: &[u8]) -> Result<Vec<&[u8]>, Refusal> {
    let of_list = |number| Refusal {
        number,
        input: 2,
        place: 0,
    };
    if list.is_empty() || !list.len().is_multiple_of(BLOCK) {
        return Err(of_list(1));
    }
    let services = cut(list);
    match services.len() > MOST_SERVICES {
        true => Err(of_list(8)),
        false => Ok(services),
    }
}

/// Whether a description is contained in another, by the library; refused is not.
fn is_contained(under: Under, c: &[u8], d: &[u8]) -> bool {
    let mut out = vec![0; 2 * length_of(MOST_DESCRIPTION)];
    under.compare(c, d, &mut out) == Ok(goltximen::Comparison::Contained)
}

/// Reads a description.
///
/// # Errors
///
/// The difference.
pub fn read_description(bytes: &[u8]) -> Result<Answer, Difference> {
    let answers = (
        goltximen::read_description(bytes),
        reference::read_description(bytes),
    );
    read("read description", bytes, answers)
}

/// Reads a specimen.
///
/// # Errors
///
/// The difference.
pub fn read_specimen(bytes: &[u8]) -> Result<Answer, Difference> {
    let answers = (
        goltximen::read_specimen(bytes),
        reference::read_specimen(bytes),
    );
    read("read specimen", bytes, answers)
}

/// Reads an accepted input after two entries of one block were exchanged. It is refused as 2 at this block, or not as 1, 2 or 3 if
/// there is none.
///
/// # Errors
///
/// The difference.
pub fn exchanged(sort: Sort, bytes: &[u8], told: Option<u32>) -> Result<Answer, Difference> {
    let case = Case {
        call: "read after an exchange",
        under: Under::default(),
        inputs: &[bytes],
    };
    let (answer, proved) = match sort {
        Sort::Description => (read_description(bytes)?, goltximen::read_description(bytes)),
        Sort::Specimen => (read_specimen(bytes)?, goltximen::read_specimen(bytes)),
    };
    let refusal = proved.err().map(in_form);
    let as_stated = match told {
        Some(place) => refusal.is_some_and(|r| (r.number, r.input, r.place) == (2, 1, place)),
        None => refusal.is_none_or(|r| r.number > 3),
    };
    case.ensure(
        as_stated,
        "the answer is not what distance and word sums say",
    )?;
    Ok(answer)
}

/// What reading answered on both sides, if it is the same.
fn read(
    call: &'static str,
    bytes: &[u8],
    (proved, plain): (Result<u16, goltximen::Refusal>, Result<usize, Refusal>),
) -> Result<Answer, Difference> {
    let case = Case {
        call,
        under: Under::default(),
        inputs: &[bytes],
    };
    let answer = case.same(proved.map(usize::from).map_err(in_form), plain)?;
    Ok(answer.map_or_else(refused, Answer::Count))
}

/// The fit answer.
///
/// # Errors
///
/// The difference.
pub fn fit(under: Under, specimen: &[u8], description: &[u8]) -> Result<Answer, Difference> {
    let case = Case {
        call: "fit",
        under,
        inputs: &[specimen, description],
    };
    let Under { pairs, dictionary } = under;
    let proved = under.fit(specimen, description);
    case.ensure_plain(|| goltximen::fit(specimen, description) == proved)?;
    case.ensure_unfolded([description], |alone, [d]| alone.fit(specimen, d) == proved)?;
    let proved = proved
        .map(|fit| fit == goltximen::Fit::Yes)
        .map_err(in_form);
    let plain = reference::fit_with(pairs, dictionary, specimen, description);
    let answer = case.same(proved, plain)?;
    if pairs.is_empty() && dictionary.is_empty() {
        counted_fit(&case, specimen, description, answer)?;
    }
    Ok(match answer {
        Ok(true) => Answer::Yes,
        Ok(false) => Answer::No,
        Err(refusal) => refused(refusal),
    })
}

/// The same call with its additions: the answer, each group added once in making the table, and none in the walk.
fn counted_fit(
    case: &Case,
    specimen: &[u8],
    description: &[u8],
    answer: Result<bool, Refusal>,
) -> Result<(), Difference> {
    let counted = goltximen::fit_counted(specimen, description)
        .map(|counted| {
            let fits = counted.fit == goltximen::Fit::Yes;
            (fits, usize::from(counted.table), usize::from(counted.walk))
        })
        .map_err(in_form);
    case.same(counted, answer.map(|fits| (fits, groups(specimen), 0)))
        .map(|_| ())
}

/// The groups of an accepted specimen: its table of totals adds each once, and the walk none.
fn groups(specimen: &[u8]) -> usize {
    let group = |entry: &[u8]| entry[0] == 7;
    let blocks = specimen.chunks_exact(512);
    // Unused entries are of zero bytes.
    blocks
        .map(|block| block[4..508].chunks_exact(8).filter(|e| group(e)).count())
        .sum()
}

/// The normal form, with an output of this length. A normal form is written in the blocks that its entries need, has no more
/// entries than its original, and is its own normal form under the same list.
///
/// # Errors
///
/// The difference.
pub fn normal_form(
    chance: &mut Chance,
    under: Under,
    d: &[u8],
    length: usize,
) -> Result<Answer, Difference> {
    let written = written_normal_form(chance, under, d, length)?;
    Ok(written.map_or_else(refused, |(entries, _)| Answer::Count(entries)))
}

/// The blocks that the normal form of an accepted description is written in, from the start of an output that is as long as is
/// needed or longer.
///
/// # Errors
///
/// The difference.
pub fn normal_blocks(chance: &mut Chance, under: Under, d: &[u8]) -> Result<Vec<u8>, Difference> {
    let longer = chance.one_of([0, 1, 511, 512, 1500]);
    let length = plain(under, d).len() + longer;
    let written = written_normal_form(chance, under, d, length)?;
    let case = Case {
        call: "normal form",
        under,
        inputs: &[d],
    };
    let blocks = written.map(|(_, blocks)| blocks);
    blocks.map_err(|_| case.difference("an accepted description is refused"))
}

/// The normal form as above: its entries and its blocks, or the refusal.
fn written_normal_form(
    chance: &mut Chance,
    under: Under,
    d: &[u8],
    length: usize,
) -> Result<Result<(usize, Vec<u8>), Refusal>, Difference> {
    let case = Case {
        call: "normal form",
        under,
        inputs: &[d],
    };
    let mut run = Run::new(chance, length);
    let proved = under.normal_form(d, &mut run.proved);
    case.ensure_plain(|| run.repeats(&proved, |out| goltximen::normal_form(d, out)))?;
    case.ensure_unfolded([d], |alone, [d]| {
        run.repeats(&proved, |out| alone.normal_form(d, out))
    })?;
    let proved = proved.map(usize::from).map_err(in_form);
    let other = reference::normal_with(under.pairs, under.dictionary, d, &mut run.plain);
    let answer = case.same(proved, other)?;
    case.same_output(&run, answer.map_or(0, length_of))?;
    let entries = match answer {
        Ok(entries) => entries,
        Err(refusal) => return Ok(Err(refusal)),
    };
    let plain_d = plain(under, d);
    let most = goltximen::read_description(&plain_d).map_or(0, usize::from);
    case.ensure(entries <= most, "more entries than the original")?;
    let written = run.proved.get(..length_of(entries)).unwrap_or(&[]);
    let mut again = chance.noise(written.len());
    let count = under.normal_form(written, &mut again).map(usize::from);
    case.ensure(
        count == Ok(entries),
        "its normal form has another number of entries",
    )?;
    case.ensure(again == written, "its normal form has other bytes")?;
    Ok(Ok((entries, again)))
}

/// The comparison, with an output of this length. A 'not contained' has to be shown by its specimen under the same list.
///
/// # Errors
///
/// The difference.
pub fn compare(
    chance: &mut Chance,
    under: Under,
    c: &[u8],
    d: &[u8],
    length: usize,
) -> Result<Answer, Difference> {
    let case = Case {
        call: "compare",
        under,
        inputs: &[c, d],
    };
    let mut run = Run::new(chance, length);
    let proved = under.compare(c, d, &mut run.proved);
    case.ensure_plain(|| run.repeats(&proved, |out| goltximen::compare(c, d, out)))?;
    case.ensure_unfolded([c, d], |alone, [c, d]| {
        run.repeats(&proved, |out| alone.compare(c, d, out))
    })?;
    let proved = proved.map(comparison).map_err(in_form);
    let plain = reference::compare_with(under.pairs, under.dictionary, c, d, &mut run.plain);
    let answer = case.same(proved, plain)?;
    let (entry, entries) = match answer {
        Ok(Comparison::NotContained { entry, entries }) => (entry, entries),
        Ok(Comparison::Contained) => return case.same_output(&run, 0).map(|()| Answer::Contained),
        Err(refusal) => return case.same_output(&run, 0).map(|()| refused(refusal)),
    };
    let written = length_of(entries);
    case.same_output(&run, written)?;
    let specimen = run.proved.get(..written).unwrap_or(&[]);
    shows(&case, specimen, entries)?;
    first_that_fails(&case, entry)?;
    Ok(Answer::NotContained(entry, entries))
}

/// The unfolding, with an output of this length. What is written is a plain description, which is its own unfolding; a description
/// that names nothing is written as it is.
///
/// # Errors
///
/// The difference.
pub fn unfold(
    chance: &mut Chance,
    dictionary: &[u8],
    d: &[u8],
    length: usize,
) -> Result<Answer, Difference> {
    let case = Case {
        call: "unfold",
        under: Under {
            pairs: &[],
            dictionary,
        },
        inputs: &[d],
    };
    let mut run = Run::new(chance, length);
    let proved = goltximen::unfold(dictionary, d, &mut run.proved).map_err(in_form);
    let other = reference::unfold(dictionary, d, &mut run.plain);
    let answer = case.same(proved, other)?;
    case.same_output(&run, answer.map_or(0, length_of))?;
    let Ok(entries) = answer else {
        return Ok(answer.map_or_else(refused, Answer::Count));
    };
    let written = run.proved.get(..length_of(entries)).unwrap_or(&[]);
    case.ensure(
        read_description(written)? == Answer::Count(entries),
        "what is written is no plain description of so many entries",
    )?;
    let named = reference::decode(d).iter().any(|e| e.kind == 9);
    case.ensure(named || written == d, "nothing is named, and bytes change")?;
    for dictionary in [dictionary, &[]] {
        let mut again = chance.noise(written.len());
        let count = goltximen::unfold(dictionary, written, &mut again).map_err(in_form);
        case.ensure(
            count == Ok(entries) && again == written,
            "what is written is not its own unfolding",
        )?;
    }
    Ok(Answer::Count(entries))
}

/// An answer of the library in the reference's form.
fn comparison(answer: goltximen::Comparison) -> Comparison {
    match answer {
        goltximen::Comparison::Contained => Comparison::Contained,
        goltximen::Comparison::NotContained { entry, entries } => Comparison::NotContained {
            entry: usize::from(entry),
            entries: usize::from(entries),
        },
    }
}

/// The specimen is accepted, has so many entries and no more than C and D together, and its top item fits C and not D.
fn shows(case: &Case, specimen: &[u8], entries: usize) -> Result<(), Difference> {
    let &[c, d] = case.inputs else {
        return Ok(());
    };
    let count = read_specimen(specimen)?;
    case.ensure(
        count == Answer::Count(entries),
        "the specimen is not accepted with this number of entries",
    )?;
    let most = [c, d].map(|input| {
        let read = goltximen::read_description(&plain(case.under, input));
        read.map_or(0, usize::from)
    });
    case.ensure(
        entries <= most[0] + most[1],
        "the specimen has more entries than C and D together",
    )?;
    case.ensure(
        fit(case.under, specimen, c)? == Answer::Yes,
        "the specimen's top item does not fit C",
    )?;
    case.ensure(
        fit(case.under, specimen, d)? == Answer::No,
        "the specimen's top item fits D",
    )
}

/// The entries of D, unfolded, before the one that fails are a description that C is contained in, and with it they are not.
fn first_that_fails(case: &Case, entry: usize) -> Result<(), Difference> {
    let &[c, d] = case.inputs else {
        return Ok(());
    };
    let plain_d = plain(case.under, d);
    let entries = reference::decode(&plain_d);
    let before = entry
        .checked_sub(1)
        .and_then(|before| entries.get(..before));
    let Some(before) = before else {
        return Err(case.difference("D has no entry with this number"));
    };
    let mut out = vec![0; plain(case.under, c).len() + plain_d.len()];
    let holds = case.under.compare(c, &encode(before), &mut out);
    case.ensure(
        holds == Ok(goltximen::Comparison::Contained),
        "an earlier entry fails",
    )?;
    let with = encode(entries.get(..entry).unwrap_or(&[]));
    let fails = case.under.compare(c, &with, &mut out).map(comparison);
    let found = matches!(fails, Ok(Comparison::NotContained { entry: e, .. }) if e == entry);
    case.ensure(found, "the entry alone with its earlier ones does not fail")
}

/// The comparison of two accepted descriptions of which it is known that the first is contained in the second.
///
/// # Errors
///
/// The difference.
pub fn contained(
    chance: &mut Chance,
    under: Under,
    c: &[Entry],
    d: &[Entry],
) -> Result<Answer, Difference> {
    let (c, d) = (encode(c), encode(d));
    let length = plain(under, &c).len() + plain(under, &d).len();
    let answer = compare(chance, under, &c, &d, length)?;
    let case = Case {
        call: "compare",
        under,
        inputs: &[&c, &d],
    };
    case.ensure(
        answer == Answer::Contained,
        "D asks less than C and the answer is not 'contained'",
    )?;
    Ok(answer)
}

/// A difference that was found without the other side.
pub(crate) fn found(what: &str, under: Under, inputs: &[&[Entry]]) -> Difference {
    Difference {
        what: what.to_string(),
        given: given(under),
        inputs: inputs.iter().map(|entries| encode(entries)).collect(),
    }
}
