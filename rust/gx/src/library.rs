//! The calls of the proved library. Every answer that is printed comes from here. The calls under a list of properties that
//! exclude each other and a dictionary take these first; without pairs and descriptions they are the plain calls.

pub use goltximen::{Comparison, Desk, Fit, Lack, Reason, Refusal, Under};

use crate::blocks::{decode, encode, entry_bytes, BLOCK, BLOCK_ENTRIES};
use crate::entry::{Entry, Sort};

/// The bytes of the longest description, also once unfolded.
const MOST_BYTES: usize = 16 * BLOCK;

/// The number of entries of an input, or its refusal.
///
/// # Errors
///
/// The library's refusal.
pub fn read(sort: Sort, bytes: &[u8]) -> Result<u16, Refusal> {
    match sort {
        Sort::Description => goltximen::read_description(bytes),
        Sort::Specimen => goltximen::read_specimen(bytes),
    }
}

/// The number of entries of a field sheet, or its refusal.
///
/// # Errors
///
/// The library's refusal.
pub fn read_sheet(description: &[u8]) -> Result<u16, Refusal> {
    goltximen::read_sheet(description)
}

/// The refusal of a list of pairs, if it has one. No call reads a list alone: it is the first thing that a call looks at, so one
/// on an empty input tells.
///
/// # Errors
///
/// The library's refusal.
pub fn read_list(under: Under<'_>) -> Result<(), Refusal> {
    match under.normal_form(&[], &mut []) {
        Err(refusal) if refusal.reason == Reason::Pairs => Err(refusal),
        _ => Ok(()),
    }
}

/// The refusal of a dictionary, if it has one. No call reads a dictionary alone: it is looked at before the description, so one
/// without entries tells.
///
/// # Errors
///
/// The library's refusal.
pub fn read_dictionary(dictionary: &[u8]) -> Result<(), Refusal> {
    unfold(dictionary, &encode(&[])).map(|_| ())
}

/// The blocks of a description once unfolded.
///
/// # Errors
///
/// The library's refusal.
pub fn unfold(dictionary: &[u8], description: &[u8]) -> Result<Vec<u8>, Refusal> {
    let mut out = vec![0; MOST_BYTES];
    let entries = goltximen::unfold(dictionary, description, &mut out)?;
    out.truncate(length_of(entries));
    Ok(out)
}

/// The refusal of an accepted specimen that does not keep the list, if it has one. It is the last thing that is looked at before
/// the description, so an empty description tells.
///
/// # Errors
///
/// The library's refusal.
pub fn keeps(under: Under<'_>, specimen: &[u8]) -> Result<(), Refusal> {
    under.fit(specimen, &encode(&[])).map(|_| ())
}

/// Whether the top item of a specimen fits a description.
///
/// # Errors
///
/// The library's refusal.
pub fn fits(under: Under<'_>, specimen: &[u8], description: &[u8]) -> Result<bool, Refusal> {
    Ok(under.fit(specimen, description)? == Fit::Yes)
}

/// The blocks of a normal form.
///
/// # Errors
///
/// The library's refusal.
pub fn normal(under: Under<'_>, description: &[u8]) -> Result<Vec<u8>, Refusal> {
    let mut out = vec![0; MOST_BYTES];
    let entries = under.normal_form(description, &mut out)?;
    out.truncate(length_of(entries.into()));
    Ok(out)
}

/// Which entries of a supplier's plain description earn its being contained in a service's; none where it is not contained.
///
/// # Errors
///
/// The library's refusal.
pub fn earning(
    pairs: &[u8],
    supplier: &[Entry],
    service: &[Entry],
) -> Result<Option<Vec<bool>>, Refusal> {
    let mut out = vec![0; supplier.len()];
    let contained = goltximen::earning(pairs, &encode(supplier), &encode(service), &mut out)?;
    Ok(contained.then(|| marks(&out)))
}

/// Which entries of a service's plain description a supplier's does not say, each by itself with its owners.
///
/// # Errors
///
/// The library's refusal.
pub fn failing(pairs: &[u8], supplier: &[Entry], service: &[Entry]) -> Result<Vec<bool>, Refusal> {
    let mut out = vec![0; service.len()];
    goltximen::failing(pairs, &encode(supplier), &encode(service), &mut out)?;
    Ok(marks(&out))
}

/// What a supplier's plain description lacks to be contained in a service's, and which entries of the service's that is.
///
/// # Errors
///
/// The library's refusal: 1 where both have more than 16 blocks together.
pub fn missing(
    pairs: &[u8],
    supplier: &[Entry],
    service: &[Entry],
) -> Result<(Lack, Vec<bool>), Refusal> {
    let mut out = vec![0; service.len()];
    let lack = goltximen::missing(pairs, &encode(supplier), &encode(service), &mut out)?;
    Ok((lack, marks(&out)))
}

/// The blocks of the narrowest description that contains two.
///
/// # Errors
///
/// The library's refusal.
pub fn narrowest(under: Under<'_>, a: &[u8], b: &[u8]) -> Result<Vec<u8>, Refusal> {
    let mut out = vec![0; 2 * MOST_BYTES];
    let entries = under.narrowest(a, b, &mut out)?;
    out.truncate(length_of(entries.into()));
    Ok(out)
}

/// A byte for each entry as a mark.
fn marks(bytes: &[u8]) -> Vec<bool> {
    bytes.iter().map(|&byte| byte == 1).collect()
}

/// Which items of a delivered record fit a description.
///
/// # Errors
///
/// The library's refusal.
pub fn fit_all(
    under: Under<'_>,
    items: usize,
    record: &[u8],
    description: &[u8],
) -> Result<Vec<bool>, Refusal> {
    under.fit_all(items, record, description)
}

/// A step at a drafting desk.
#[derive(Clone, Copy, Debug, PartialEq, Eq)]
pub enum Step {
    /// An entry is added at the end.
    Add(Entry),
    /// The last entry is taken off.
    TakeOff,
    /// What is held is named as this stand.
    Stand(u16),
    /// Back to this stand.
    Back(u16),
    /// This stand is dropped.
    Drop(u16),
}

/// Makes a step at a desk; where it is refused nothing is altered.
///
/// # Errors
///
/// The library's refusal.
pub fn step(desk: &mut Desk, step: Step) -> Result<usize, Refusal> {
    let left = match step {
        Step::Add(e) => desk.add(entry_bytes(&e)),
        Step::TakeOff => desk.take_off(),
        Step::Stand(stand) => desk.name(stand),
        Step::Back(stand) => desk.go_back(stand),
        Step::Drop(stand) => desk.drop_stand(stand),
    };
    left.map(usize::from)
}

/// The blocks of the description that a desk holds.
///
/// # Errors
///
/// The library's refusal.
pub fn held(desk: &Desk) -> Result<Vec<u8>, Refusal> {
    let mut out = vec![0; MOST_BYTES];
    let entries = desk.write_out(&mut out)?;
    out.truncate(length_of(entries.into()));
    Ok(out)
}

/// A plain description in the stored form.
///
/// # Errors
///
/// The library's refusal.
pub fn to_stored(description: &[u8]) -> Result<Vec<u8>, Refusal> {
    let mut out = vec![0; MOST_BYTES];
    let entries = goltximen::to_stored(description, &mut out)?;
    out.truncate(goltximen::stored_bytes(entries));
    Ok(out)
}

/// The blocks of a description that is given in the stored form.
///
/// # Errors
///
/// The library's refusal.
pub fn from_stored(bytes: &[u8]) -> Result<Vec<u8>, Refusal> {
    let mut out = vec![0; MOST_BYTES];
    let entries = goltximen::from_stored(bytes, &mut out)?;
    out.truncate(length_of(entries));
    Ok(out)
}

/// What the comparison answers.
#[derive(Clone, Debug, PartialEq, Eq)]
pub enum Compared {
    /// Contained.
    Contained,
    /// Not contained: the first entry that fails, and the blocks of the specimen.
    NotContained {
        /// The entry of the second description.
        entry: usize,
        /// The blocks of the specimen.
        specimen: Vec<u8>,
    },
}

/// Compares two descriptions.
///
/// # Errors
///
/// The library's refusal.
pub fn compare(under: Under<'_>, c: &[u8], d: &[u8]) -> Result<Compared, Refusal> {
    let mut out = vec![0; 2 * MOST_BYTES];
    Ok(match under.compare(c, d, &mut out)? {
        Comparison::Contained => Compared::Contained,
        Comparison::NotContained { entry, entries } => {
            out.truncate(length_of(entries.into()));
            Compared::NotContained {
                entry: entry.into(),
                specimen: out,
            }
        }
    })
}

/// The most services of a list.
pub const MOST_SERVICES: usize = 64;

/// The refusal of a list of services as a whole, if it has one: its length is wrong, or it has too many. It is looked at after the
/// supplier's description and before the services, so one without entries tells. A first service that is too long has the same
/// number and place; but then the list has whole blocks.
///
/// # Errors
///
/// The library's refusal.
pub fn read_services(list: &[u8]) -> Result<(), Refusal> {
    let whole = !list.is_empty() && list.len().is_multiple_of(BLOCK);
    match Under::default().catalogue(&encode(&[]), list, &mut []) {
        Err(refusal) if refusal.reason == Reason::TooMany || !whole => Err(refusal),
        _ => Ok(()),
    }
}

/// Whether a supplier's description is contained in each of these services, at most [`MOST_SERVICES`].
///
/// # Errors
///
/// The library's refusal.
pub fn catalogue(
    under: Under<'_>,
    supplier: &[u8],
    services: &[&[u8]],
) -> Result<Vec<bool>, Refusal> {
    under.catalogue_of(supplier, services)
}

/// Services ranked: for each, by the places of the others in the list, from 0.
#[derive(Clone, Debug, PartialEq, Eq)]
pub struct Ranked {
    /// Whether each of the others contains it.
    pub table: Vec<Vec<bool>>,
    /// Whether each of the others is a direct superior.
    pub superiors: Vec<Vec<bool>>,
    /// The first of those that say the same.
    pub classes: Vec<usize>,
}

/// Ranks accepted plain services, at most [`MOST_SERVICES`], under a list of pairs.
///
/// # Errors
///
/// The library's refusal.
pub fn hierarchy(pairs: &[u8], services: &[&[u8]]) -> Result<Ranked, Refusal> {
    let mut out = vec![0; goltximen::hierarchy_bytes(MOST_SERVICES)];
    let ranked = goltximen::hierarchy(pairs, &services.concat(), &mut out)?;
    let rows = |bytes: &[u8]| {
        let rows = bytes.chunks_exact(ranked.count());
        rows.map(|row| row.iter().map(|&byte| byte == 1).collect())
            .collect()
    };
    let classes = ranked.classes().iter();
    Ok(Ranked {
        table: rows(ranked.table()),
        superiors: rows(ranked.superiors()),
        classes: classes.map(|&class| usize::from(class) - 1).collect(),
    })
}

/// The refusal of so many services, if they are too many.
///
/// # Errors
///
/// The library's refusal.
pub fn read_ranked(count: usize) -> Result<(), Refusal> {
    let list = encode(&[]).repeat(count);
    match goltximen::hierarchy(&[], &list, &mut []) {
        Err(refusal) if refusal.reason == Reason::TooMany => Err(refusal),
        _ => Ok(()),
    }
}

/// The bytes of the blocks that hold so many entries.
fn length_of(entries: usize) -> usize {
    BLOCK * entries.div_ceil(BLOCK_ENTRIES).max(1)
}

/// The entries of blocks that the library wrote or accepted.
pub fn entries(bytes: &[u8]) -> Vec<Entry> {
    decode(bytes)
}
