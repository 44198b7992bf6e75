//! Dictionaries: the descriptions that an entry of kind 9 stands for, their bytes, and where the entries of an unfolded description
//! come from.
//!
//! Nothing here judges: whether a dictionary is accepted, and what a description is once unfolded, is the library's answer.

use crate::blocks::{self, BLOCK};
use crate::entry::{Entry, Named};
use crate::names::Names;
use crate::text::Position;

/// The most descriptions that the library takes.
pub const MOST_DESCRIPTIONS: usize = 64;

/// A description of a dictionary.
#[derive(Clone, Debug, Default, PartialEq, Eq)]
pub struct Part {
    /// The entries.
    pub entries: Vec<Entry>,
    /// Where it begins in the text, if the dictionary is one.
    pub at: Option<Position>,
    /// Where each entry stands in the text.
    pub positions: Vec<Position>,
}

/// A dictionary that the library accepts; the default has no descriptions.
#[derive(Clone, Debug, Default)]
pub struct Dictionary {
    /// The file's name without its folder, or "standard input".
    pub title: String,
    /// The descriptions.
    pub parts: Vec<Part>,
    /// Their bytes, one after the other.
    pub bytes: Vec<u8>,
    /// The words: those given, and then those of the text itself.
    pub names: Names,
}

/// The descriptions as bytes, one after the other.
pub fn encode(parts: &[Part]) -> Vec<u8> {
    let blocks = parts.iter().map(|part| blocks::encode(&part.entries));
    blocks.flatten().collect()
}

/// The bytes of each description: the first block begins one, and so does each later block that has the number 1.
pub fn split(bytes: &[u8]) -> Vec<&[u8]> {
    let blocks = (1..).zip(bytes.chunks_exact(BLOCK));
    let later = blocks.filter(|(_, block)| block.starts_with(&[1, 0]));
    let later = later.map(|(number, _)| (number - 1) * BLOCK);
    let mut starts: Vec<usize> = later.filter(|&start| start > 0).collect();
    if !bytes.is_empty() {
        starts.insert(0, 0);
    }
    let ends = starts.iter().skip(1).copied().chain([bytes.len()]);
    let ranges = starts.iter().zip(ends);
    ranges.map(|(&start, end)| &bytes[start..end]).collect()
}

/// The descriptions in these bytes.
pub fn decode(bytes: &[u8]) -> Vec<Part> {
    let parts = split(bytes).into_iter().map(|part| Part {
        entries: blocks::decode(part),
        ..Part::default()
    });
    parts.collect()
}

/// What the entries of a description may name.
#[derive(Clone, Copy, Debug)]
pub enum Naming<'a> {
    /// Nothing: it is for a call that takes no dictionary.
    Nothing,
    /// Nothing either: it has to be a field sheet.
    Sheet,
    /// Any description that some dictionary may have.
    Any,
    /// The descriptions of this dictionary.
    All(&'a Dictionary),
    /// Those that come before this one, in the dictionary that both stand in.
    Before(&'a Dictionary, Named),
}

/// The bytes of a dictionary that has every description that may be named, each without entries.
pub fn any() -> Vec<u8> {
    blocks::encode(&[]).repeat(MOST_DESCRIPTIONS)
}

/// Where an entry of an unfolded description comes from.
#[derive(Clone, Debug, Default, PartialEq, Eq)]
pub struct Origin {
    /// The entry of the description as it was sent: this one, or the named one that it was put in for.
    pub sent: usize,
    /// The descriptions that it was put in from and the entry in each, from the one that is named in what was sent to the one that
    /// has the entry itself. There are none where it was sent as it is.
    pub within: Vec<(Named, usize)>,
}

/// How large a description is once unfolded.
#[derive(Clone, Debug, PartialEq, Eq)]
pub struct Measure {
    /// The entries before each one, and after these all of them.
    before: Vec<usize>,
    /// The depth of the deepest entry, if there is an entry.
    pub deepest: Option<usize>,
}

impl Measure {
    /// The entries once unfolded.
    pub fn entries(&self) -> usize {
        self.before.last().copied().unwrap_or(0)
    }
}

impl Dictionary {
    /// How large each of the first descriptions is once unfolded, up to this many. One that is not earlier counts as empty.
    pub fn measures(&self, count: usize) -> Vec<Measure> {
        let mut measures = Vec::new();
        for part in self.parts.iter().take(count) {
            measures.push(measure(&part.entries, &measures));
        }
        measures
    }

    /// Where each entry of the unfolded description comes from; of entries that are not what these names lead to, none.
    pub fn origins(&self, sent: &[Entry], plain: &[Entry]) -> Vec<Origin> {
        let measures = self.measures(self.parts.len());
        let whole = measure(sent, &measures);
        let all = (0..plain.len()).map(|at| self.origin(sent, &whole, &measures, at));
        let all: Vec<(Origin, Entry)> = all.collect();
        let same = |((_, e), plain): (&(Origin, Entry), &Entry)| {
            Entry { owner: 0, ..*e } == Entry { owner: 0, ..*plain }
        };
        if whole.entries() != plain.len() || !all.iter().zip(plain).all(same) {
            return Vec::new();
        }
        all.into_iter().map(|(origin, _)| origin).collect()
    }

    /// Where the entry with this many before it comes from, and that entry.
    fn origin(
        &self,
        sent: &[Entry],
        whole: &Measure,
        measures: &[Measure],
        at: usize,
    ) -> (Origin, Entry) {
        let (mut entries, mut measured, mut at) = (sent, whole, at);
        let mut origin = Origin::default();
        loop {
            // Of entries with the same number before them the last is the one: the others are put in as nothing.
            let number = measured.before.partition_point(|&before| before <= at);
            let e = number.checked_sub(1).and_then(|index| entries.get(index));
            let e = e.copied().unwrap_or_default();
            match origin.within.last_mut() {
                Some((_, entry)) => *entry = number,
                None => origin.sent = number,
            }
            let named = e.says().named();
            let index = named.map(|named| usize::from(named.0).wrapping_sub(1));
            let found =
                index.and_then(|index| Some((measures.get(index)?, self.parts.get(index)?)));
            let (Some(named), Some((measure, part))) = (named, found) else {
                return (origin, e);
            };
            at -= measured.before[number - 1];
            origin.within.push((named, 0));
            // A description names only earlier ones, so this ends.
            (entries, measured) = (&part.entries, measure);
        }
    }
}

/// How large a description is once unfolded, where these are the descriptions that it may name.
pub fn measure(entries: &[Entry], earlier: &[Measure]) -> Measure {
    let mut before = vec![0];
    let mut total = 0usize;
    let mut deepest = None;
    let mut depths: Vec<usize> = Vec::new();
    for e in entries {
        let owner = usize::from(e.owner).checked_sub(1);
        let depth = owner.map_or(0, |owner| depths.get(owner).map_or(0, |depth| depth + 1));
        depths.push(depth);
        let put_in = e
            .says()
            .named()
            .map(|named| earlier.get(usize::from(named.0).wrapping_sub(1)));
        let (size, below) = match put_in {
            None => (1, Some(0)),
            Some(measure) => (
                measure.map_or(0, Measure::entries),
                measure.and_then(|measure| measure.deepest),
            ),
        };
        total = total.saturating_add(size);
        deepest = deepest.max(below.map(|below| depth + below));
        before.push(total);
    }
    Measure { before, deepest }
}
