//! The entries that earn a yes: leaving out is tried from the last to the first, a run of entries at once, longer after each that goes and
//! shorter after each that does not.

use super::compare::{look, top};
use super::entry::{Entry, EVERY};
use super::pairs::Pairs;
use super::read::{read, DESCRIPTION};
use super::slots::Slots;
use super::{size, Refusal, Size, TOO_SHORT};

/// Marks the entries of C that earn its being contained in D, a byte for each, and answers whether it is.
pub fn earning(pairs: &[u8], c: &[u8], d: &[u8], out: &mut [u8]) -> Result<bool, Refusal> {
    let pairs = Pairs::read(pairs)?;
    match size(c.len().max(d.len())) {
        Size::Small => sized::<64>(pairs.as_ref(), c, d, out),
        Size::Middle => sized::<256>(pairs.as_ref(), c, d, out),
        Size::Large => sized::<1024>(pairs.as_ref(), c, d, out),
    }
}

fn sized<const N: usize>(
    pairs: Option<&Pairs>,
    c: &[u8],
    d: &[u8],
    out: &mut [u8],
) -> Result<bool, Refusal> {
    let (said, asked) = (Listed::<N>::read(c, 1)?, Listed::<N>::read(d, 2)?);
    let out = out.get_mut(..said.count).ok_or(TOO_SHORT)?;
    let mut kept = said.says();
    let contained = is_contained(pairs, &said, &kept, &asked);
    if contained {
        fold(said.count, &mut kept, |kept| {
            is_contained(pairs, &said, kept, &asked)
        });
        said.mark_owners(&mut kept);
    } else {
        kept = [false; N];
    }
    for (byte, &kept) in out.iter_mut().zip(&kept[1..]) {
        *byte = u8::from(kept);
    }
    Ok(contained)
}

/// The entries of a description, counted from 1.
pub struct Listed<const N: usize> {
    pub entries: [Entry; N],
    pub count: usize,
}

impl<const N: usize> Listed<N> {
    pub fn read(bytes: &[u8], input: u16) -> Result<Listed<N>, Refusal> {
        let mut entries = [Entry(0); N];
        let count = read::<N>(bytes, &DESCRIPTION, input, |number, entry| {
            entries[number] = entry;
        })?;
        Ok(Listed { entries, count })
    }

    pub fn numbered(&self) -> impl Iterator<Item = (usize, Entry)> + '_ {
        (1..).zip(self.entries[1..=self.count].iter().copied())
    }

    /// The entries that may be left out.
    fn says(&self) -> [bool; N] {
        let mut says = [false; N];
        for (number, entry) in self.numbered() {
            says[number] = entry.kind() != EVERY;
        }
        says
    }

    /// Puts the owners of what is kept into the set. Owners stand before what they own.
    pub fn mark_owners(&self, kept: &mut [bool; N]) {
        for number in (1..=self.count).rev() {
            kept[self.entries[number].owner()] |= kept[number];
        }
    }
}

/// Leaves out what can be left out, from the last entry to the first, where all of the set is enough. An 'every' says nothing by itself
/// and is no part of the set.
fn fold<const N: usize>(
    count: usize,
    kept: &mut [bool; N],
    mut is_enough: impl FnMut(&[bool; N]) -> bool,
) {
    let before = *kept;
    let (mut to, mut run, mut searching) = (count, 1, false);
    while to > 0 {
        let tried = run.min(to);
        let from = to - tried;
        if tried == 1 && !kept[to] {
            to = from;
            continue;
        }
        kept[from + 1..=to].fill(false);
        let goes = is_enough(kept);
        if !goes {
            kept[from + 1..=to].copy_from_slice(&before[from + 1..=to]);
        }
        if goes || tried == 1 {
            to = from;
        }
        (run, searching) = match goes && !searching {
            true => (2 * tried, false),
            false => ((tried / 2).max(1), goes || tried != 1),
        };
    }
}

/// Whether the 'every' entries of C and those of the set are contained in D.
fn is_contained<const N: usize>(
    pairs: Option<&Pairs>,
    said: &Listed<N>,
    kept: &[bool; N],
    asked: &Listed<N>,
) -> bool {
    let mut slots = Slots::<N>::new();
    for (number, entry) in said.numbered() {
        if kept[number] || entry.kind() == EVERY {
            slots.enter(number, entry);
        }
    }
    if let Some(pairs) = pairs {
        slots.restrict(pairs);
    }
    slots.settle();
    let mut states = [top(&slots); N];
    for (number, entry) in asked.numbered() {
        let (holds, below) = look(pairs, &slots, states[entry.owner()], entry);
        if !holds {
            return false;
        }
        states[number] = below;
    }
    true
}
