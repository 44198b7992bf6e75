//! Unfolding of a description that is not refused.
//!
//! Descriptions that are named wait on a stack of at most 64, and each is gone through once: where it is named again, its contents
//! are taken from what is already there. Names of what comes to nothing are passed over.

use super::entry::{Entry, EVERY};
use super::names::Names;
use super::read::{stored, Block};
use super::rows::Rows;

/// The most descriptions that are open at a time: the input, and each of the dictionary within it.
const MOST_OPEN: usize = 65;
/// The contents of a description are not there yet.
const NOT_YET: u16 = u16::MAX;

/// A description that is gone through.
#[derive(Clone, Copy)]
struct Open<'a> {
    /// The entries left of a block, and the blocks after it.
    left: &'a [[u8; 8]],
    later: &'a [Block],
    /// The number of the entry before these.
    number: usize,
    /// The owner of its top entries.
    owner: u16,
    /// How many 'every' entries of the descriptions around it are kept.
    kept: usize,
}

impl<'a> Open<'a> {
    fn new(blocks: &'a [Block], owner: u16, kept: usize) -> Open<'a> {
        Open {
            left: &[],
            later: blocks,
            number: 0,
            owner,
            kept,
        }
    }

    /// The next entry with its number, if there is one more.
    #[inline]
    fn next(&mut self) -> Option<(usize, Entry)> {
        if self.left.is_empty() {
            let (block, later) = self.later.split_first()?;
            (self.left, self.later) = (stored(block), later);
        }
        let (&bytes, left) = self.left.split_first()?;
        self.left = left;
        self.number += 1;
        Some((self.number, Entry(u64::from_le_bytes(bytes))))
    }
}

/// What the entries of the open descriptions are numbered.
struct Numbers<const N: usize> {
    /// For the top and for each 'every' of the innermost description what it is numbered.
    now: [u16; 1024],
    /// The 'every' entries of all open ones with their numbers: no more than are written in the end.
    kept: [[(u16, u16); 2]; N],
    used: usize,
}

impl<const N: usize> Numbers<N> {
    fn new() -> Numbers<N> {
        Numbers {
            now: [0; 1024],
            kept: [[(0, 0); 2]; N],
            used: 0,
        }
    }

    #[inline]
    fn keep(&mut self, every: usize, number: u16) {
        self.now[every] = number;
        self.kept.as_flattened_mut()[self.used] = (every as u16, number);
        self.used += 1;
    }

    /// Makes the description around this one the innermost again.
    fn close(&mut self, inner: &Open, outer: &Open) {
        self.used = inner.kept;
        self.now[0] = outer.owner;
        for &(every, number) in &self.kept.as_flattened()[outer.kept..self.used] {
            self.now[usize::from(every)] = number;
        }
    }
}

/// Writes a description of at most twice N entries once unfolded into an output that is long enough.
pub fn unfold_into<const N: usize>(names: &Names, description: &[Block], out: &mut [u8]) {
    let mut rows = Rows::<N>::new();
    let mut numbers = Numbers::<N>::new();
    // After how many entries the contents of each name stand.
    let mut after = [NOT_YET; MOST_OPEN];
    let mut open = [Open::new(description, 0, 0); MOST_OPEN];
    let mut depth = 0;
    loop {
        if let Some((name, owner)) = take(names, &mut open[depth], &after, &mut rows, &mut numbers)
        {
            after[name] = rows.used() as u16;
            depth += 1;
            open[depth] = Open::new(names.part(name), owner, numbers.used);
            numbers.now[0] = owner;
            continue;
        }
        if depth == 0 {
            break;
        }
        depth -= 1;
        numbers.close(&open[depth + 1], &open[depth]);
    }
    rows.write(out);
}

/// Goes through a description up to its end, or to a name whose contents are not there yet: that name and its owner.
#[inline]
fn take<const N: usize>(
    names: &Names,
    open: &mut Open,
    after: &[u16; MOST_OPEN],
    rows: &mut Rows<N>,
    numbers: &mut Numbers<N>,
) -> Option<(usize, u16)> {
    while let Some((number, entry)) = open.next() {
        let owner = numbers.now[entry.owner()];
        if !entry.is_named() {
            rows.push_if(true, entry.owned_by(owner));
            if entry.kind() == EVERY {
                numbers.keep(number, rows.used() as u16);
            }
            continue;
        }
        let name = usize::from(entry.name());
        match (names.entries(name), after[name]) {
            (0, _) => (),
            (_, NOT_YET) => return Some((name, owner)),
            (entries, after) => rows.repeat(after.into(), entries, owner),
        }
    }
    None
}
