//! Lists of properties that exclude each other, by property.

use super::entry::{Entry, HAS};
use super::read::refusal;
use super::seen::Seen;
use super::slots::Slots;
use super::Refusal;

/// The most pairs of a list.
const MOST: usize = 64;
/// The bytes of a pair.
const PAIR: usize = 4;
/// The pairs of a list in both orders, and one cell that is none of them.
const CELLS: usize = 2 * MOST + 1;

/// The pairs of a list, each in both orders, counted from 1.
pub struct Pairs {
    /// The last pair for each low byte of its first property.
    last: [u8; 256],
    /// For each pair the one before it with the same low byte.
    before: [u8; CELLS],
    pairs: [(u16, u16); CELLS],
    used: u8,
}

impl Pairs {
    /// Reads a list; none where it is empty.
    pub fn read(list: &[u8]) -> Result<Option<Pairs>, Refusal> {
        let refused = |place| refusal(11, 0, place);
        let (stored, rest) = list.as_chunks::<PAIR>();
        if !rest.is_empty() || stored.len() > MOST {
            return Err(refused(0));
        }
        let mut pairs = Pairs {
            last: [0; 256],
            before: [0; CELLS],
            pairs: [(0, 0); CELLS],
            used: 0,
        };
        for (place, &[a, b, c, d]) in (1..).zip(stored) {
            let (one, other) = (u16::from_le_bytes([a, b]), u16::from_le_bytes([c, d]));
            if one == 0 || other == 0 || one == other {
                return Err(refused(place));
            }
            pairs.enter(one, other);
            pairs.enter(other, one);
        }
        Ok((!stored.is_empty()).then_some(pairs))
    }

    fn enter(&mut self, one: u16, other: u16) {
        self.used += 1;
        let last = &mut self.last[low_byte(one)];
        self.before[usize::from(self.used)] = *last;
        self.pairs[usize::from(self.used)] = (one, other);
        *last = self.used;
    }

    /// The properties that exclude this one.
    #[inline]
    pub fn partners(&self, property: u16) -> impl Iterator<Item = u16> + '_ {
        let mut next = self.last[low_byte(property)];
        let each = std::iter::from_fn(move || {
            let number = usize::from(next);
            next = self.before[number];
            (number != 0).then(|| self.pairs[number])
        });
        each.filter_map(move |(one, other)| (one == property).then_some(other))
    }

    /// Whether a place has a property that excludes this one.
    #[inline]
    pub fn excluded<const N: usize>(&self, slots: &Slots<N>, place: usize, property: u16) -> bool {
        let mut partners = self.partners(property);
        partners.any(|partner| slots.has(place, partner))
    }
}

#[inline]
fn low_byte(property: u16) -> usize {
    usize::from(property & 0xff)
}

/// The listed properties that a specimen's items have so far, and the first entry that completes a pair.
pub struct Clashes<'a, const M: usize> {
    pairs: &'a Pairs,
    /// Made with the first listed property.
    seen: Option<Seen<M>>,
    /// The first entry that completes a pair, or 0.
    pub first: usize,
}

impl<'a, const M: usize> Clashes<'a, M> {
    pub fn new(pairs: &'a Pairs) -> Clashes<'a, M> {
        Clashes {
            pairs,
            seen: None,
            first: 0,
        }
    }

    /// Takes in an entry.
    #[inline]
    pub fn enter(&mut self, number: usize, entry: Entry) {
        let (owner, property) = (entry.owner(), entry.name());
        let mut partners = self.pairs.partners(property).peekable();
        if self.first != 0 || entry.kind() != HAS || partners.peek().is_none() {
            return;
        }
        let seen = self.seen.get_or_insert_with(Seen::new);
        if partners.any(|partner| seen.contains(owner, partner)) {
            self.first = number;
        }
        seen.insert(owner, property);
    }
}
