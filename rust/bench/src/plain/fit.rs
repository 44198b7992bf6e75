//! The fit answer.
//!
//! The 'every' entries of one place and link share a slot, so the path of links to a group leads to one place of the
//! description. Each group is looked at once, against that place.

use super::entry::{Entry, GROUP};
use super::names::{Names, ROOM};
use super::pairs::{Clashes, Pairs};
use super::read::{entry_at, read, Described, SPECIMEN};
use super::slots::{Key, Slots, BROKEN};
use super::{size, Refusal, Size};

/// The place of a group of which the description says nothing.
const NOWHERE: u16 = u16::MAX;

/// Whether the top item of a specimen fits a description.
pub fn fit(specimen: &[u8], description: &[u8]) -> Result<bool, Refusal> {
    under(None, specimen, Described::Sent(description))
}

/// The same under a list of properties that exclude each other, with a dictionary.
pub fn fit_with(
    pairs: &[u8],
    dictionary: &[u8],
    specimen: &[u8],
    description: &[u8],
) -> Result<bool, Refusal> {
    let pairs = Pairs::read(pairs)?;
    let Some(names) = Names::read(dictionary)? else {
        return under(pairs.as_ref(), specimen, Described::Sent(description));
    };
    let mut room = [0; ROOM];
    let description = match names.unfolded(description, 2, &mut room) {
        Ok(bytes) => Described::Unfolded(bytes),
        // The specimen's refusals come first.
        Err(refusal) => Described::Refused(refusal),
    };
    under(pairs.as_ref(), specimen, description)
}

fn under(pairs: Option<&Pairs>, specimen: &[u8], description: Described) -> Result<bool, Refusal> {
    match size(specimen.len().max(description.bytes().len())) {
        Size::Small => sized::<64, 64>(pairs, specimen, description),
        Size::Middle => sized::<256, 256>(pairs, specimen, description),
        Size::Large => sized::<2048, 1024>(pairs, specimen, description),
    }
}

/// Reads a specimen, and answers its number of entries.
#[inline(always)]
fn read_owned<const M: usize>(
    pairs: Option<&Pairs>,
    specimen: &[u8],
    owned: &mut Owned<M>,
) -> Result<usize, Refusal> {
    let Some(pairs) = pairs else {
        return read::<M>(specimen, &SPECIMEN, 1, |number, entry| {
            owned.enter(number, entry)
        });
    };
    let mut clashes = Clashes::<M>::new(pairs);
    let entries = read::<M>(specimen, &SPECIMEN, 1, |number, entry| {
        owned.enter(number, entry);
        clashes.enter(number, entry);
    })?;
    match clashes.first {
        0 => Ok(entries),
        first => Err(Refusal {
            number: 12,
            input: 1,
            place: first as u16,
        }),
    }
}

fn sized<const M: usize, const N: usize>(
    pairs: Option<&Pairs>,
    specimen: &[u8],
    description: Described,
) -> Result<bool, Refusal> {
    let mut owned = Owned::<M>::new();
    let entries = read_owned(pairs, specimen, &mut owned)?;
    let mut slots = Slots::<N>::new();
    description.read::<N>(2, |number, entry| slots.enter(number, entry))?;
    Ok(Fitting::new(specimen, &slots, &owned).all_fit(entries))
}

/// The entries of each owner: the last, and for each entry the one before it with the same owner.
struct Owned<const M: usize> {
    last: [u16; M],
    before: [u16; M],
}

impl<const M: usize> Owned<M> {
    fn new() -> Owned<M> {
        Owned {
            last: [0; M],
            before: [0; M],
        }
    }

    #[inline]
    fn enter(&mut self, number: usize, entry: Entry) {
        let last = &mut self.last[entry.owner()];
        self.before[number] = *last;
        *last = number as u16;
    }

    fn each(&self, owner: usize) -> impl Iterator<Item = usize> + '_ {
        let mut next = usize::from(self.last[owner]);
        std::iter::from_fn(move || {
            let number = next;
            next = usize::from(self.before[number]);
            (number != 0).then_some(number)
        })
    }
}

struct Fitting<'a, const M: usize, const N: usize> {
    specimen: &'a [u8],
    slots: &'a Slots<N>,
    owned: &'a Owned<M>,
    /// The place of the top and of each group of whose items the description speaks.
    places: [u16; M],
    /// How many slots of each place ask for at least one.
    needs: [u16; N],
    /// The number of each slot whose place says anything; otherwise nowhere.
    below: [u16; N],
    /// How many items the owner in hand has for each slot that it has met.
    totals: [Total; N],
    /// The slots that the owner in hand has met.
    met: [u16; N],
}

/// The items of one owner for a slot; of no other owner.
#[derive(Clone, Copy, Default)]
struct Total {
    /// The owner, counted from 1.
    turn: u32,
    items: u32,
}

impl<'a, const M: usize, const N: usize> Fitting<'a, M, N> {
    fn new(specimen: &'a [u8], slots: &'a Slots<N>, owned: &'a Owned<M>) -> Self {
        let mut places = [NOWHERE; M];
        places[0] = 0;
        let mut needs = [0; N];
        let mut below = [NOWHERE; N];
        for (number, slot) in slots.slots[..=slots.used].iter().enumerate().skip(1) {
            let place = slot.key.place();
            needs[place] += u16::from(slot.least > 0);
            below[place] = if place == 0 { NOWHERE } else { place as u16 };
            if slots.marks[number] & BROKEN != 0 {
                below[number] = number as u16;
            }
        }
        Fitting {
            specimen,
            slots,
            owned,
            places,
            needs,
            below,
            totals: [Total::default(); N],
            met: [0; N],
        }
    }

    /// Whether the top and each group that the description speaks of fit their places.
    fn all_fit(&mut self, entries: usize) -> bool {
        (0..=entries).all(|owner| match self.places[owner] {
            NOWHERE => true,
            place => self.fits(owner, usize::from(place)),
        })
    }

    fn fits(&mut self, owner: usize, place: usize) -> bool {
        if self.slots.marks[place] & BROKEN != 0 {
            return false;
        }
        let mut met = 0;
        for number in self.owned.each(owner) {
            let entry = entry_at(self.specimen, number);
            let is_group = entry.kind() == GROUP;
            let slot = self.slots.find(key(place, entry));
            let below = self.below[slot];
            self.places[number] = if is_group { below } else { NOWHERE };
            met = self.count(owner, slot, entry, met);
        }
        self.right(place, met)
    }

    /// Adds an entry's items to the total for its slot. A property that stands there twice counts twice, which is as good as
    /// once: no slot of a property asks for more than one, or for at most one.
    #[inline]
    fn count(&mut self, owner: usize, slot: usize, entry: Entry, met: usize) -> usize {
        let turn = owner as u32 + 1;
        let total = &mut self.totals[slot];
        let first = total.turn != turn;
        let earlier = if first { 0 } else { total.items };
        let items = earlier + u32::from(entry.number()) + 1;
        *total = Total { turn, items };
        // Where the slot is not new, the next one takes this cell.
        self.met[met] = slot as u16;
        met + usize::from(first)
    }

    /// Whether all totals are within their bounds, and no slot that asks for items was left out.
    fn right(&self, place: usize, met: usize) -> bool {
        let mut right = true;
        let mut needed = 0;
        for &number in &self.met[..met] {
            let slot = &self.slots.slots[usize::from(number)];
            let items = self.totals[usize::from(number)].items;
            right &= (slot.least <= items) & (items <= slot.most);
            needed += u16::from(slot.least > 0);
        }
        right & (needed == self.needs[place])
    }
}

/// The key for what a description says of an entry of a specimen.
#[inline]
fn key(place: usize, entry: Entry) -> Key {
    // Of the kinds of a specimen, groups are of the class of links.
    Key::of_kind(place, entry.kind(), entry.name())
}
