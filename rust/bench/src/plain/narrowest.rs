//! The narrowest description of two, with no dictionary.

use super::entry::{HAS, LACKS};
use super::normal::{fill, write};
use super::order::{slot_of, Order};
use super::pairs::Pairs;
use super::read::{refusal, Described};
use super::rows::Rows;
use super::slots::{Key, Slot, Slots, NO_BOUND};
use super::{size, Refusal, Size, BLOCK, TOO_SHORT};

/// The most blocks of both together, and the most entries of a result.
const MOST_BLOCKS: usize = 16;
const MOST_ENTRIES: usize = 1008;
/// The place of a side that the other side's stands for whole.
const NOWHERE: u16 = u16::MAX;
/// More slots than a result has: those of both sides, and one for each lack that neither lists.
const MOST: usize = 2048;

/// Writes the narrowest description that contains both, in normal form, and answers its number of entries.
pub fn narrowest(pairs: &[u8], a: &[u8], b: &[u8], out: &mut [u8]) -> Result<usize, Refusal> {
    let pairs = Pairs::read(pairs)?;
    match size(a.len().saturating_add(b.len())) {
        Size::Small | Size::Middle => sized::<256>(pairs.as_ref(), a, b, out),
        Size::Large => sized::<1024>(pairs.as_ref(), a, b, out),
    }
}

fn sized<const N: usize>(
    pairs: Option<&Pairs>,
    a: &[u8],
    b: &[u8],
    out: &mut [u8],
) -> Result<usize, Refusal> {
    let sides = Sides::<N> {
        pairs,
        first: settled(pairs, a, 1)?,
        second: settled(pairs, b, 2)?,
    };
    let both = a.len() + b.len();
    if both > MOST_BLOCKS * BLOCK {
        return Err(refusal(1, 2, 0));
    }
    if out.len() < both {
        return Err(TOO_SHORT);
    }
    if sides.first.is_broken() {
        return Ok(write(&sides.second, out));
    }
    if sides.second.is_broken() {
        return Ok(write(&sides.first, out));
    }
    // Where lacks that neither lists make it longer than both, once more with more room.
    match sides.joined::<N>() {
        Some(joined) => write_joined(joined, out),
        None => write_joined(sides.joined::<MOST>().ok_or(TOO_SHORT)?, out),
    }
}

fn settled<const N: usize>(
    pairs: Option<&Pairs>,
    description: &[u8],
    input: u16,
) -> Result<Slots<N>, Refusal> {
    let mut slots = Slots::new();
    Described::Sent(description).read::<N>(input, |number, entry| slots.enter(number, entry))?;
    if let Some(pairs) = pairs {
        slots.restrict(pairs);
    }
    slots.settle();
    Ok(slots)
}

/// Places that come out empty are told by settling.
fn write_joined<const M: usize>(mut joined: Joined<M>, out: &mut [u8]) -> Result<usize, Refusal> {
    joined.slots.settle();
    let mut rows = Rows::<M>::new();
    fill(&joined.slots, &mut rows);
    if rows.used() > MOST_ENTRIES || out.len() < rows.bytes() {
        return Err(TOO_SHORT);
    }
    Ok(rows.write(out))
}

/// The slots of the result, and the places of each side for each place of the result, which has the number of its slot.
struct Joined<const M: usize> {
    slots: Slots<M>,
    sides: [[u16; 2]; M],
    /// The lacks that were joined; each is an entry of the result.
    lacks: usize,
    full: bool,
}

impl<const M: usize> Joined<M> {
    fn has_room(&mut self) -> bool {
        self.full |= self.slots.used + 1 >= M || self.lacks > MOST_ENTRIES;
        !self.full
    }

    #[inline]
    fn push(&mut self, place: usize, slot: Slot, below: [u16; 2]) {
        if self.has_room() {
            self.slots.push(slot.key.at(place), slot.least, slot.most);
            self.sides[self.slots.used] = below;
        }
    }

    /// Adds the lack of a property, once for each place.
    fn push_lack(&mut self, place: usize, property: u16) {
        let key = Key::of_kind(place, LACKS, property);
        if self.has_room() && self.slots.find(key) == 0 {
            let number = self.slots.find_or_make(key);
            self.slots.slots[number].most = 0;
            self.lacks += 1;
        }
    }
}

/// Both descriptions, settled, under a list.
struct Sides<'a, const N: usize> {
    pairs: Option<&'a Pairs>,
    first: Slots<N>,
    second: Slots<N>,
}

impl<const N: usize> Sides<'_, N> {
    /// What the places of both have in common, place by place; none where there are too many slots.
    fn joined<const M: usize>(&self) -> Option<Joined<M>> {
        let mut orders = [&self.first, &self.second].map(|slots| Order::new(slots, |_| true));
        let mut joined = Joined::<M> {
            slots: Slots::new(),
            sides: [[0; 2]; M],
            lacks: 0,
            full: false,
        };
        let mut place = 0;
        while place <= joined.slots.used {
            let [own, other] = joined.sides[place];
            if own == NOWHERE {
                whole(&self.second, &mut orders[1], other, |slot, at| {
                    joined.push(place, slot, [NOWHERE, at]);
                });
            } else if other == NOWHERE {
                whole(&self.first, &mut orders[0], own, |slot, at| {
                    joined.push(place, slot, [at, NOWHERE]);
                });
            } else if place == 0 || joined_below(own, other) {
                self.common(&mut orders[0], (own, other), |slot, below| {
                    joined.push(place, slot, below);
                });
                if let Some(pairs) = self.pairs {
                    let at = At {
                        sides: self,
                        pairs,
                        own,
                        other,
                    };
                    at.push_lacks(&mut orders, place, &mut joined);
                }
            }
            place += 1;
        }
        (!joined.full).then_some(joined)
    }

    /// The slots that both places have, with the looser bounds. Under a list the lacks are told apart.
    fn common(
        &self,
        order: &mut Order<N>,
        (own, other): (u16, u16),
        mut push: impl FnMut(Slot, [u16; 2]),
    ) {
        let (properties, links) = order.sorted(usize::from(own));
        for number in properties.iter().chain(links).map(|&key| slot_of(key)) {
            let a = self.first.slots[number];
            let at = self.second.find(a.key.at(usize::from(other)));
            if at == 0 {
                continue;
            }
            let b = self.second.slots[at];
            let below = match (a.most, b.most) {
                (0, 0) => [0, 0],
                (0, _) => [NOWHERE, at as u16],
                (_, 0) => [number as u16, NOWHERE],
                _ => [number as u16, at as u16],
            };
            let mut slot = Slot {
                key: a.key,
                least: a.least.min(b.least),
                most: a.most.max(b.most),
            };
            if self.pairs.is_some() && a.key.is_property() {
                slot.most = NO_BOUND;
            }
            push(slot, below);
        }
    }
}

/// Whether there is a place on each side; those of properties own nothing, and those of links that one side does not name are none.
fn joined_below(own: u16, other: u16) -> bool {
    own != 0 && other != 0
}

/// Each slot of a place.
fn whole<const N: usize>(
    slots: &Slots<N>,
    order: &mut Order<N>,
    place: u16,
    mut push: impl FnMut(Slot, u16),
) {
    let (properties, links) = order.sorted(usize::from(place));
    for number in properties.iter().chain(links).map(|&key| slot_of(key)) {
        push(slots.slots[number], number as u16);
    }
}

/// Two places that are joined, under a list.
struct At<'a, const N: usize> {
    sides: &'a Sides<'a, N>,
    pairs: &'a Pairs,
    own: u16,
    other: u16,
}

impl<const N: usize> At<'_, N> {
    /// The lacks that both places list or imply, but for those that a property of both implies: of the properties that the first speaks
    /// of, of those that the second does, and of those that neither does.
    fn push_lacks<const M: usize>(
        &self,
        orders: &mut [Order<N>; 2],
        place: usize,
        joined: &mut Joined<M>,
    ) {
        let [mine, theirs] = orders;
        let Sides { first, second, .. } = self.sides;
        let (properties, _) = mine.sorted(usize::from(self.own));
        for slot in properties.iter().map(|&key| first.slots[slot_of(key)]) {
            if self.is_lacked(slot.key.name()) {
                joined.push_lack(place, slot.key.name());
            }
            if slot.least == 0 {
                continue;
            }
            for partner in self.pairs.partners(slot.key.name()) {
                if self.is_lacked(partner) {
                    joined.push_lack(place, partner);
                }
            }
        }
        let (properties, _) = theirs.sorted(usize::from(self.other));
        for slot in properties.iter().map(|&key| second.slots[slot_of(key)]) {
            if slot.most == 0 && self.is_lacked(slot.key.name()) {
                joined.push_lack(place, slot.key.name());
            }
        }
    }

    /// Whether both places lack a property, and no property of both excludes it.
    fn is_lacked(&self, property: u16) -> bool {
        let Sides { first, second, .. } = self.sides;
        let implied = |slots: &Slots<N>, place| self.pairs.excluded(slots, place, property);
        let lacks = |slots: &Slots<N>, place| {
            let key = Key::of_kind(place, LACKS, property);
            slots.slots[slots.find(key)].most == 0 || implied(slots, place)
        };
        let (own, other) = (usize::from(self.own), usize::from(self.other));
        lacks(first, own) && lacks(second, other) && !self.is_excluded_by_both(property)
    }

    fn is_excluded_by_both(&self, property: u16) -> bool {
        let Sides { first, second, .. } = self.sides;
        let has = |slots: &Slots<N>, place: u16, partner| {
            let key = Key::of_kind(usize::from(place), HAS, partner);
            slots.slots[slots.find(key)].least > 0
        };
        let mut partners = self.pairs.partners(property);
        partners.any(|partner| has(first, self.own, partner) && has(second, self.other, partner))
    }
}
