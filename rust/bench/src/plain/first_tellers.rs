//! The entries that earn a yes where no place of C is impossible: one walk from the last entry to the first, without a
//! trial.
//!
//! There single entries of C say what C says. An entry stays exactly if it is the first to say, by itself, something that
//! D asks and that no entry which stays after it says. So each thing that D asks is looked at once, where its first teller
//! stands. That this leaves what trials leave is proved (`earned-slots`).

use super::compare::is_always_met;
use super::earning::Listed;
use super::entry::{Entry, EVERY, HAS};
use super::pairs::Pairs;
use super::slots::{bounds, Key, Slots, BROKEN, NO_BOUND};
use super::{size, Refusal, Size, TOO_SHORT};

/// The number of an entry that is not there: after every other.
const FAR: u16 = u16::MAX;
/// A place of D where C says nothing: it has no slots.
const NOWHERE: usize = 0x7fff;

/// What `earning` answers and writes, in one walk. Where a place of C is impossible it answers none and writes nothing:
/// there several entries together say what none of them says.
pub fn first_tellers(
    pairs: &[u8],
    c: &[u8],
    d: &[u8],
    out: &mut [u8],
) -> Result<Option<bool>, Refusal> {
    let pairs = Pairs::read(pairs)?;
    match size(c.len().max(d.len())) {
        Size::Small => sized::<64>(pairs.as_ref(), c, d, out),
        Size::Middle => sized::<256>(pairs.as_ref(), c, d, out),
        Size::Large => sized::<1024>(pairs.as_ref(), c, d, out),
    }
}

fn sized<const N: usize>(
    pairs: Option<&Pairs>,
    c: &[u8],
    d: &[u8],
    out: &mut [u8],
) -> Result<Option<bool>, Refusal> {
    let (c, d) = (Listed::<N>::read(c, 1)?, Listed::<N>::read(d, 2)?);
    let out = out.get_mut(..c.count).ok_or(TOO_SHORT)?;
    let said = Said::of(pairs, &c);
    if said.has_impossible_place() {
        return Ok(None);
    }
    let asked = Asked::of(&said.slots, &d);
    let kept = Queue::of(&said, &asked).map(|queue| {
        let mut kept = said.walk(&asked, &queue);
        c.mark_owners(&mut kept);
        kept
    });
    let marks = kept.unwrap_or([false; N]);
    for (byte, &mark) in out.iter_mut().zip(&marks[1..]) {
        *byte = u8::from(mark);
    }
    Ok(Some(kept.is_some()))
}

/// At least and at most how many.
#[derive(Clone, Copy, PartialEq, Eq)]
struct Bounds {
    least: u32,
    most: u32,
}

impl Bounds {
    const NONE: Bounds = Bounds {
        least: 0,
        most: NO_BOUND,
    };

    fn of(entry: Entry) -> Bounds {
        let (least, most) = bounds(entry);
        Bounds { least, most }
    }

    fn join(&mut self, other: Bounds) {
        self.least = self.least.max(other.least);
        self.most = self.most.min(other.most);
    }

    fn says(self, asked: Bounds) -> bool {
        self.least >= asked.least && self.most <= asked.most
    }
}

/// Something that D asks: a bound on one side.
#[derive(Clone, Copy)]
struct Demand {
    /// What it is asked of, at a place of C or nowhere.
    key: Key,
    /// The slot of that key, 0 where C says nothing of it.
    slot: usize,
    /// The last place of C on the way to it: at most 0 of a link up to there says it too.
    anchor: usize,
    bounds: Bounds,
}

impl Demand {
    const NONE: Demand = Demand {
        key: Key::NONE,
        slot: 0,
        anchor: 0,
        bounds: Bounds::NONE,
    };

    /// Whether a property is asked to be lacked, which one that excludes it says too.
    fn is_lack(&self) -> bool {
        self.key.is_property() && self.bounds.most == 0
    }
}

/// Where an entry of D stands.
#[derive(Clone, Copy, Default)]
struct Stand {
    /// A place of C, or nowhere.
    place: usize,
    /// The last place of C on the way there.
    anchor: usize,
}

/// What D asks: of a slot of C the strongest on either side, since what says that says the weaker too; of what C does not
/// speak of, each entry by itself.
struct Asked<const N: usize> {
    /// By slot of C.
    bounds: [Bounds; N],
    /// From number 1 on. Each is of an entry of its own, so that there are fewer than N.
    demands: [Demand; N],
    used: usize,
}

impl<const N: usize> Asked<N> {
    fn of(slots: &Slots<N>, d: &Listed<N>) -> Asked<N> {
        let mut asked = Asked {
            bounds: [Bounds::NONE; N],
            demands: [Demand::NONE; N],
            used: 0,
        };
        asked.enter(slots, d);
        for slot in 1..=slots.used {
            asked.split(slots.slots[slot].key, slot);
        }
        asked
    }

    fn enter(&mut self, slots: &Slots<N>, d: &Listed<N>) {
        let mut stands = [Stand::default(); N];
        for (number, entry) in d.numbered() {
            let Stand { place, anchor } = stands[entry.owner()];
            let key = Key::of_kind(place, entry.kind(), entry.name());
            let slot = slots.find(key);
            let bounds = Bounds::of(entry);
            if entry.kind() == EVERY {
                let (place, anchor) = if slot == 0 {
                    (NOWHERE, anchor)
                } else {
                    (slot, slot)
                };
                stands[number] = Stand { place, anchor };
            } else if slot != 0 && !is_always_met(entry) {
                self.bounds[slot].join(bounds);
            } else if bounds != Bounds::NONE && !is_always_met(entry) {
                self.push(Demand {
                    key,
                    slot,
                    anchor,
                    bounds,
                });
            }
        }
    }

    /// Both sides of what is asked of a slot, which different entries may say.
    fn split(&mut self, key: Key, slot: usize) {
        let Bounds { least, most } = self.bounds[slot];
        let sides = [
            Bounds {
                least,
                ..Bounds::NONE
            },
            Bounds {
                most,
                ..Bounds::NONE
            },
        ];
        for bounds in sides.into_iter().filter(|&side| side != Bounds::NONE) {
            self.push(Demand {
                key,
                slot,
                anchor: key.place(),
                bounds,
            });
        }
    }

    fn push(&mut self, demand: Demand) {
        self.used += 1;
        self.demands[self.used] = demand;
    }
}

/// The first entries of a slot, by what they say.
#[derive(Clone, Copy)]
struct First {
    /// At least what is asked.
    least: u16,
    /// At most what is asked.
    most: u16,
    /// That there is one.
    some: u16,
    /// That there is none, of this link or of one on the way to it.
    none: u16,
}

impl First {
    const FAR: First = First {
        least: FAR,
        most: FAR,
        some: FAR,
        none: FAR,
    };
}

/// What C says.
struct Said<'a, const N: usize> {
    pairs: Option<&'a Pairs>,
    slots: Slots<N>,
    c: &'a Listed<N>,
}

impl<'a, const N: usize> Said<'a, N> {
    fn of(pairs: Option<&'a Pairs>, c: &'a Listed<N>) -> Said<'a, N> {
        let mut slots = Slots::new();
        for (number, entry) in c.numbered() {
            slots.enter(number, entry);
        }
        if let Some(pairs) = pairs {
            slots.restrict(pairs);
        }
        slots.settle();
        Said { pairs, slots, c }
    }

    /// Also below a link of which there is at most 0.
    fn has_impossible_place(&self) -> bool {
        let marks = &self.slots.marks[..=self.slots.used];
        marks.iter().any(|mark| mark & BROKEN != 0)
    }

    /// The slots of properties that exclude what is lacked, and 0 for those of which C does not speak.
    fn excluders(&self, demand: &Demand) -> impl Iterator<Item = usize> + '_ {
        let Demand { key, .. } = *demand;
        let pairs = self.pairs.filter(|_| demand.is_lack());
        let partners = pairs.map(|pairs| pairs.partners(key.name()));
        partners
            .into_iter()
            .flatten()
            .map(move |partner| self.slots.find(Key::of_kind(key.place(), HAS, partner)))
    }

    /// The first entries of each slot. What nobody asks of a slot is never looked up.
    fn firsts(&self, asked: &Asked<N>) -> [First; N] {
        let mut firsts = [First::FAR; N];
        for number in (1..=self.c.count).rev() {
            let slot = self.slots.slot_of(number);
            let (says, asked) = (Bounds::of(self.c.entries[number]), asked.bounds[slot]);
            let first = &mut firsts[slot];
            let set = |first: &mut u16, holds| {
                if holds {
                    *first = number as u16;
                }
            };
            set(&mut first.least, says.least >= asked.least);
            set(&mut first.most, says.most <= asked.most);
            set(&mut first.some, says.least > 0);
            set(&mut first.none, says.most == 0);
        }
        // The slot of a place stands before those at the place.
        for slot in 1..=self.slots.used {
            let above = firsts[self.slots.slots[slot].key.place()].none;
            firsts[slot].none = firsts[slot].none.min(above);
        }
        firsts
    }

    /// The first entry that says a demand by itself.
    fn first_teller(&self, firsts: &[First; N], demand: &Demand) -> u16 {
        let first = firsts[demand.slot];
        let own = match demand.bounds.least {
            0 => first.most,
            _ => first.least,
        };
        let closing = firsts[demand.anchor].none;
        let excluding = self.excluders(demand).map(|slot| firsts[slot].some);
        excluding.fold(own.min(closing), u16::min)
    }

    /// The entries that stay, without their owners.
    fn walk(&self, asked: &Asked<N>, queue: &Queue<N>) -> [bool; N] {
        let (mut marks, mut kept) = ([false; N], [Bounds::NONE; N]);
        for number in (1..=self.c.count).rev() {
            let mut demands = queue.at(number).map(|demand| &asked.demands[demand]);
            if !demands.all(|demand| self.is_told(&kept, demand)) {
                marks[number] = true;
                kept[self.slots.slot_of(number)].join(Bounds::of(self.c.entries[number]));
            }
        }
        marks
    }

    /// Whether what is kept of each slot says a demand.
    fn is_told(&self, kept: &[Bounds; N], demand: &Demand) -> bool {
        kept[demand.slot].says(demand.bounds)
            || self.way(demand.anchor).any(|place| kept[place].most == 0)
            || self.excluders(demand).any(|slot| kept[slot].least > 0)
    }

    /// A place and those above it, without the top: 32 at most.
    fn way(&self, place: usize) -> impl Iterator<Item = usize> + '_ {
        let above = |&place: &usize| Some(self.slots.slots[place].key.place());
        std::iter::successors(Some(place), above).take_while(|&place| place != 0)
    }
}

/// The demands by their first tellers.
struct Queue<const N: usize> {
    /// The last demand of each entry of C.
    last: [u16; N],
    /// For each demand the one before it with the same first teller.
    before: [u16; N],
}

impl<const N: usize> Queue<N> {
    /// None where something is asked that no entry of C says: then C is not contained.
    fn of(said: &Said<N>, asked: &Asked<N>) -> Option<Queue<N>> {
        let firsts = said.firsts(asked);
        let mut queue = Queue {
            last: [0; N],
            before: [0; N],
        };
        for number in 1..=asked.used {
            let teller = said.first_teller(&firsts, &asked.demands[number]);
            let last = queue.last.get_mut(usize::from(teller))?;
            queue.before[number] = std::mem::replace(last, number as u16);
        }
        Some(queue)
    }

    /// The demands of which an entry is the first teller.
    fn at(&self, entry: usize) -> impl Iterator<Item = usize> + '_ {
        let before = |&demand: &usize| Some(usize::from(self.before[demand]));
        let last = usize::from(self.last[entry]);
        std::iter::successors(Some(last), before).take_while(|&demand| demand != 0)
    }
}
