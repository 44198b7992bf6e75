//! What a description lacks for a yes. For each trial its entries, and behind them those of the service that are left, are slotted and settled
//! anew, and the service is judged till an entry fails. A run of entries is left out at once, twice as long a one after each that goes.

use super::compare::{look, top};
use super::entry::{Entry, EVERY};
use super::pairs::Pairs;
use super::read::{refusal, Described};
use super::slots::Slots;
use super::{size, Refusal, Size, BLOCK, TOO_SHORT};

/// The most blocks of both inputs together.
const MOST_BLOCKS: usize = 16;
/// More entries than a description has.
const ROOM: usize = 1024;

/// What a description lacks.
#[derive(Clone, Copy, Debug, PartialEq, Eq)]
pub enum Lack {
    Nothing,
    Addable,
    Against,
}

/// Writes a byte for each entry of D, 1 for those that C lacks to be contained in it and for their owners, and otherwise 0.
pub fn missing(pairs: &[u8], c: &[u8], d: &[u8], out: &mut [u8]) -> Result<Lack, Refusal> {
    let pairs = Pairs::read(pairs)?;
    let mut rooms = [[Entry(0); ROOM]; 2];
    let [first, second] = &mut rooms;
    let first = read(c, 1, first)?;
    let second = read(d, 2, second)?;
    if c.len() + d.len() > MOST_BLOCKS * BLOCK {
        return Err(refusal(1, 2, 0));
    }
    let out = out.get_mut(..second.len()).ok_or(TOO_SHORT)?;
    let tried = Tried {
        pairs: pairs.as_ref(),
        first,
        second,
    };
    Ok(match size(c.len() + d.len()) {
        Size::Small => tried.lack::<64>(out),
        Size::Middle => tried.lack::<256>(out),
        Size::Large => tried.lack::<1024>(out),
    })
}

fn read<'a>(bytes: &[u8], input: u16, room: &'a mut [Entry; ROOM]) -> Result<&'a [Entry], Refusal> {
    let mut count = 0;
    Described::Sent(bytes).read::<ROOM>(input, |number, entry| {
        room[number - 1] = entry;
        count = number;
    })?;
    Ok(&room[..count])
}

/// The entries that stay, and those that are tried.
struct Tried<'a> {
    pairs: Option<&'a Pairs>,
    first: &'a [Entry],
    second: &'a [Entry],
}

impl Tried<'_> {
    fn lack<const N: usize>(&self, out: &mut [u8]) -> Lack {
        let mut kept = [false; ROOM];
        if self.is_enough(&self.slots::<N>(&kept)) {
            out.fill(0);
            return Lack::Nothing;
        }
        for (kept, entry) in kept.iter_mut().zip(self.second) {
            *kept = entry.kind() != EVERY;
        }
        let all = self.slots::<N>(&kept);
        self.fold::<N>(&mut kept);
        for (number, entry) in self.second.iter().enumerate().rev() {
            if kept[number] && entry.owner() > 0 {
                kept[entry.owner() - 1] = true;
            }
        }
        for (byte, &kept) in out.iter_mut().zip(&kept) {
            *byte = u8::from(kept);
        }
        match all.is_broken() {
            true => Lack::Against,
            false => Lack::Addable,
        }
    }

    /// From the last entry to the first, leaves out what is not needed.
    fn fold<const N: usize>(&self, kept: &mut [bool; ROOM]) {
        let (mut to, mut run, mut searching) = (self.second.len(), 1, false);
        while to > 0 {
            let tried = run.min(to);
            let from = to - tried;
            if tried == 1 && !kept[from] {
                to = from;
                continue;
            }
            kept[from..to].fill(false);
            let goes = self.is_enough(&self.slots::<N>(kept));
            if !goes {
                for number in from..to {
                    kept[number] = self.second[number].kind() != EVERY;
                }
            }
            if goes || tried == 1 {
                to = from;
            }
            if goes && !searching {
                run = 2 * tried;
            } else {
                searching = goes || tried != 1;
                run = (tried / 2).max(1);
            }
        }
    }

    /// The slots of the first entries, and of those of the second that are kept.
    fn slots<const N: usize>(&self, kept: &[bool; ROOM]) -> Slots<N> {
        let mut slots = Slots::<N>::new();
        for (number, &entry) in (1..).zip(self.first) {
            slots.enter(number, entry);
        }
        let before = self.first.len();
        for (number, (&entry, &kept)) in (before + 1..).zip(self.second.iter().zip(kept)) {
            if kept || entry.kind() == EVERY {
                let owner = match entry.owner() {
                    0 => 0,
                    owner => (before + owner) as u16,
                };
                slots.enter(number, entry.owned_by(owner));
            }
        }
        if let Some(pairs) = self.pairs {
            slots.restrict(pairs);
        }
        slots.settle();
        slots
    }

    /// Whether all entries of the second hold by these slots.
    fn is_enough<const N: usize>(&self, slots: &Slots<N>) -> bool {
        let mut states = [0u16; N];
        states[0] = top(slots);
        (1..).zip(self.second).all(|(number, &entry)| {
            let (holds, below) = look(self.pairs, slots, states[entry.owner()], entry);
            states[number] = below;
            holds
        })
    }
}
