//! The normal form.

use super::entry::{Entry, AT_LEAST, AT_MOST, EVERY, HAS, LACKS, NOTHING};
use super::names::{Names, ROOM};
use super::order::{slot_of, Order};
use super::pairs::Pairs;
use super::queue::{Queue, Waiting};
use super::read::Described;
use super::rows::Rows;
use super::slots::{Slots, NO_BOUND, SAYS};
use super::{size, Refusal, Size, TOO_SHORT};

/// Writes the normal form of a description and answers its number of entries.
pub fn normal_form(description: &[u8], out: &mut [u8]) -> Result<usize, Refusal> {
    under(None, Described::Sent(description), out)
}

/// The same under a list of properties that exclude each other, with a dictionary.
pub fn normal_with(
    pairs: &[u8],
    dictionary: &[u8],
    description: &[u8],
    out: &mut [u8],
) -> Result<usize, Refusal> {
    let pairs = Pairs::read(pairs)?;
    let Some(names) = Names::read(dictionary)? else {
        return under(pairs.as_ref(), Described::Sent(description), out);
    };
    let mut room = [0; ROOM];
    let description = names.unfolded(description, 1, &mut room)?;
    under(pairs.as_ref(), Described::Unfolded(description), out)
}

fn under(pairs: Option<&Pairs>, description: Described, out: &mut [u8]) -> Result<usize, Refusal> {
    match size(description.bytes().len()) {
        Size::Small => sized::<64>(pairs, description, out),
        Size::Middle => sized::<256>(pairs, description, out),
        Size::Large => sized::<1024>(pairs, description, out),
    }
}

fn sized<const N: usize>(
    pairs: Option<&Pairs>,
    description: Described,
    out: &mut [u8],
) -> Result<usize, Refusal> {
    let mut slots = Slots::<N>::new();
    description.read::<N>(1, |number, entry| slots.enter(number, entry))?;
    if out.len() < description.bytes().len() {
        return Err(TOO_SHORT);
    }
    if let Some(pairs) = pairs {
        slots.restrict(pairs);
    }
    slots.settle();
    Ok(write(&slots, out))
}

/// Writes place by place, in the order in which the 'every' entries stand.
pub fn write<const N: usize>(slots: &Slots<N>, out: &mut [u8]) -> usize {
    let mut rows = Rows::<N>::new();
    fill(slots, &mut rows);
    rows.write(out)
}

/// The entries of the normal form, in the order in which they are written.
#[inline]
pub fn fill<const N: usize>(slots: &Slots<N>, rows: &mut Rows<N>) {
    if slots.is_broken() {
        rows.push(NOTHING, 0, 0, 0);
        return;
    }
    let mut order = Order::new(slots, |_| true);
    let mut queue = Queue::<N>::new();
    let mut next = Some(Waiting::default());
    while let Some(Waiting { place, owner, .. }) = next {
        let (properties, links) = order.sorted(usize::from(place));
        push_bounds(slots, properties, (HAS, LACKS), owner, rows);
        push_bounds(slots, links, (AT_LEAST, AT_MOST), owner, rows);
        push_every(slots, links, owner, rows, &mut queue);
        next = queue.pop();
    }
}

/// The entries of a class that ask for at least so many, and then those that ask for at most so many.
fn push_bounds<const N: usize>(
    slots: &Slots<N>,
    keys: &[u32],
    kinds: (u16, u16),
    owner: u16,
    rows: &mut Rows<N>,
) {
    let held = || keys.iter().map(|&key| &slots.slots[slot_of(key)]);
    for slot in held() {
        let least = if kinds.0 == HAS { 0 } else { slot.least };
        let entry = Entry::new(kinds.0, owner, slot.key.name(), least as u16);
        rows.push_if(slot.least > 0, entry);
    }
    for slot in held() {
        let entry = Entry::new(kinds.1, owner, slot.key.name(), slot.most as u16);
        rows.push_if(slot.most < NO_BOUND, entry);
    }
}

fn push_every<const N: usize>(
    slots: &Slots<N>,
    keys: &[u32],
    owner: u16,
    rows: &mut Rows<N>,
    queue: &mut Queue<N>,
) {
    for number in keys.iter().map(|&key| slot_of(key)) {
        let slot = &slots.slots[number];
        if slots.marks[number] & SAYS != 0 && slot.most != 0 {
            let owner = rows.push(EVERY, owner, slot.key.name(), 0);
            queue.push(Waiting {
                place: number as u16,
                owner,
                step: 0,
            });
        }
    }
}
