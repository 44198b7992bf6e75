//! The specimen that shows that an entry fails.

use super::compare::Path;
use super::entry::{Entry, AT_MOST, GROUP, HAS, LACKS};
use super::order::{slot_of, Order};
use super::queue::{Queue, Waiting};
use super::rows::Rows;
use super::slots::{Key, Slots};

/// The step of a place off the path.
const OFF: u16 = u16::MAX;

/// What the path and the failing entry ask for at a place: a property; a link, how many, and the step below it.
#[derive(Default)]
struct Asked {
    property: Option<u16>,
    link: Option<(u16, u32, u16)>,
}

fn asked(links: &[u16], failing: Entry, step: u16) -> Asked {
    if step == OFF {
        return Asked::default();
    }
    if let Some(&link) = links.get(usize::from(step)) {
        return Asked {
            property: None,
            link: Some((link, 1, step + 1)),
        };
    }
    let name = failing.name();
    Asked {
        property: (failing.kind() == LACKS).then_some(name),
        link: (failing.kind() == AT_MOST).then_some((name, u32::from(failing.number()) + 1, OFF)),
    }
}

/// Writes the specimen and answers its number of entries.
pub fn write<const N: usize>(
    slots: &Slots<N>,
    path: &Path,
    failing: Entry,
    out: &mut [u8],
) -> usize {
    let mut order = Order::new(slots, |slot| slot.least > 0);
    let mut rows = Rows::<N>::new();
    let mut queue = Queue::<N>::new();
    let mut next = Some(Waiting::default());
    while let Some(at) = next {
        let asked = asked(path.links(), failing, at.step);
        let place = usize::from(at.place);
        let (properties, links) = match is_nowhere(at) {
            true => (&[][..], &[][..]),
            false => order.sorted(place),
        };
        write_properties(slots, properties, asked.property, at.owner, &mut rows);
        write_groups(slots, links, asked.link, at, &mut rows, &mut queue);
        next = queue.pop();
    }
    rows.write(out)
}

/// Whether C says nothing at a place: only the first place is the top, so place 0 with an owner is none.
fn is_nowhere(at: Waiting) -> bool {
    at.place == 0 && at.owner != 0
}

fn write_properties<const N: usize>(
    slots: &Slots<N>,
    keys: &[u32],
    mut asked: Option<u16>,
    owner: u16,
    rows: &mut Rows<N>,
) {
    for &key in keys {
        let name = slots.slots[slot_of(key)].key.name();
        if let Some(extra) = asked.take_if(|extra| *extra <= name) {
            if extra < name {
                rows.push(HAS, owner, extra, 0);
            }
        }
        rows.push(HAS, owner, name, 0);
    }
    if let Some(extra) = asked {
        rows.push(HAS, owner, extra, 0);
    }
}

fn write_groups<const N: usize>(
    slots: &Slots<N>,
    keys: &[u32],
    mut asked: Option<(u16, u32, u16)>,
    at: Waiting,
    rows: &mut Rows<N>,
    queue: &mut Queue<N>,
) {
    let mut group = |name: u16, count: u32, place: usize, step: u16| {
        let owner = rows.push(GROUP, at.owner, name, count - 1);
        if place != 0 || step != OFF {
            let place = place as u16;
            queue.push(Waiting { place, owner, step });
        }
    };
    for number in keys.iter().map(|&key| slot_of(key)) {
        let slot = &slots.slots[number];
        let name = slot.key.name();
        let (mut count, mut step) = (slot.least, OFF);
        if let Some(extra) = asked.take_if(|extra| extra.0 <= name) {
            if extra.0 < name {
                group(extra.0, extra.1, below(slots, at, extra.0), extra.2);
            } else {
                (count, step) = (count.max(extra.1), extra.2);
            }
        }
        group(name, count, number, step);
    }
    if let Some((name, count, step)) = asked {
        group(name, count, below(slots, at, name), step);
    }
}

/// C's place below a link, or 0.
fn below<const N: usize>(slots: &Slots<N>, at: Waiting, name: u16) -> usize {
    match is_nowhere(at) {
        true => 0,
        false => slots.find(Key::link(usize::from(at.place), name)),
    }
}
