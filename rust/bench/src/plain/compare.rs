//! The comparison.

use super::entry::{Entry, AT_MOST, LACKS};
use super::names::{Names, ROOM};
use super::pairs::Pairs;
use super::read::{entry_at, Described};
use super::single::FIRST_SINGLE;
use super::slots::{bounds, Key, Slots};
use super::specimen;
use super::{size, Refusal, Size, TOO_SHORT};

/// The answer of the comparison.
#[derive(Clone, Copy, Debug, PartialEq, Eq)]
pub enum Comparison {
    Contained,
    NotContained { entry: usize, entries: usize },
}

/// The state of a place of D where C says nothing: a place that has no slots.
const NOWHERE: u16 = 0x7fff;
/// The state of a place of D that is reached by a link of which C has at most 0.
const PASSED: u16 = u16::MAX;

/// Compares C with D. Where not contained, the specimen is written into the output.
pub fn compare(c: &[u8], d: &[u8], out: &mut [u8]) -> Result<Comparison, Refusal> {
    under(None, Described::Sent(c), Described::Sent(d), out)
}

/// The same under a list of properties that exclude each other, with a dictionary.
pub fn compare_with(
    pairs: &[u8],
    dictionary: &[u8],
    c: &[u8],
    d: &[u8],
    out: &mut [u8],
) -> Result<Comparison, Refusal> {
    let pairs = Pairs::read(pairs)?;
    let Some(names) = Names::read(dictionary)? else {
        return under(pairs.as_ref(), Described::Sent(c), Described::Sent(d), out);
    };
    let mut rooms = [[0; ROOM]; 2];
    let [room, other] = &mut rooms;
    let c = names.unfolded(c, 1, room)?;
    let d = names.unfolded(d, 2, other)?;
    under(
        pairs.as_ref(),
        Described::Unfolded(c),
        Described::Unfolded(d),
        out,
    )
}

fn under(
    pairs: Option<&Pairs>,
    c: Described,
    d: Described,
    out: &mut [u8],
) -> Result<Comparison, Refusal> {
    match size(c.bytes().len().max(d.bytes().len())) {
        Size::Small => sized::<64>(pairs, c, d, out),
        Size::Middle => sized::<256>(pairs, c, d, out),
        Size::Large => sized::<1024>(pairs, c, d, out),
    }
}

fn sized<const N: usize>(
    pairs: Option<&Pairs>,
    c: Described,
    d: Described,
    out: &mut [u8],
) -> Result<Comparison, Refusal> {
    let mut slots = Slots::<N>::new();
    enter_all(&mut slots, pairs, c)?;
    let failing = first_failing::<N, N>(pairs, &slots, d, 2)?;
    let (c, d) = (c.bytes(), d.bytes());
    if out.len() < c.len() + d.len() {
        return Err(TOO_SHORT);
    }
    if failing == 0 {
        return Ok(Comparison::Contained);
    }
    let entries = specimen::write(&slots, &path(d, failing), entry_at(d, failing), out);
    Ok(Comparison::NotContained {
        entry: failing,
        entries,
    })
}

/// Reads C into slots that are still free, and settles them.
#[inline(always)]
pub fn enter_all<const N: usize>(
    slots: &mut Slots<N>,
    pairs: Option<&Pairs>,
    c: Described,
) -> Result<(), Refusal> {
    c.read::<N>(1, |number, entry| slots.enter(number, entry))?;
    if let Some(pairs) = pairs {
        slots.restrict(pairs);
    }
    slots.settle();
    Ok(())
}

/// Reads D, of fewer than M entries, as the input of this number, and answers the first entry that fails, or 0.
#[inline(always)]
pub fn first_failing<const N: usize, const M: usize>(
    pairs: Option<&Pairs>,
    slots: &Slots<N>,
    d: Described,
    input: u16,
) -> Result<usize, Refusal> {
    // A state for each 'every' entry: the place of C that it owns, or one of the two above.
    let mut states = [0u16; M];
    states[0] = top(slots);
    let mut failing = 0;
    d.read::<M>(input, |number, entry| {
        if failing == 0 {
            let state = states[entry.owner()];
            let (holds, below) = look(pairs, slots, state, entry);
            states[number] = below;
            failing = if holds { 0 } else { number };
        }
    })?;
    Ok(failing)
}

/// The state of the top.
pub fn top<const N: usize>(slots: &Slots<N>) -> u16 {
    if slots.is_broken() {
        PASSED
    } else {
        0
    }
}

/// Whether an entry at a place of this state holds, and the state of the place that it owns.
#[inline]
pub fn look<const N: usize>(
    pairs: Option<&Pairs>,
    slots: &Slots<N>,
    state: u16,
    entry: Entry,
) -> (bool, u16) {
    if state == PASSED {
        return (true, PASSED);
    }
    let key = Key::of_kind(usize::from(state), entry.kind(), entry.name());
    let found = slots.find(key);
    let slot = &slots.slots[found];
    let (least, most) = bounds(entry);
    let below = match (found, slot.most) {
        (0, _) => NOWHERE,
        (_, 0) => PASSED,
        _ => found as u16,
    };
    let holds = (slot.least >= least) & (slot.most <= most);
    let implied = || pairs.is_some_and(|pairs| is_implied(pairs, slots, state, entry));
    (holds || is_always_met(entry) || implied(), below)
}

/// Whether an entry is a lack of what another property excludes that C has there.
fn is_implied<const N: usize>(pairs: &Pairs, slots: &Slots<N>, state: u16, entry: Entry) -> bool {
    entry.kind() == LACKS && pairs.excluded(slots, usize::from(state), entry.name())
}

/// Whether an entry is at most 1 or more of a link that leads to one item only.
pub fn is_always_met(entry: Entry) -> bool {
    entry.kind() == AT_MOST && entry.name() >= FIRST_SINGLE && entry.number() > 0
}

/// The links from the top to the place where an entry stands.
pub struct Path {
    links: [u16; 32],
    length: usize,
}

impl Path {
    pub fn links(&self) -> &[u16] {
        &self.links[32 - self.length..]
    }
}

fn path(d: &[u8], number: usize) -> Path {
    let mut path = Path {
        links: [0; 32],
        length: 0,
    };
    let mut owner = entry_at(d, number).owner();
    while owner != 0 {
        let entry = entry_at(d, owner);
        path.length += 1;
        path.links[32 - path.length] = entry.name();
        owner = entry.owner();
    }
    path
}
