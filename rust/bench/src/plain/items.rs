//! The items of a delivered record. What its entries say are numbers, sorted, so that those that say one thing stand in a row. A place
//! of the description leaves marks of the items that fit it, and an 'every' first asks for those of the place that it owns.

use super::entry::{Entry, AT_LEAST, AT_MOST, EVERY, HAS, LACKS};
use super::names::{Names, ROOM};
use super::pairs::{Clashes, Pairs};
use super::read::{entries_of, refusal, right_blocks, Described, SPECIMEN};
use super::single::FIRST_SINGLE;
use super::{size, Refusal, Size, TOO_SHORT};

/// The most items of a record.
const ITEMS: usize = 256;
/// The kind of an entry that links.
const LINKED: u16 = 8;

/// For each item whether it is in a set.
type Marks = [bool; ITEMS];

/// Fills a byte for each item of a record, 1 where it fits the description, and answers how many these are.
pub fn fit_all(
    pairs: &[u8],
    dictionary: &[u8],
    total: usize,
    record: &[u8],
    description: &[u8],
    out: &mut [u8],
) -> Result<usize, Refusal> {
    let pairs = Pairs::read(pairs)?;
    let names = Names::read(dictionary)?;
    let mut room = [0; ROOM];
    let description = match names {
        None => Described::Sent(description),
        Some(names) => match names.unfolded(description, 2, &mut room) {
            Ok(bytes) => Described::Unfolded(bytes),
            // The record's refusals come first.
            Err(refusal) => Described::Refused(refusal),
        },
    };
    let marks = match size(record.len().max(description.bytes().len())) {
        Size::Small => sized::<64, 64>(pairs.as_ref(), total, record, description),
        Size::Middle => sized::<256, 256>(pairs.as_ref(), total, record, description),
        Size::Large => sized::<2048, 1024>(pairs.as_ref(), total, record, description),
    }?;
    let out = out.get_mut(..total).ok_or(TOO_SHORT)?;
    for (byte, mark) in out.iter_mut().zip(marks) {
        *byte = u8::from(mark);
    }
    Ok(total)
}

fn sized<const M: usize, const N: usize>(
    pairs: Option<&Pairs>,
    total: usize,
    record: &[u8],
    description: Described,
) -> Result<Marks, Refusal> {
    let mut facts = [0; M];
    let count = read_record(pairs, total, record, &mut facts)?;
    let facts = &mut facts[..count];
    let mut places = Places::<N> {
        entries: [Entry(0); N],
        first: [0; N],
        next: [0; N],
    };
    let entries = description.read::<N>(2, |number, entry| places.entries[number] = entry)?;
    facts.sort_unstable();
    for number in (1..=entries).rev() {
        let first = &mut places.first[places.entries[number].owner() % N];
        places.next[number] = *first;
        *first = number as u16;
    }
    let mut marks = [true; ITEMS];
    places.keep(0, facts, &mut marks);
    Ok(marks)
}

/// Reads a record, and answers its number of facts.
#[inline(always)]
fn read_record<const M: usize>(
    pairs: Option<&Pairs>,
    total: usize,
    record: &[u8],
    facts: &mut [u64; M],
) -> Result<usize, Refusal> {
    if !(1..=ITEMS).contains(&total) {
        return Err(refusal(10, 1, 0));
    }
    let blocks = right_blocks(record, &SPECIMEN, 1)?;
    let mut clashes = pairs.map(Clashes::<M>::new);
    // Made with the first link that leads to one item only.
    let mut led: Option<Led<M>> = None;
    let is_item = |item: usize| (1..=total).contains(&item);
    let mut number = 0;
    for entry in blocks.iter().flat_map(entries_of) {
        number += 1;
        let links = entry.kind() == LINKED;
        let gives = (entry.kind() == HAS) & (entry.number() == 0);
        if !(links | gives) | (entry.name() == 0) {
            return Err(refusal(4, 1, number));
        }
        if !is_item(entry.owner()) | links & !is_item(entry.number().into()) {
            return Err(refusal(10, 1, number));
        }
        if links && entry.name() >= FIRST_SINGLE {
            let led = led.get_or_insert_with(|| Led([0; M], [0; M]));
            if led.elsewhere(entry) {
                return Err(refusal(9, 1, number));
            }
        }
        if let Some(clashes) = &mut clashes {
            clashes.enter(number, entry);
        }
        let what = 2 * u64::from(entry.name()) + u64::from(links);
        let to = u64::from(entry.number().saturating_sub(1));
        facts[number - 1] = what << 16 | (entry.owner() as u64 - 1) << 8 | to;
    }
    match clashes {
        Some(clashes) if clashes.first != 0 => Err(refusal(12, 1, clashes.first)),
        _ => Ok(number),
    }
}

/// Where the links that lead to one item only lead: owner and link in one number, by its hash, and the item.
struct Led<const M: usize>([u64; M], [u64; M]);

impl<const M: usize> Led<M> {
    /// Whether an entry leads to another item than an earlier one.
    fn elsewhere(&mut self, entry: Entry) -> bool {
        let key = entry.0 >> 16 & 0xffff_ffff;
        let to = u64::from(entry.number());
        let hash = (key as u32).wrapping_mul(0x9e37_79b1) >> (31 - M.trailing_zeros());
        let cells = 2 * M;
        let mut at = hash as usize % cells;
        loop {
            let half = if at < M { &mut self.0 } else { &mut self.1 };
            let cell = &mut half[at % M];
            if *cell == 0 {
                *cell = key << 16 | to;
                return false;
            }
            if *cell >> 16 == key {
                return *cell & 0xffff != to;
            }
            at = (at + 1) % cells;
        }
    }
}

/// The entries of a description, the first of each place, and after each the next of its place; 0 is none.
struct Places<const N: usize> {
    entries: [Entry; N],
    first: [u16; N],
    next: [u16; N],
}

impl<const N: usize> Places<N> {
    /// Leaves the items that fit the place of this owner.
    fn keep(&self, owner: usize, facts: &[u64], marks: &mut Marks) {
        let mut number = usize::from(self.first[owner % N]);
        while number != 0 {
            let entry = self.entries[number % N];
            let property = 2 * u64::from(entry.name());
            match entry.kind() {
                HAS => {
                    let mut having = [false; ITEMS];
                    for fact in saying(facts, property) {
                        having[item(*fact)] = true;
                    }
                    for (mark, having) in marks.iter_mut().zip(having) {
                        *mark &= having;
                    }
                }
                LACKS => {
                    for fact in saying(facts, property) {
                        marks[item(*fact)] = false;
                    }
                }
                AT_LEAST => {
                    let degrees = degrees(saying(facts, property + 1));
                    for (mark, degree) in marks.iter_mut().zip(degrees) {
                        *mark &= entry.number() <= degree;
                    }
                }
                AT_MOST => {
                    let degrees = degrees(saying(facts, property + 1));
                    for (mark, degree) in marks.iter_mut().zip(degrees) {
                        *mark &= degree <= entry.number();
                    }
                }
                EVERY => {
                    let mut below = [true; ITEMS];
                    self.keep(number, facts, &mut below);
                    for fact in saying(facts, property + 1) {
                        marks[item(*fact)] &= below[(*fact & 0xff) as usize];
                    }
                }
                _ => *marks = [false; ITEMS],
            }
            number = usize::from(self.next[number % N]);
        }
    }
}

/// The facts that say this.
fn saying(facts: &[u64], what: u64) -> &[u64] {
    let rest = &facts[facts.partition_point(|fact| fact >> 16 < what)..];
    &rest[..rest.partition_point(|fact| fact >> 16 <= what)]
}

/// How many different items each item is linked to.
fn degrees(facts: &[u64]) -> [u16; ITEMS] {
    let mut degrees = [0; ITEMS];
    let mut last = u64::MAX;
    for fact in facts {
        degrees[item(*fact)] += u16::from(*fact != last);
        last = *fact;
    }
    degrees
}

/// The item that a fact is about.
#[inline]
fn item(fact: u64) -> usize {
    (fact >> 8 & 0xff) as usize
}
