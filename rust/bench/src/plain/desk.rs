//! A drafting desk in one buffer: counters, and five areas of entries. Each call looks first whether the buffer is one that calls give.

use super::entry::Entry;
use super::read::{judge_next, refusal};
use super::rows::write_stored;
use super::{Refusal, TOO_SHORT};

/// The bytes of the counters, of an area, and of all.
const COUNTERS: usize = 20;
const AREA: usize = 8064;
pub const DESK_BYTES: usize = COUNTERS + 5 * AREA;
/// The most entries of a description, and the most stands.
const MOST: usize = 1008;
const STANDS: usize = 4;

/// The counters.
#[derive(Clone, Copy)]
struct Counters {
    count: u16,
    stands: u16,
    names: [u16; STANDS],
    counts: [u16; STANDS],
}

type Levels = [u8; 1024];

/// Adds an entry at the end, and answers how many are left, as the other calls do.
pub fn add(desk: &mut [u8], entry: u64) -> Result<usize, Refusal> {
    let mut levels = [0; 1024];
    let (mut counters, memory) = open(desk, &mut levels)?;
    let count = usize::from(counters.count);
    if count == MOST {
        return Err(refusal(16, 1, 0));
    }
    judge_next(Entry(entry), count + 1, &mut levels).map_err(|n| refusal(n, 1, count + 1))?;
    memory[8 * count..8 * count + 8].copy_from_slice(&entry.to_le_bytes());
    counters.count += 1;
    close(desk, counters)
}

/// Takes off the last entry.
pub fn take_off(desk: &mut [u8]) -> Result<usize, Refusal> {
    let (mut counters, _) = open(desk, &mut [0; 1024])?;
    counters.count = counters.count.checked_sub(1).ok_or(refusal(17, 1, 0))?;
    close(desk, counters)
}

/// Keeps the description under a number.
pub fn name(desk: &mut [u8], stand: u16) -> Result<usize, Refusal> {
    let (mut counters, memory) = open(desk, &mut [0; 1024])?;
    let at = match counters.find(stand) {
        Some(at) => at,
        None if stand != 0 && usize::from(counters.stands) < STANDS => counters.stands.into(),
        None => return Err(refusal(18, 1, 0)),
    };
    memory.copy_within(..8 * usize::from(counters.count), AREA * (at + 1));
    counters.names[at] = stand;
    counters.counts[at] = counters.count;
    counters.stands = counters.stands.max(at as u16 + 1);
    close(desk, counters)
}

/// Goes back to what is kept under a number.
pub fn go_back(desk: &mut [u8], stand: u16) -> Result<usize, Refusal> {
    let (mut counters, memory) = open(desk, &mut [0; 1024])?;
    let at = counters.find(stand).ok_or(refusal(18, 1, 0))?;
    counters.count = counters.counts[at];
    let from = AREA * (at + 1);
    memory.copy_within(from..from + 8 * usize::from(counters.count), 0);
    close(desk, counters)
}

/// Keeps it no more.
pub fn drop_stand(desk: &mut [u8], stand: u16) -> Result<usize, Refusal> {
    let (mut counters, memory) = open(desk, &mut [0; 1024])?;
    let at = counters.find(stand).ok_or(refusal(18, 1, 0))?;
    memory.copy_within(AREA * (at + 2).., AREA * (at + 1));
    counters.names.copy_within(at + 1.., at);
    counters.names[STANDS - 1] = 0;
    counters.counts.copy_within(at + 1.., at);
    counters.counts[STANDS - 1] = 0;
    counters.stands -= 1;
    close(desk, counters)
}

/// Writes the description in blocks.
pub fn write_out(desk: &[u8], out: &mut [u8]) -> Result<usize, Refusal> {
    let counters = right(desk, &mut [0; 1024])?;
    let count = usize::from(counters.count);
    let bytes = &desk[COUNTERS..COUNTERS + 8 * count];
    write_stored(bytes.as_chunks().0, out).ok_or(TOO_SHORT)?;
    Ok(count)
}

/// The counters and the memory of a desk that is right, and the levels of its description's entries.
#[inline]
fn open<'a>(desk: &'a mut [u8], levels: &mut Levels) -> Result<(Counters, &'a mut [u8]), Refusal> {
    let counters = right(desk, levels)?;
    Ok((counters, &mut desk[COUNTERS..DESK_BYTES]))
}

/// The counters of a desk that is right.
#[inline]
fn right(desk: &[u8], levels: &mut Levels) -> Result<Counters, Refusal> {
    let counters = (desk.len() >= DESK_BYTES).then(|| Counters::read(desk));
    let right = |counters: &Counters| counters.are_right() && drafts(counters, desk, levels);
    counters.filter(right).ok_or(refusal(20, 1, 0))
}

/// Stores the counters, and answers how many entries are left.
#[inline]
fn close(desk: &mut [u8], counters: Counters) -> Result<usize, Refusal> {
    counters.write(desk);
    Ok(counters.count.into())
}

/// Whether the entries of each area are a description's. Those of the description come last, so that their levels are left.
#[inline]
fn drafts(counters: &Counters, desk: &[u8], levels: &mut Levels) -> bool {
    let mut area = |at: usize, count: u16| {
        let from = COUNTERS + AREA * at;
        let entries = desk[from..from + 8 * usize::from(count)].as_chunks().0;
        levels[0] = 0;
        let mut numbered = (1..).zip(entries);
        numbered.all(|(number, &bytes)| {
            judge_next(Entry(u64::from_le_bytes(bytes)), number, levels).is_ok()
        })
    };
    let stands = &counters.counts[..usize::from(counters.stands)];
    (1..).zip(stands).all(|(at, &count)| area(at, count)) && area(0, counters.count)
}

impl Counters {
    #[inline]
    fn read(desk: &[u8]) -> Counters {
        let word = |at: usize| u16::from_le_bytes([desk[2 * at], desk[2 * at + 1]]);
        Counters {
            count: word(0),
            stands: word(1),
            names: [word(2), word(3), word(4), word(5)],
            counts: [word(6), word(7), word(8), word(9)],
        }
    }

    #[inline]
    fn write(&self, desk: &mut [u8]) {
        let words = [self.count, self.stands].into_iter();
        let words = words.chain(self.names).chain(self.counts);
        for (word, bytes) in words.zip(desk.as_chunks_mut::<2>().0) {
            *bytes = word.to_le_bytes();
        }
    }

    #[inline]
    fn are_right(&self) -> bool {
        usize::from(self.count) <= MOST
            && usize::from(self.stands) <= STANDS
            && (0..STANDS).all(|at| self.stand_is_right(at))
    }

    #[inline]
    fn stand_is_right(&self, at: usize) -> bool {
        let (name, count) = (self.names[at], self.counts[at]);
        if at < usize::from(self.stands) {
            name != 0 && usize::from(count) <= MOST && !self.names[..at].contains(&name)
        } else {
            name == 0 && count == 0
        }
    }

    /// Where the stand of a number stands.
    #[inline]
    fn find(&self, stand: u16) -> Option<usize> {
        let names = &self.names[..usize::from(self.stands)];
        names.iter().position(|&name| name == stand)
    }
}
