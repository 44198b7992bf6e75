//! The shorter stored form: entries of 6 bytes in walking order.

use super::entry::{Entry, EVERY};
use super::read::{check_blocks, read, refusal, sums, Block, DEEPEST, DESCRIPTION};
use super::rows::Rows;
use super::{size, Refusal, Size, BLOCK, TOO_SHORT};

/// The bytes of an entry, the entries of a block, and the most blocks.
const WIDTH: usize = 6;
const ROOM: usize = 84;
const MOST_BLOCKS: usize = 12;

/// Writes a description in the stored form, and answers its number of entries.
pub fn to_stored(description: &[u8], out: &mut [u8]) -> Result<usize, Refusal> {
    match size(description.len()) {
        Size::Small => store::<64, 128>(description, out),
        Size::Middle => store::<256, 512>(description, out),
        Size::Large => store::<1024, 2048>(description, out),
    }
}

/// The same of fewer than N entries, with twice as many cells of a table.
fn store<const N: usize, const CELLS: usize>(
    description: &[u8],
    out: &mut [u8],
) -> Result<usize, Refusal> {
    let mut entries = [Entry(0); N];
    // At o the first entry that o owns, and at N + n the one of the same owner after n.
    let mut next = [0u16; CELLS];
    // Where the next entry of each owner is entered.
    let mut ends = [0u16; N];
    ends.iter_mut().zip(0..).for_each(|(end, o)| *end = o);
    let count = read::<N>(description, &DESCRIPTION, 1, |n, entry| {
        entries[n] = entry;
        let end = &mut ends[entry.owner()];
        next[usize::from(*end)] = n as u16;
        *end = (N + n) as u16;
    })?;
    if out.len() < stored_bytes(count) {
        return Err(TOO_SHORT);
    }
    let mut rows = [0u64; N];
    let mut used = 0;
    let mut above = [0u16; 33];
    let mut depth = 0;
    let mut n = usize::from(next[0]);
    loop {
        while n == 0 {
            if depth == 0 {
                write(&rows[..used], out);
                return Ok(count);
            }
            depth -= 1;
            n = usize::from(above[depth]);
        }
        let entry = entries[n];
        rows[used] = entry.0 & 0xff | (depth as u64) << 8 | entry.0 >> 32 << 16;
        used += 1;
        let after = next[N + n];
        if entry.kind() == EVERY {
            above[depth] = after;
            depth += 1;
            n = usize::from(next[n]);
        } else {
            n = usize::from(after);
        }
    }
}

/// Writes a stored input as a description, and answers its number of entries.
pub fn from_stored(stored: &[u8], out: &mut [u8]) -> Result<usize, Refusal> {
    let (blocks, rest) = stored.as_chunks::<BLOCK>();
    if blocks.is_empty() || !rest.is_empty() || blocks.len() > MOST_BLOCKS {
        return Err(refusal(1, 1, 0));
    }
    let refused = |(number, place)| refusal(number, 1, place);
    check_blocks::<WIDTH, ROOM>(blocks).map_err(refused)?;
    match blocks.len() {
        1 => restore::<64>(blocks, out).map_err(refused)?,
        2..=5 => restore::<256>(blocks, out).map_err(refused)?,
        _ => restore::<512>(blocks, out).map_err(refused)?,
    }
    .ok_or(TOO_SHORT)
}

/// The same of at most 2 N entries: their number, unless the output is too short; or what is refused.
fn restore<const N: usize>(blocks: &[Block], out: &mut [u8]) -> Result<Option<usize>, (u8, usize)> {
    let mut rows = Rows::<N>::new();
    // The last 'every' of each depth but the last.
    let mut owners = [0u16; 34];
    let mut most = 0;
    for block in blocks {
        let used = usize::from(u16::from_le_bytes([block[2], block[3]]));
        for cell in &block[4..508].as_chunks::<WIDTH>().0[..used] {
            let &[kind, depth, n0, n1, m0, m1] = cell;
            let name = u16::from_le_bytes([n0, n1]);
            let number = u16::from_le_bytes([m0, m1]);
            let entry = Entry::new(u16::from(kind), 0, name, number);
            let right = DESCRIPTION.allows(entry);
            if !(right & (depth <= most) & (depth <= DEEPEST)) {
                let fault = if !right {
                    4
                } else if depth > most {
                    15
                } else {
                    6
                };
                return Err((fault, rows.used() + 1));
            }
            let depth = usize::from(depth);
            rows.push_if(true, entry.owned_by(owners[depth]));
            owners[depth + 1] = rows.used() as u16;
            most = depth as u8 + u8::from(u16::from(kind) == EVERY);
        }
    }
    if out.len() < BLOCK * rows.used().div_ceil(63).max(1) {
        return Ok(None);
    }
    Ok(Some(rows.write(out)))
}

/// The bytes of so many stored entries.
fn stored_bytes(count: usize) -> usize {
    BLOCK * count.div_ceil(ROOM).max(1)
}

/// Writes rows of 6 bytes in blocks from the start of an output that is long enough.
fn write(rows: &[u64], out: &mut [u8]) {
    let blocks = out.as_chunks_mut::<BLOCK>().0;
    let count = rows.len().div_ceil(ROOM).max(1);
    for (index, block) in blocks[..count].iter_mut().enumerate() {
        let rest = &rows[index * ROOM..];
        let rows = &rest[..rest.len().min(ROOM)];
        block[..2].copy_from_slice(&(index as u16 + 1).to_le_bytes());
        block[2..4].copy_from_slice(&(rows.len() as u16).to_le_bytes());
        for (cell, row) in block[4..508]
            .as_chunks_mut::<WIDTH>()
            .0
            .iter_mut()
            .zip(rows)
        {
            cell.copy_from_slice(&row.to_le_bytes()[..WIDTH]);
        }
        block[4 + WIDTH * rows.len()..].fill(0);
        // The checks are still zero, so they add nothing to the sums.
        let (sum, second) = sums(block);
        block[508..510].copy_from_slice(&second.to_le_bytes());
        block[510..].copy_from_slice(&sum.wrapping_add(second).to_le_bytes());
    }
}
