//! All entries that fail.

use super::compare::{enter_all, look, top};
use super::pairs::Pairs;
use super::read::Described;
use super::slots::Slots;
use super::{size, Refusal, Size, TOO_SHORT};

/// Fills a byte for each entry of D, 1 where C does not say it, and answers whether C is contained in D.
pub fn failing(pairs: &[u8], c: &[u8], d: &[u8], out: &mut [u8]) -> Result<bool, Refusal> {
    let pairs = Pairs::read(pairs)?;
    let (c, d) = (Described::Sent(c), Described::Sent(d));
    match size(c.bytes().len().max(d.bytes().len())) {
        Size::Small => sized::<64>(pairs.as_ref(), c, d, out),
        Size::Middle => sized::<256>(pairs.as_ref(), c, d, out),
        Size::Large => sized::<1024>(pairs.as_ref(), c, d, out),
    }
}

fn sized<const N: usize>(
    pairs: Option<&Pairs>,
    c: Described,
    d: Described,
    out: &mut [u8],
) -> Result<bool, Refusal> {
    let mut slots = Slots::<N>::new();
    enter_all(&mut slots, pairs, c)?;
    let mut states = [0u16; N];
    states[0] = top(&slots);
    let mut fails = [0u8; N];
    let mut entries = 0;
    let mut contained = true;
    d.read::<N>(2, |number, entry| {
        let (holds, below) = look(pairs, &slots, states[entry.owner()], entry);
        states[number] = below;
        fails[number] = u8::from(!holds);
        contained &= holds;
        entries = number;
    })?;
    let filled = out.get_mut(..entries).ok_or(TOO_SHORT)?;
    filled.copy_from_slice(&fails[1..=entries]);
    Ok(contained)
}
