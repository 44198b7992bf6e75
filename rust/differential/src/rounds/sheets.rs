//! Rounds of field sheets.

use reference::notation::entry;
use reference::{encode, Entry};

use super::{Found, Rounds, With};
use crate::agree;
use crate::chance::Chance;
use crate::draw;
use crate::word;

impl Rounds {
    /// Reads the bytes as a field sheet.
    ///
    /// # Errors
    ///
    /// The difference.
    pub fn read_sheet(&mut self, bytes: &[u8]) -> Found {
        let answer = agree::read_sheet(bytes)?;
        self.tally.add("read sheet", With::default(), answer);
        Ok(())
    }

    /// A field sheet of any size, the same with one entry or two that step outside, and a description as it is drawn.
    ///
    /// # Errors
    ///
    /// The difference.
    pub fn sheets(&mut self) -> Found {
        let shape = draw::shape(&mut self.chance);
        let any = draw::description(&mut self.chance, &shape);
        self.read_sheet(&encode(&any))?;
        let mut sheet = brought_inside(&mut self.chance, &any);
        self.read_sheet(&encode(&sheet))?;
        for _ in 0..2 {
            stepped(&mut self.chance, &mut sheet);
            self.read_sheet(&encode(&sheet))?;
        }
        Ok(())
    }
}

/// The entries with each brought into the profile: another kind, a number of at most 99, and an owner at most 2 links
/// deep.
fn brought_inside(chance: &mut Chance, entries: &[Entry]) -> Vec<Entry> {
    let mut depths = vec![0];
    let mut sheet = Vec::new();
    for drawn in entries {
        let kind = [1, 1, 3, 4, 5, 5][usize::from(drawn.kind) % 6];
        let number = match kind {
            3 | 4 => near_99(chance),
            _ => 0,
        };
        let owner = match usize::from(drawn.owner) {
            owner if depths.get(owner).is_some_and(|&depth| depth < 4) => drawn.owner,
            _ => 0,
        };
        let depth = depths.get(usize::from(owner)).copied().unwrap_or(0);
        sheet.push(entry(kind, owner, drawn.name.max(1), number));
        // What can't own is as deep as none may stand.
        depths.push(if kind == 5 { depth + 1 } else { 9 });
    }
    sheet
}

/// A number of at most 99, often at a border.
fn near_99(chance: &mut Chance) -> u16 {
    let any = word(chance.below(100));
    chance.one_of([0, 1, 98, 99, any])
}

/// One step, of which most lead outside: a kind, a number, an owner.
fn stepped(chance: &mut Chance, sheet: &mut [Entry]) {
    if sheet.is_empty() {
        return;
    }
    let at = chance.below(sheet.len());
    let before = word(chance.below(at + 1));
    let step = &mut sheet[at];
    match chance.below(6) {
        0 if step.kind == 1 => step.kind = 2,
        1 => *step = entry(6, step.owner, 0, 0),
        2 => *step = entry(9, step.owner, step.name, 0),
        3 | 4 if matches!(step.kind, 3 | 4) => step.number = chance.one_of([99, 100, 101, 65_535]),
        _ => step.owner = before,
    }
}
