//! Descriptions made from others: weaker, in another order, wrong by one entry.

use reference::notation::entry;
use reference::{Entry, Link};

use crate::chance::Chance;
use crate::{word, MOST_DEPTH, MOST_DESCRIPTION};

/// A description that every item fits which fits this one: entries are left out, weakened or divided, and some that say nothing
/// are put in.
pub fn weaker(chance: &mut Chance, c: &[Entry]) -> Vec<Entry> {
    let mut d = Vec::new();
    // For each entry of C the numbers that stand for it in D; the top stands for itself.
    let mut numbers: Vec<Vec<u16>> = vec![vec![0]];
    for e in c {
        let owners = numbers.get(usize::from(e.owner));
        let owner = owners.and_then(|owners| chance.any(owners));
        let room = d.len() + 3 <= MOST_DESCRIPTION;
        let Some(owner) = owner.filter(|_| room && !chance.once_in(8)) else {
            numbers.push(Vec::new());
            continue;
        };
        if chance.once_in(12) {
            d.push(says_nothing(chance, owner, e.name.max(1)));
        }
        let times = if e.kind == 5 && chance.once_in(4) {
            2
        } else {
            1
        };
        let first = d.len() + 1;
        for _ in 0..times {
            d.push(Entry {
                owner,
                ..weakened(chance, *e)
            });
        }
        numbers.push((first..=d.len()).map(word).collect());
    }
    d
}

/// An entry that every item meets: of a link that leads to one item only also at most 1 or more.
pub(crate) fn says_nothing(chance: &mut Chance, owner: u16, link: u16) -> Entry {
    if Link(link).is_single() && chance.once_in(2) {
        return entry(4, owner, link, chance.one_of([1, 1, 2, 65_535]));
    }
    entry(chance.one_of([3, 5]), owner, link, 0)
}

/// The entry, or one that asks less.
pub(crate) fn weakened(chance: &mut Chance, e: Entry) -> Entry {
    let number = match e.kind {
        3 => e.number - chance.up_to(e.number.min(3)),
        4 => e.number.saturating_add(chance.up_to(3)),
        _ => e.number,
    };
    Entry { number, ..e }
}

/// The same entries in a drawn order in which owners are still earlier.
pub fn reordered(chance: &mut Chance, entries: &[Entry]) -> Vec<Entry> {
    let mut owned: Vec<Vec<usize>> = vec![Vec::new(); entries.len() + 1];
    for (at, e) in entries.iter().enumerate() {
        if let Some(list) = owned.get_mut(usize::from(e.owner)) {
            list.push(at);
        }
    }
    let mut ready: Vec<(u16, usize)> = Vec::new();
    ready.extend(owned[0].iter().map(|&at| (0, at)));
    let mut order = Vec::new();
    while !ready.is_empty() {
        let (owner, at) = ready.swap_remove(chance.below(ready.len()));
        order.push(Entry {
            owner,
            ..entries[at]
        });
        let number = word(order.len());
        ready.extend(owned[at + 1].iter().map(|&below| (number, below)));
    }
    order
}

/// The description with one entry changed so that it asks more or other, or with one entry more.
pub fn missed(chance: &mut Chance, d: &[Entry]) -> Vec<Entry> {
    let mut d = d.to_vec();
    let at = chance.below(d.len());
    let (near, far) = (chance.from_1_to(3), chance.word().max(1));
    let fresh = chance.one_of([near, far, 32_766 + near]);
    let turn = chance.once_in(2);
    match d.get_mut(at) {
        Some(e) if e.kind == 3 => e.number = e.number.saturating_add(1),
        Some(e) if e.kind == 4 => e.number = e.number.saturating_sub(1),
        Some(e) if e.kind == 1 && turn => e.kind = 2,
        Some(e) if e.kind <= 2 => e.name = fresh,
        Some(e) if e.kind == 5 => {
            let owner = word(at + 1);
            add(chance, &mut d, owner, fresh);
        }
        _ => add(chance, &mut d, 0, fresh),
    }
    d
}

/// Adds an entry at the end, at the top if the owner's place is too deep; a full description loses its last entry.
fn add(chance: &mut Chance, d: &mut Vec<Entry>, owner: u16, name: u16) {
    d.truncate(MOST_DESCRIPTION - 1);
    let fits = usize::from(owner) <= d.len() && way(d, owner).len() <= MOST_DEPTH;
    let owner = if fits { owner } else { 0 };
    let number = chance.up_to(4);
    d.push(match chance.one_of([1, 2, 3, 4, 6]) {
        kind @ 1..=2 => entry(kind, owner, name, 0),
        kind @ 3..=4 => entry(kind, owner, name, number),
        _ => entry(6, owner, 0, 0),
    });
}

/// Puts an entry in anywhere after its owner; the entries after it keep their owners.
pub(crate) fn insert(chance: &mut Chance, entries: &mut Vec<Entry>, new: Entry) {
    let owner = usize::from(new.owner);
    let at = owner + chance.below(entries.len() + 1 - owner);
    insert_at(entries, at, new);
}

/// Puts an entry in at this place; the entries after it keep their owners.
pub(crate) fn insert_at(entries: &mut Vec<Entry>, at: usize, new: Entry) {
    for e in entries.iter_mut() {
        if usize::from(e.owner) > at {
            e.owner += 1;
        }
    }
    entries.insert(at, new);
}

/// The links from the top to the place of this owner.
pub fn way(entries: &[Entry], owner: u16) -> Vec<u16> {
    let mut links = Vec::new();
    let mut owner = owner;
    while let Some(e) = usize::from(owner)
        .checked_sub(1)
        .and_then(|at| entries.get(at))
    {
        links.push(e.name);
        owner = e.owner;
    }
    links.reverse();
    links
}

/// The marks, and one for each entry that owns a marked one, at any distance.
pub fn with_owners(entries: &[Entry], marks: &[bool]) -> Vec<bool> {
    let mut all = marks.to_vec();
    // Owners are earlier, so each is come to after all that it owns.
    for (at, e) in entries.iter().enumerate().rev() {
        if all[at] && e.owner > 0 {
            all[usize::from(e.owner) - 1] = true;
        }
    }
    all
}

/// The marked entries, whose owners are marked, with the numbers that they have then.
pub fn cut_down(entries: &[Entry], marks: &[bool]) -> Vec<Entry> {
    let (mut left, mut numbers) = (Vec::new(), vec![0]);
    for (e, &mark) in entries.iter().zip(marks) {
        if mark {
            let owner = numbers[usize::from(e.owner)];
            left.push(Entry { owner, ..*e });
        }
        numbers.push(word(left.len()));
    }
    left
}

/// A description that goes on into a link of which C allows no item, and asks there what nothing fits; if C has such a link.
pub fn past_at_most_0(chance: &mut Chance, c: &[Entry]) -> Option<Vec<Entry>> {
    let shut: Vec<&Entry> = c.iter().filter(|e| e.kind == 4 && e.number == 0).collect();
    let e = chance.any(&shut)?;
    let mut links = way(c, e.owner);
    links.push(e.name);
    if links.len() > MOST_DEPTH {
        return None;
    }
    let mut d: Vec<Entry> = (0..)
        .zip(&links)
        .map(|(owner, &link)| entry(5, owner, link, 0))
        .collect();
    d.push(entry(6, word(links.len()), 0, 0));
    Some(d)
}
