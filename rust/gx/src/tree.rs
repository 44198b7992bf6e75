//! Which entry owns which, and the way to a place.

use crate::entry::{Entry, Link};

/// The entries of each owner, in the order of their numbers.
#[derive(Clone, Debug)]
pub struct Tree {
    owned: Vec<Vec<usize>>,
}

impl Tree {
    /// The tree of an accepted input. An entry whose owner is not earlier stands nowhere.
    pub fn new(entries: &[Entry]) -> Tree {
        let mut owned = vec![Vec::new(); entries.len() + 1];
        for (number, e) in (1..).zip(entries) {
            let owner = usize::from(e.owner);
            if owner < number {
                owned[owner].push(number);
            }
        }
        Tree { owned }
    }

    /// The numbers of the entries that this entry owns; 0 is the top.
    pub fn owned(&self, owner: usize) -> &[usize] {
        self.owned.get(owner).map_or(&[], Vec::as_slice)
    }

    /// How many entries stand below this one.
    pub fn below(&self, owner: usize) -> usize {
        let owned = self.owned(owner);
        owned.iter().map(|&number| 1 + self.below(number)).sum()
    }
}

/// The numbers of the owners of an entry, from the top down.
pub fn owners(entries: &[Entry], number: usize) -> Vec<usize> {
    let mut chain = Vec::new();
    let mut at = number;
    while let Some(e) = at.checked_sub(1).and_then(|at| entries.get(at)) {
        let owner = usize::from(e.owner);
        if owner == 0 || owner >= at {
            break;
        }
        chain.push(owner);
        at = owner;
    }
    chain.reverse();
    chain
}

/// The entries that are marked, with owners by their new numbers. The owners of one that is marked are marked.
pub fn cut_down(entries: &[Entry], marks: &[bool]) -> Vec<Entry> {
    let mut numbers = vec![0; entries.len() + 1];
    let mut kept = Vec::new();
    for (number, e) in (1..).zip(entries) {
        if marks.get(number - 1) == Some(&true) {
            let owner = numbers.get(usize::from(e.owner)).copied().unwrap_or(0);
            kept.push(Entry { owner, ..*e });
            numbers[number] = kept.len() as u16;
        }
    }
    kept
}

/// The entries of one description, and behind them those of another, whose owners count on.
pub fn joined(first: &[Entry], second: &[Entry]) -> Vec<Entry> {
    let before = first.len() as u16;
    let behind = second.iter().map(|e| match e.owner {
        0 => *e,
        owner => Entry {
            owner: owner + before,
            ..*e
        },
    });
    first.iter().copied().chain(behind).collect()
}

/// The entries of one description, and behind them those of another that are marked, each at the place where it stands there: an 'every'
/// of a place that the first has is that one. And of what is behind, the numbers that it has in the other.
pub fn placed(first: &[Entry], second: &[Entry], marks: &[bool]) -> (Vec<Entry>, Vec<usize>) {
    let mut whole = first.to_vec();
    let mut behind = Vec::new();
    let mut numbers = vec![0; second.len() + 1];
    for (number, e) in (1..).zip(second) {
        if marks.get(number - 1) != Some(&true) {
            continue;
        }
        let owner = numbers.get(usize::from(e.owner)).copied().unwrap_or(0);
        let e = Entry { owner, ..*e };
        let there = whole.iter().position(|other| e.owns() && *other == e);
        numbers[number] = match there {
            Some(at) => (at + 1) as u16,
            None => {
                whole.push(e);
                behind.push(number);
                whole.len() as u16
            }
        };
    }
    (whole, behind)
}

/// An entry with its owners, and nothing else: the description that an item fits exactly if it meets the entry.
pub fn alone(entries: &[Entry], entry: usize) -> Vec<Entry> {
    let chain = owners(entries, entry).into_iter().chain([entry]);
    let numbered = (0..).zip(chain);
    numbered
        .map(|(owner, number)| Entry {
            owner,
            ..entries[number - 1]
        })
        .collect()
}

/// What a group's items have, as a specimen of which one of them is the top item.
pub fn beneath(entries: &[Entry], tree: &Tree, group: usize) -> Vec<Entry> {
    let mut out = Vec::new();
    let mut open = vec![(group, 0)];
    // Owners come before what they own, since each is taken out before its own are put in.
    while let Some((owner, number)) = open.pop() {
        for &owned in tree.owned(owner) {
            out.push(Entry {
                owner: number,
                ..entries[owned - 1]
            });
            open.push((owned, (out.len() & 0xffff) as u16));
        }
    }
    out
}

/// The links from the top to the place where an entry stands.
pub fn way(entries: &[Entry], number: usize) -> Vec<Link> {
    let owners = owners(entries, number);
    owners
        .iter()
        .map(|&owner| Link(entries[owner - 1].name))
        .collect()
}

/// The owners of all places that these links lead to from the top; in a normal form and in a specimen there is at most one.
pub fn places(entries: &[Entry], tree: &Tree, way: &[Link]) -> Vec<usize> {
    let mut at = vec![0];
    for link in way {
        let below = at.iter().flat_map(|&owner| tree.owned(owner)).copied();
        let leads = |&number: &usize| {
            let e = entries[number - 1];
            e.owns() && Link(e.name) == *link
        };
        at = below.filter(leads).collect();
    }
    at
}
