//! Doubles: descriptions that mean the same, and so have one normal form, byte for byte.
//!
//! A double is made from a description by steps, each of which leaves the items that fit as they are in every record that keeps the
//! list and the rule on links that lead to one item only; the words of each step say why.

use goltximen::Under;
use reference::notation::entry;
use reference::{encode, Entry};

use crate::agree::{self, Answer, Difference};
use crate::chance::Chance;
use crate::derived::{self, insert, insert_at, says_nothing, weakened};
use crate::excluding::{pairs_of, with_implied_lacks};
use crate::naming::{named, Dictionary, MOST_NAMES};
use crate::word;

/// What two descriptions mean the same by: the list of pairs and the dictionary.
#[derive(Clone, Copy, Debug)]
pub struct Background<'a> {
    /// The list of pairs.
    pub pairs: &'a [u8],
    /// The dictionary.
    pub dictionary: &'a Dictionary,
}

/// A step from a description to one that means the same, or to itself where there is nothing to be done.
pub type Step = fn(&mut Chance, Background, &[Entry]) -> Vec<Entry>;

/// The steps, with their names.
pub const STEPS: [(&str, Step); 12] = [
    ("in another order", in_another_order),
    ("once more", once_more),
    ("every once more", every_once_more),
    ("every in two", every_in_two),
    ("what says nothing", what_says_nothing),
    ("implied lacks", implied_lacks),
    ("under a name", under_a_name),
    ("a name unfolded", a_name_unfolded),
    ("none by the link", none_by_the_link),
    ("impossible otherwise", impossible_otherwise),
    ("beyond at most 0", beyond_at_most_0),
    ("beside nothing fits", beside_nothing_fits),
];

/// A double of an accepted description: a few drawn steps on from it.
pub fn double(chance: &mut Chance, background: Background, d: &[Entry]) -> Vec<Entry> {
    let mut double = d.to_vec();
    for _ in 0..=chance.below(8) {
        let (_, step) = chance.one_of(STEPS);
        double = after(chance, background, &double, step);
    }
    double
}

/// The description after a step, or as it is where that would no longer be accepted.
pub fn after(chance: &mut Chance, background: Background, d: &[Entry], step: Step) -> Vec<Entry> {
    let changed = step(chance, background, d);
    match background.dictionary.accepts(&changed) {
        true => changed,
        false => d.to_vec(),
    }
}

/// Gives a part of the description a name in the dictionary, if there is room.
pub fn give_name(chance: &mut Chance, dictionary: &mut Dictionary, d: &[Entry]) {
    if dictionary.descriptions.len() < MOST_NAMES {
        let (owner, mut part) = (any_place(chance, d), Vec::new());
        copy_part(chance, d, owner, &mut part, 0);
        dictionary.push(part);
    }
}

/// Adds a drawn part of what this owner owns, all below it included, to the end of a list, where it has another owner.
fn copy_part(chance: &mut Chance, d: &[Entry], owner: u16, list: &mut Vec<Entry>, new: u16) {
    // What owns the copies of what is owned by the top and by each entry, where these are copied.
    let mut owners: Vec<Option<u16>> = vec![None; d.len() + 1];
    owners[usize::from(owner)] = Some(new);
    for (number, e) in (1..).zip(d) {
        if let Some(owner) = owners[usize::from(e.owner)].filter(|_| !chance.once_in(8)) {
            list.push(Entry { owner, ..*e });
            owners[number] = Some(word(list.len()));
        }
    }
}

/// The entries of this kind, by where they stand.
fn of_kind(d: &[Entry], kind: u8) -> Vec<usize> {
    (0..d.len()).filter(|&at| d[at].kind == kind).collect()
}

/// The owner of any place, 0 for the top.
fn any_place(chance: &mut Chance, d: &[Entry]) -> u16 {
    let every = of_kind(d, 5);
    let at = chance.below(every.len() + 1);
    every.get(at).map_or(0, |&at| word(at + 1))
}

/// The order of entries says nothing.
fn in_another_order(chance: &mut Chance, _: Background, d: &[Entry]) -> Vec<Entry> {
    derived::reordered(chance, d)
}

/// Who meets an entry meets it twice, and meets one that asks less: beside an at most a larger one, beside an at least a smaller one.
/// An 'every' is put in without what it owns, and so asks nothing.
fn once_more(chance: &mut Chance, _: Background, d: &[Entry]) -> Vec<Entry> {
    let mut d = d.to_vec();
    if let Some(e) = chance.any(&d) {
        let more = weakened(chance, e);
        insert(chance, &mut d, more);
    }
    d
}

/// Who meets an 'every' meets one that asks the same of the same items, or a part of it.
fn every_once_more(chance: &mut Chance, _: Background, d: &[Entry]) -> Vec<Entry> {
    let mut more = d.to_vec();
    if let Some(at) = chance.any(&of_kind(d, 5)) {
        more.push(d[at]);
        let new = word(more.len());
        copy_part(chance, d, word(at + 1), &mut more, new);
    }
    more
}

/// An item fits what an 'every' owns exactly if it fits each of two parts of it.
fn every_in_two(chance: &mut Chance, _: Background, d: &[Entry]) -> Vec<Entry> {
    let mut d = d.to_vec();
    if let Some(at) = chance.any(&of_kind(&d, 5)) {
        let (every, first, second) = (d[at], word(at + 1), word(at + 2));
        insert_at(&mut d, at + 1, every);
        for e in d.iter_mut().filter(|e| e.owner == first) {
            e.owner = chance.one_of([first, second]);
        }
    }
    d
}

/// At least 0, an 'every' that owns nothing, at most 1 or more of a link that leads to one item only, and the name of a description
/// that has no entries once unfolded are met by all items.
fn what_says_nothing(chance: &mut Chance, background: Background, d: &[Entry]) -> Vec<Entry> {
    let mut d = d.to_vec();
    let owner = any_place(chance, &d);
    let link = chance.any(&d).map_or(32_768, |e| e.name.max(1));
    let dictionary = background.dictionary;
    let name = named(owner, dictionary.any_name(chance));
    let empty = name.name > 0 && dictionary.extent(&[name]).entries == 0;
    let new = match empty {
        true => name,
        false => says_nothing(chance, owner, link),
    };
    insert(chance, &mut d, new);
    d
}

/// Who has the one property of a pair lacks the other.
fn implied_lacks(chance: &mut Chance, background: Background, d: &[Entry]) -> Vec<Entry> {
    with_implied_lacks(chance, background.pairs, d)
}

/// A name stands for the contents of its description, wherever they stand. An 'every' that owns more than these stays for the rest.
fn under_a_name(chance: &mut Chance, background: Background, d: &[Entry]) -> Vec<Entry> {
    let descriptions = &background.dictionary.descriptions;
    // The last is more often than not a part of the description.
    let any = background.dictionary.any_name(chance);
    let name = chance.one_of([any, word(descriptions.len())]);
    let Some(contents) = usize::from(name).checked_sub(1).map(|at| &descriptions[at]) else {
        return d.to_vec();
    };
    let mut places = vec![any_place(chance, d), 0];
    places.extend(of_kind(d, 5).into_iter().map(|at| word(at + 1)));
    for owner in places {
        if let Some(found) = standing(d, contents, owner) {
            let (mut rest, numbers) = without(d, &found);
            let owner = numbers[usize::from(owner)];
            insert(chance, &mut rest, named(owner, name));
            return rest;
        }
    }
    d.to_vec()
}

/// Which entries are the contents, with this owner for those of the top, if they all stand there.
fn standing(d: &[Entry], contents: &[Entry], owner: u16) -> Option<Vec<bool>> {
    let mut found = vec![false; d.len()];
    // The numbers in the description of the top and of each entry of the contents.
    let mut numbers = vec![owner];
    for e in contents {
        let owner = numbers[usize::from(e.owner)];
        let wanted = Entry { owner, ..*e };
        let at = (0..d.len()).find(|&at| d[at] == wanted && !found[at])?;
        found[at] = true;
        numbers.push(word(at + 1));
    }
    Some(found)
}

/// The description without these entries, of which those stay that own one which stays; and the new numbers of the top and of each
/// entry that stays.
fn without(d: &[Entry], these: &[bool]) -> (Vec<Entry>, Vec<u16>) {
    let mut owns = vec![false; d.len() + 1];
    for (at, e) in d.iter().enumerate().rev() {
        if !these[at] || owns[at + 1] {
            owns[at + 1] = true;
            owns[usize::from(e.owner)] = true;
        }
    }
    let (mut rest, mut numbers) = (Vec::new(), vec![0]);
    for (at, e) in d.iter().enumerate() {
        if owns[at + 1] {
            let owner = numbers[usize::from(e.owner)];
            rest.push(Entry { owner, ..*e });
        }
        numbers.push(word(rest.len()));
    }
    (rest, numbers)
}

/// The contents of a description say what its name says.
fn a_name_unfolded(chance: &mut Chance, background: Background, d: &[Entry]) -> Vec<Entry> {
    let Some(at) = chance.any(&of_kind(d, 9)) else {
        return d.to_vec();
    };
    let mut this = vec![false; d.len()];
    this[at] = true;
    let (mut rest, _) = without(d, &this);
    let before = word(rest.len());
    let contents = &background.dictionary.descriptions[usize::from(d[at].name) - 1];
    rest.extend(contents.iter().map(|e| Entry {
        owner: match e.owner {
            0 => d[at].owner,
            owner => before + owner,
        },
        ..*e
    }));
    rest
}

/// Entries that no item meets together: nothing fits; has and lacks of one property; a link with at least one more than at most; at
/// least 2 of a link that leads to one item only; both properties of a pair.
fn impossible(chance: &mut Chance, pairs: &[u8], owner: u16) -> Vec<Entry> {
    let (name, number) = (chance.from_1_to(9), chance.up_to(3));
    let pair = chance.any(&pairs_of(pairs));
    match (chance.below(5), pair) {
        (0, _) => vec![entry(6, owner, 0, 0)],
        (1, _) => vec![entry(1, owner, name, 0), entry(2, owner, name, 0)],
        (2, _) => vec![
            entry(4, owner, name, number),
            entry(3, owner, name, number + 1),
        ],
        (3, Some((one, other))) => vec![entry(1, owner, one, 0), entry(1, owner, other, 0)],
        _ => vec![entry(3, owner, 32_767 + name, 2 + number)],
    }
}

/// At most 0 says that every item by the link is impossible.
fn none_by_the_link(chance: &mut Chance, background: Background, d: &[Entry]) -> Vec<Entry> {
    let mut d = d.to_vec();
    if let Some(at) = chance.any(&at_most_0(&d)) {
        d[at].kind = 5;
        let contents = impossible(chance, background.pairs, word(at + 1));
        d.extend(contents);
    }
    d
}

/// The at most 0, by where they stand.
fn at_most_0(d: &[Entry]) -> Vec<usize> {
    let mut all = of_kind(d, 4);
    all.retain(|&at| d[at].number == 0);
    all
}

/// A place is impossible in whatever way it is so.
fn impossible_otherwise(chance: &mut Chance, background: Background, d: &[Entry]) -> Vec<Entry> {
    let Some(at) = chance.any(&of_kind(d, 6)) else {
        return d.to_vec();
    };
    let mut this = vec![false; d.len()];
    this[at] = true;
    let (mut rest, _) = without(d, &this);
    rest.extend(impossible(chance, background.pairs, d[at].owner));
    rest
}

/// Where there is no item by a link, each of them fits anything.
fn beyond_at_most_0(chance: &mut Chance, _: Background, d: &[Entry]) -> Vec<Entry> {
    let mut more = d.to_vec();
    if let Some(at) = chance.any(&at_most_0(d)) {
        more.push(entry(5, d[at].owner, d[at].name, 0));
        let owner = word(more.len());
        add_any(chance, &mut more, owner);
    }
    more
}

/// Where nothing fits, nothing fits whatever else is asked.
fn beside_nothing_fits(chance: &mut Chance, _: Background, d: &[Entry]) -> Vec<Entry> {
    let mut more = d.to_vec();
    if let Some(at) = chance.any(&of_kind(d, 6)) {
        add_any(chance, &mut more, d[at].owner);
    }
    more
}

/// Adds up to three entries like those that are there, with this owner.
fn add_any(chance: &mut Chance, d: &mut Vec<Entry>, owner: u16) {
    for _ in 0..=chance.below(3) {
        if let Some(e) = chance.any(d) {
            d.push(Entry { owner, ..e });
        }
    }
}

/// What the comparison of two accepted descriptions answers, and with the two exchanged. Their normal forms, written into outputs of
/// other lengths and with other bytes in them, have the same first blocks exactly if both answers are 'contained'.
///
/// # Errors
///
/// The difference.
pub fn compared(
    chance: &mut Chance,
    under: Under,
    c: &[Entry],
    d: &[Entry],
) -> Result<[Answer; 2], Difference> {
    let blocks = [c, d].map(encode);
    let length = blocks.each_ref().map(|d| agree::plain(under, d).len());
    let both = length[0] + length[1];
    let answers = [
        agree::compare(chance, under, &blocks[0], &blocks[1], both)?,
        agree::compare(chance, under, &blocks[1], &blocks[0], both)?,
    ];
    let first = agree::normal_blocks(chance, under, &blocks[0])?;
    let second = agree::normal_blocks(chance, under, &blocks[1])?;
    if (first == second) == are_alike(answers) {
        return Ok(answers);
    }
    Err(agree::found(
        "normal form: one for two that do not contain each other, or two for two that do",
        under,
        &[c, d],
    ))
}

/// Whether each of the two is contained in the other.
pub fn are_alike(answers: [Answer; 2]) -> bool {
    answers == [Answer::Contained; 2]
}

/// The same for a double, which has to have the same normal form.
///
/// # Errors
///
/// The difference.
pub fn compared_double(
    chance: &mut Chance,
    under: Under,
    d: &[Entry],
    double: &[Entry],
) -> Result<[Answer; 2], Difference> {
    let answers = compared(chance, under, d, double)?;
    if are_alike(answers) {
        return Ok(answers);
    }
    Err(agree::found("normal form: not one", under, &[d, double]))
}
