//! Drawn vectors, so many of each sort of answer.

use std::collections::BTreeMap;

use reference::notation::entry;
use reference::{decode, encode, Comparison, Entry};

use crate::catalogue::services;
use crate::chance::Chance;
use crate::damage::{damaged, Sort};
use crate::draw::{self, Shape};
use crate::excluding::{self, Given};
use crate::naming::{self, laid, Dictionary};
use crate::vectors::{Answer, Vector, MOST_LENGTH};
use crate::{derived, length_of, BLOCK, BLOCK_ENTRIES, MOST_DESCRIPTION, MOST_SPECIMEN};

/// What the vectors are drawn from.
const SEED: u64 = 9803;
/// Drawing ends after so many, also if some sort of answer came too rarely.
const MOST_DRAWN: usize = 100_000;
/// The most bytes of the inputs of a drawn vector together.
const MOST_BYTES: usize = 5 * BLOCK;

/// The sorts of answers that are not refusals 1 to 6 and 9, and how many are wanted of each.
const ANSWERS: [(&str, usize); 9] = [
    ("description accepted", 12),
    ("specimen accepted", 12),
    ("fit yes", 18),
    ("fit no", 18),
    ("normal form", 18),
    ("normal form refused 7 input 0", 10),
    ("compare contained", 18),
    ("compare not contained", 18),
    ("compare refused 7 input 0", 10),
];
/// The calls and their numbers of inputs.
const INPUTS: [(&str, u16); 5] = [
    ("description", 1),
    ("specimen", 1),
    ("fit", 2),
    ("normal form", 1),
    ("compare", 2),
];
/// How many are wanted of each refusal 1 to 6 of each call and input: at place 0 or 1, and at a later one.
const REFUSALS: [(u8, usize, usize); 6] = [
    (1, 4, 0),
    (2, 2, 2),
    (3, 2, 3),
    (4, 2, 3),
    (5, 2, 3),
    (6, 0, 4),
];

/// How many are wanted of refusal 9 of each call that takes a specimen: at place 1, and at a later one.
const SECOND_ITEMS: (usize, usize) = (2, 4);

/// What a sort of answer is followed by if it is a refusal at a later place than 1.
const LATER: &str = " later";

/// What a sort of answer under a list is followed by if the call without it gives another line.
const BY_THE_LIST: &str = " by the list";

/// The sorts of answers under a list, and how many are wanted of each. The answers that the list does not change are wanted too,
/// but fewer of them.
const LISTED: [(&str, usize); 22] = [
    ("fit yes", 6),
    ("fit no", 6),
    ("fit refused 12 input 1 later by the list", 12),
    ("fit refused 4 input 1 later", 3),
    ("fit refused 9 input 1", 3),
    ("fit refused 5 input 2 later", 3),
    ("normal form", 5),
    ("normal form by the list", 16),
    ("normal form refused 4 input 1 later", 2),
    ("normal form refused 7 input 0", 4),
    ("compare contained", 5),
    ("compare contained by the list", 14),
    ("compare not contained", 5),
    ("compare not contained by the list", 12),
    ("compare refused 4 input 2 later", 2),
    ("compare refused 7 input 0", 4),
    ("fit refused 11 input 0 by the list", 3),
    ("fit refused 11 input 0 later by the list", 4),
    ("normal form refused 11 input 0 by the list", 3),
    ("normal form refused 11 input 0 later by the list", 4),
    ("compare refused 11 input 0 by the list", 3),
    ("compare refused 11 input 0 later by the list", 4),
];

/// What a sort of answer with a dictionary is followed by if the call without it gives another line.
const BY_THE_NAMES: &str = " by the names";

/// The sorts of answers with a dictionary, and how many are wanted of each.
const NAMING: [(&str, usize); 33] = [
    ("unfold", 2),
    ("unfold by the names", 16),
    ("unfold refused 7 input 0 by the names", 6),
    ("unfold refused 4 input 1 later", 2),
    ("unfold refused 5 input 1 later by the names", 2),
    ("unfold refused 13 input 1", 2),
    ("unfold refused 13 input 1 later", 3),
    ("unfold refused 14 input 1 by the names", 4),
    ("unfold refused 1 input 100 by the names", 2),
    ("unfold refused 2 input 101 by the names", 2),
    ("unfold refused 3 input 101 by the names", 2),
    ("unfold refused 4 input 102 later by the names", 2),
    ("unfold refused 13 input 101 by the names", 2),
    ("unfold refused 13 input 102 later by the names", 2),
    ("unfold refused 14 input 104 by the names", 2),
    ("normal form by the names", 12),
    ("normal form refused 7 input 0 by the names", 4),
    ("normal form refused 13 input 1 later", 2),
    ("normal form refused 14 input 1 by the names", 2),
    ("normal form refused 13 input 102 later by the names", 2),
    ("compare contained by the names", 12),
    ("compare not contained by the names", 12),
    ("compare refused 7 input 0 by the names", 4),
    ("compare refused 13 input 1 later", 2),
    ("compare refused 13 input 2 later", 2),
    ("compare refused 14 input 1 by the names", 2),
    ("compare refused 14 input 2 by the names", 2),
    ("compare refused 1 input 100 by the names", 2),
    ("compare refused 4 input 102 later by the names", 2),
    ("fit yes by the names", 8),
    ("fit no by the names", 8),
    ("fit refused 13 input 2 later", 2),
    ("fit refused 1 input 100 by the names", 2),
];

/// What the sort of a catalogue's answer is followed by: whether all, some or none of the services contain the supplier.
const ALL: &str = " all";
const SOME: &str = " some";
const NONE: &str = " none";

/// The sorts of answers of the catalogue, and how many are wanted of each.
const CATALOGUES: [(&str, usize); 26] = [
    ("catalogue all", 5),
    ("catalogue some", 8),
    ("catalogue none", 5),
    ("catalogue refused 7 input 0", 3),
    ("catalogue refused 1 input 2", 2),
    ("catalogue refused 2 input 3", 2),
    ("catalogue refused 3 input 2", 2),
    ("catalogue refused 3 input 3", 2),
    ("catalogue refused 1 input 1", 1),
    ("catalogue refused 2 input 1", 1),
    ("catalogue refused 3 input 1", 1),
    ("catalogue refused 4 input 1 later", 1),
    ("catalogue refused 13 input 1", 1),
    ("catalogue refused 2 input 2", 1),
    ("catalogue refused 3 input 2 later", 1),
    ("catalogue refused 3 input 4", 1),
    ("catalogue refused 4 input 2", 1),
    ("catalogue refused 4 input 2 later", 1),
    ("catalogue refused 4 input 3", 1),
    ("catalogue refused 4 input 4 later", 1),
    ("catalogue refused 5 input 2 later", 1),
    ("catalogue refused 5 input 3 later", 1),
    ("catalogue refused 6 input 3 later", 1),
    ("catalogue refused 13 input 2", 1),
    ("catalogue refused 13 input 3", 1),
    ("catalogue refused 13 input 3 later", 1),
];

/// The most bytes of the dictionary of a drawn vector.
const MOST_DRAWN_DICTIONARY: usize = 4 * BLOCK;

/// The sort of a vector's answer, divided by the place if it is a refusal.
fn sort(vector: &Vector) -> String {
    let later = matches!(vector.answer().0, Answer::Refused(refusal) if refusal.place > 1);
    vector.sort() + if later { LATER } else { "" }
}

/// The sort of the answer of a vector under a list, and whether it is the list's doing.
fn listed_sort(vector: &Vector) -> String {
    let without = vector.clone().given(Given::default());
    let changed = without.line(1) != vector.line(1);
    sort(vector) + if changed { BY_THE_LIST } else { "" }
}

/// The sort of the answer of a vector with a dictionary, and whether it is the dictionary's doing.
fn naming_sort(vector: &Vector) -> String {
    let changed = vector.clone().with(&[]).line(1) != vector.line(1);
    sort(vector) + if changed { BY_THE_NAMES } else { "" }
}

/// How many vectors are wanted of each sort of answer.
fn wanted() -> Wanted {
    let mut wanted = BTreeMap::new();
    for (sort, times) in ANSWERS {
        wanted.insert(sort.to_string(), times);
    }
    for (call, inputs) in INPUTS {
        let each = (1..=inputs).flat_map(|input| REFUSALS.map(|refusal| (input, refusal)));
        for (input, (number, first, later)) in each {
            let sort = format!("{call} refused {number} input {input}");
            wanted.insert(format!("{sort}{LATER}"), later);
            wanted.insert(sort, first);
        }
    }
    for call in ["specimen", "fit"] {
        let sort = format!("{call} refused 9 input 1");
        wanted.insert(format!("{sort}{LATER}"), SECOND_ITEMS.1);
        wanted.insert(sort, SECOND_ITEMS.0);
    }
    wanted
}

/// How many are wanted of each sort.
type Wanted = BTreeMap<String, usize>;

/// The drawn vectors without pairs.
pub fn drawn() -> Vec<Vector> {
    kept(SEED, wanted(), any, sort)
}

/// The drawn vectors under lists, right and wrong.
pub fn listed() -> Vec<Vector> {
    let wanted = LISTED.map(|(sort, times)| (sort.to_string(), times));
    kept(SEED + 2, wanted.into(), under_a_list, listed_sort)
}

/// Drawn vectors in the order in which they came, without those of a sort of which there are enough.
fn kept(
    seed: u64,
    mut wanted: Wanted,
    any: fn(&mut Chance) -> Vector,
    sort: fn(&Vector) -> String,
) -> Vec<Vector> {
    let mut chance = Chance::from_seed(seed);
    let mut vectors = Vec::new();
    for _ in 0..MOST_DRAWN {
        if wanted.values().all(|&times| times == 0) {
            break;
        }
        let vector = any(&mut chance);
        let inputs = vector.first.len() + vector.second.len();
        if inputs > MOST_BYTES || vector.given.dictionary.len() > MOST_DRAWN_DICTIONARY {
            continue;
        }
        match wanted.get_mut(&sort(&vector)) {
            Some(times) if *times > 0 => *times -= 1,
            _ => continue,
        }
        vectors.push(vector);
    }
    vectors
}

/// A drawn vector of a call that takes a list, with a list drawn for its entries; now and then a wrong one.
fn under_a_list(chance: &mut Chance) -> Vector {
    let vector = match chance.below(8) {
        0..=1 => normal_form(chance),
        2..=3 => comparison(chance),
        4 => fit(chance),
        5 => implied(chance),
        6 => partnered(chance),
        _ => damage(chance),
    };
    if vector.given != Given::default() {
        return vector;
    }
    let entries = [decode(&vector.first), decode(&vector.second)].concat();
    let mut given = Given::list(excluding::drawn(chance, &entries));
    if chance.once_in(10) {
        given.pairs = excluding::wrong(chance, &given.pairs);
    }
    vector.given(given)
}

/// The drawn vectors with dictionaries, right and wrong.
pub fn naming() -> Vec<Vector> {
    let wanted = NAMING.map(|(sort, times)| (sort.to_string(), times));
    kept(SEED + 3, wanted.into(), with_names, naming_sort)
}

/// A drawn vector of a call that takes a dictionary, with descriptions that name what is in it; now and then with a slip, too much
/// once unfolded, or damaged.
fn with_names(chance: &mut Chance) -> Vector {
    let shape = shape(chance);
    let count = 1 + chance.below(4);
    let dictionary = Dictionary::of_drawn(chance, &shape, count, 5);
    let bytes = match chance.once_in(4) {
        true => {
            let slip = chance.below(naming::SLIPS);
            naming::slipped(chance, &dictionary, slip)
        }
        false => dictionary.bytes(),
    };
    let plain = description(chance);
    let c = dictionary.naming(chance, &plain);
    let d = match chance.below(3) {
        0 => derived::weaker(chance, &c),
        1 => derived::missed(chance, &c),
        _ => derived::reordered(chance, &c),
    };
    let [c, d] = [c, d].map(|entries| match chance.below(12) {
        0 => damaged(chance, Sort::Description, &entries),
        1 => encode(&overfull(chance, &dictionary, &entries)),
        _ => encode(&entries),
    });
    let needed = |d: &[u8]| unfolded(&bytes, d).len();
    let vector = match chance.below(5) {
        0..=1 => {
            let output = around(chance, needed(&c));
            Vector::unfold(c, output)
        }
        2 => {
            let output = around(chance, needed(&c));
            Vector::normal_form(c, output)
        }
        3 => {
            let output = around(chance, needed(&c) + needed(&d));
            Vector::compare(c, d, output)
        }
        _ => {
            let alone = encode(&specimen(chance));
            let nothing = encode(&[entry(6, 0, 0, 0)]);
            let made = shown(&unfolded(&bytes, &c), &nothing);
            Vector::fit(made.unwrap_or(alone), chance.one_of([&c, &d]).clone())
        }
    };
    vector.with(&bytes)
}

/// The drawn vectors of the catalogue.
pub fn catalogues() -> Vec<Vector> {
    let wanted = CATALOGUES.map(|(sort, times)| (sort.to_string(), times));
    kept(SEED + 4, wanted.into(), catalogue, catalogue_sort)
}

/// The sort of the answer of a catalogue, and of its bytes: all contained, none, or some.
fn catalogue_sort(vector: &Vector) -> String {
    let (answer, out) = vector.answer();
    let bytes = match answer {
        Answer::Wrote(count) => &out[..count],
        _ => return sort(vector),
    };
    let which = match (bytes.contains(&1), bytes.contains(&0)) {
        (true, true) => SOME,
        (true, false) => ALL,
        _ => NONE,
    };
    sort(vector) + which
}

/// A catalogue of a few services drawn for the supplier; now and then with a list, with names, with a slip in the services, or with a
/// damaged supplier.
fn catalogue(chance: &mut Chance) -> Vector {
    let shape = shape(chance);
    let names = chance.one_of([0, 0, 2]);
    let dictionary = Dictionary::of_drawn(chance, &shape, names, 5);
    let plain = draw::description(chance, &shape);
    let c = dictionary.naming(chance, &plain);
    let count = 1 + chance.below(4);
    let all = services(chance, &dictionary, &c, count);
    let list = match chance.once_in(2) {
        true => laid(&all),
        false => {
            let slip = chance.below(naming::SLIPS);
            naming::slipped(chance, &Dictionary::of(&all), slip)
        }
    };
    let pairs = match chance.once_in(3) {
        true => excluding::drawn(chance, &[&c[..], &all.concat()].concat()),
        false => Vec::new(),
    };
    let c = match chance.once_in(6) {
        true => damaged(chance, Sort::Description, &c),
        false => encode(&c),
    };
    let output = chance.one_of([count, count, count, count - 1, count + 2]);
    let dictionary = dictionary.bytes();
    Vector::catalogue(c, list, output).given(Given { pairs, dictionary })
}

/// The description once it is unfolded, by the reference; as it is if it or the dictionary is refused.
fn unfolded(dictionary: &[u8], d: &[u8]) -> Vec<u8> {
    let mut out = vec![0; length_of(MOST_DESCRIPTION)];
    match reference::unfold(dictionary, d, &mut out) {
        Ok(entries) => out[..length_of(entries)].to_vec(),
        Err(_) => d.to_vec(),
    }
}

/// The description with names until it comes to too much, if any name comes to something.
fn overfull(chance: &mut Chance, dictionary: &Dictionary, d: &[Entry]) -> Vec<Entry> {
    let mut d = d.to_vec();
    while d.len() < 4 * BLOCK_ENTRIES && !dictionary.extent(&d).is_too_much() {
        d.push(naming::named(0, dictionary.any_name(chance)));
    }
    d
}

/// A comparison with a description that is weaker but for lacks that the list implies.
fn implied(chance: &mut Chance) -> Vector {
    let c = description(chance);
    let pairs = excluding::drawn(chance, &c);
    let weaker = derived::weaker(chance, &c);
    let d = excluding::with_implied_lacks(chance, &pairs, &weaker);
    let (c, d) = (encode(&c), encode(&d));
    let output = around(chance, c.len() + d.len());
    Vector::compare(c, d, output).given(Given::list(pairs))
}

/// A specimen with a property that excludes one of an item's, against a description.
fn partnered(chance: &mut Chance) -> Vector {
    let (alone, d) = (specimen(chance), description(chance));
    let pairs = excluding::drawn(chance, &alone);
    let s = excluding::with_partner(chance, &pairs, &alone);
    Vector::fit(encode(&s), encode(&d)).given(Given::list(pairs))
}

/// A drawn vector.
fn any(chance: &mut Chance) -> Vector {
    match chance.below(8) {
        0 => reading(chance),
        1 => normal_form(chance),
        2..=3 => comparison(chance),
        4..=5 => fit(chance),
        _ => damage(chance),
    }
}

/// A shape of at most 60 entries, now and then of more; half of them small.
fn shape(chance: &mut Chance) -> Shape {
    let drawn = draw::shape(chance);
    let most = chance.one_of([60, 60, 60, 150]);
    let small = Shape {
        entries: chance.below(draw::SMALL.entries + 1),
        ..draw::SMALL
    };
    let cut = Shape {
        entries: drawn.entries.min(most),
        ..drawn
    };
    chance.one_of([small, cut])
}

fn description(chance: &mut Chance) -> Vec<Entry> {
    let shape = shape(chance);
    draw::description(chance, &shape)
}

fn specimen(chance: &mut Chance) -> Vec<Entry> {
    let shape = shape(chance);
    draw::specimen(chance, &shape)
}

/// A length of an output around the one that is needed, mostly this one.
fn around(chance: &mut Chance, needed: usize) -> usize {
    let short = chance.one_of([0, 1, needed / 2, needed.saturating_sub(BLOCK), needed - 1]);
    let long = needed + chance.one_of([1, 2, BLOCK - 1, BLOCK, BLOCK + 1]);
    chance.one_of([needed, needed, needed, needed, short, long, long])
}

/// Reading of an accepted description or specimen.
fn reading(chance: &mut Chance) -> Vector {
    if chance.once_in(2) {
        return Vector::description(encode(&description(chance)));
    }
    Vector::specimen(encode(&specimen(chance)))
}

fn normal_form(chance: &mut Chance) -> Vector {
    let bytes = encode(&description(chance));
    let output = around(chance, bytes.len());
    Vector::normal_form(bytes, output)
}

/// A description, and one that is drawn on its own, weaker, in another order, or misses by one entry.
fn pair(chance: &mut Chance) -> (Vec<Entry>, Vec<Entry>) {
    let c = description(chance);
    let weaker = derived::weaker(chance, &c);
    let d = match chance.below(7) {
        0 => description(chance),
        1 => weaker,
        2 => derived::reordered(chance, &weaker),
        3 => derived::past_at_most_0(chance, &c).unwrap_or(weaker),
        4 => derived::missed(chance, &weaker),
        5 => derived::missed(chance, &c),
        _ => {
            let reordered = derived::reordered(chance, &c);
            derived::missed(chance, &reordered)
        }
    };
    (c, d)
}

fn comparison(chance: &mut Chance) -> Vector {
    let (c, d) = pair(chance);
    let (c, d) = (encode(&c), encode(&d));
    let output = around(chance, c.len() + d.len());
    if chance.once_in(6) {
        return Vector::compare(d, c, output);
    }
    Vector::compare(c, d, output)
}

/// A specimen that shows that the one is not contained in the other, against one of the two; or a drawn one.
fn fit(chance: &mut Chance) -> Vector {
    let (c, d) = pair(chance);
    let (c, d) = (encode(&c), encode(&d));
    let alone = encode(&specimen(chance));
    let made = shown(&c, &d).filter(|_| !chance.once_in(4));
    let description = if chance.once_in(2) { c } else { d };
    Vector::fit(made.unwrap_or(alone), description)
}

/// The specimen that the reference gives if C is not contained in D.
fn shown(c: &[u8], d: &[u8]) -> Option<Vec<u8>> {
    let mut out = vec![0; c.len() + d.len()];
    match reference::compare(c, d, &mut out) {
        Ok(Comparison::NotContained { entries, .. }) => {
            out.truncate(length_of(entries));
            Some(out)
        }
        _ => None,
    }
}

/// A call with damaged bytes as its input, or as one of its inputs or both.
fn damage(chance: &mut Chance) -> Vector {
    let (entries, others) = (description(chance), specimen(chance));
    let (good, good_specimen) = (encode(&entries), encode(&others));
    let bad = damaged(chance, Sort::Description, &entries);
    let worse = damaged(chance, Sort::Description, &entries);
    let bad_specimen = damaged(chance, Sort::Specimen, &others);
    match chance.below(9) {
        0 => Vector::description(bad),
        1 => Vector::specimen(bad_specimen),
        2 => Vector::fit(bad_specimen, good),
        3 => Vector::fit(good_specimen, bad),
        4 => Vector::fit(bad_specimen, bad),
        5 => {
            let output = chance.one_of([0, bad.len()]);
            Vector::normal_form(bad, output)
        }
        6 => damaged_comparison(chance, bad, good),
        7 => damaged_comparison(chance, good, bad),
        _ => damaged_comparison(chance, bad, worse),
    }
}

fn damaged_comparison(chance: &mut Chance, c: Vec<u8>, d: Vec<u8>) -> Vector {
    let output = chance.one_of([0, c.len() + d.len()]);
    Vector::compare(c, d, output)
}

/// Vectors of descriptions of 1,008 entries and specimens of 2,016.
pub fn at_the_limit() -> Vec<Vector> {
    let chance = &mut Chance::from_seed(SEED + 1);
    let shape = Shape {
        entries: MOST_DESCRIPTION,
        conflicts: 0,
        ..draw::MERGING
    };
    let c = draw::description(chance, &shape);
    let same = derived::reordered(chance, &c);
    let missed = derived::missed(chance, &same);
    let (c, same, missed) = (encode(&c), encode(&same), encode(&missed));
    let both = 2 * c.len();
    let specimen = encode(&draw::full_specimen(chance));
    vec![
        Vector::normal_form(c.clone(), c.len() + BLOCK),
        Vector::compare(c.clone(), same.clone(), both),
        Vector::compare(c.clone(), missed.clone(), MOST_LENGTH),
        Vector::compare(c.clone(), missed, both - 1),
        Vector::fit(specimen, c),
        Vector::fit(many_groups(7), many_every()),
        Vector::fit(many_groups(8), many_every()),
    ]
}

/// A description of many 'every' of one link, each of which owns has property 7.
fn many_every() -> Vec<u8> {
    encode(&owning(MOST_DESCRIPTION, 5, 0))
}

/// A specimen of many groups of one link, each with property 7 but the last, which has this one.
fn many_groups(last: u16) -> Vec<u8> {
    let mut entries = owning(MOST_SPECIMEN, 7, u16::MAX);
    if let Some(e) = entries.last_mut() {
        e.name = last;
    }
    encode(&entries)
}

/// So many entries: one of this kind and number at the top and then the property that it owns, again and again.
fn owning(entries: usize, kind: u8, number: u16) -> Vec<Entry> {
    let owners = (1..=crate::word(entries)).step_by(2);
    owners
        .flat_map(|owner| [entry(kind, 0, 1, number), entry(1, owner, 7, 0)])
        .collect()
}
