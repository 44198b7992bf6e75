//! The narrowest description for two suppliers.

use std::collections::BTreeMap;

use reference::record::Record;
use reference::{encode, narrowest, Entry, Link, Refusal};

use crate::chance::{all_records, description, seen_from_item_0, Chance, Size};
use crate::comparing::{every_tiny_description, fitting_records, weakened};
use crate::naming::{drawn, drawn_dictionary, refusal};
use crate::normal::check_normal;
use crate::notation::{
    blocks, compared_under, dictionary, entries, entry, laid_end_to_end, list, normal_under,
    unfolded, Answer, FILL,
};
use crate::wrong::{needs, refused, refused_at, written, wrong_descriptions};

/// The call with an output that is long enough for each result.
fn joined(pairs: &[u8], a: &[Entry], b: &[Entry]) -> Vec<Entry> {
    let call = |out: &mut [u8]| narrowest(pairs, &[], &encode(a), &encode(b), out);
    written(20_000, call).unwrap()
}

fn contained(pairs: &[u8], c: &[Entry], d: &[Entry]) -> bool {
    compared_under(pairs, &encode(c), &encode(d)) == Answer::Contained
}

#[test]
fn by_hand() {
    for (a, b, due) in [
        ("", "", ""),
        ("1,1; 2,2", "1,1; 2,2", "1,1; 2,2"),
        ("1,1; 2,2; 1,3", "1,1; 2,2; 2,3", "1,1; 2,2"),
        ("3,1,5; 4,1,7", "3,1,2; 4,1,9", "3,1,2; 4,1,9"),
        ("3,1,5; 4,1,7", "3,2,5; 4,2,7", ""),
        ("5,1 [1,1; 1,2]", "5,1 [1,2; 1,3]", "5,1 [1,2]"),
        ("5,1 [1,1]", "5,1 [1,2]", ""),
        ("5,1 [1,1]", "5,2 [1,1]", ""),
        // Where one side has at most 0 of a link, the other's place whole.
        ("4,1,0", "5,1 [1,1; 5,2 [2,1]]", "5,1 [1,1; 5,2 [2,1]]"),
        ("4,1,0", "4,1,3; 5,1 [1,1]", "4,1,3; 5,1 [1,1]"),
        ("5,1 [6]", "5,1 [1,1]", "5,1 [1,1]"),
        ("5,1 [4,2,0]", "5,1 [5,2 [1,1]]", "5,1 [5,2 [1,1]]"),
        ("4,1,0", "4,1,0", "4,1,0"),
        // Where one is impossible, the other.
        ("6", "1,1; 3,1,2", "1,1; 3,1,2"),
        ("3,1,2; 4,1,1", "5,1 [1,1]", "5,1 [1,1]"),
        ("1,1; 2,1", "6; 6", "6"),
        // Of a link that never leads to two items.
        ("4,32768,0", "4,32768,1", ""),
        ("3,32768,1", "3,32768,1; 4,32768,1", "3,32768,1"),
        ("3,32768,2", "4,32768,0", "4,32768,0"),
    ] {
        for (a, b) in [(a, b), (b, a)] {
            let found = joined(&[], &entries(a), &entries(b));
            assert_eq!(found, entries(due), "{a} / {b}");
        }
    }
}

/// A lack that a property implies counts as a lack, and is not written where
/// it is still implied.
#[test]
fn implied_lacks() {
    let pairs = list(&[(1, 2), (3, 2), (1, 3)]);
    for (a, b, due) in [
        ("1,1", "2,2", "2,2"),
        ("1,1", "1,3", "2,2"),
        ("1,1; 2,5", "1,1; 2,2; 2,5", "1,1; 2,5"),
        ("5,1 [1,1]", "5,1 [1,2]", "5,1 [2,3]"),
        ("1,1; 1,2", "1,3", "1,3"),
        ("5,1 [1,1; 1,2]", "5,1 [1,3]", "5,1 [1,3]"),
    ] {
        for (a, b) in [(a, b), (b, a)] {
            let found = joined(&pairs, &entries(a), &entries(b));
            assert_eq!(found, entries(due), "{a} / {b}");
        }
    }
}

/// All records of up to three items with properties up to this that keep the
/// list of pairs, as seen from item 0.
fn every_record(properties: usize, link: u16, pairs: &[u8]) -> Vec<Record> {
    let of = |items| all_records(items, properties, &[Link(link)]);
    let all = (1..=3)
        .flat_map(of)
        .filter(|record| record.keeps_the_list(pairs));
    seen_from_item_0(all.collect())
}

/// Each item that fits the first fits the second.
fn within(first: &[u64], second: &[u64]) -> bool {
    first
        .iter()
        .zip(second)
        .all(|(one, other)| one & !other == 0)
}

/// The records and descriptions of one trial of leastness.
struct Trial {
    pairs: Vec<u8>,
    records: Vec<Record>,
    all: Vec<Vec<Entry>>,
}

impl Trial {
    /// All descriptions of up to two entries and all records of up to three
    /// items, with properties up to this and this link.
    fn of(properties: u16, link: u16, pairs: &[(u16, u16)]) -> Trial {
        let pairs = list(pairs);
        Trial {
            records: every_record(usize::from(properties), link, &pairs),
            all: every_tiny_description(link, properties),
            pairs,
        }
    }

    /// For each two descriptions whether the first is in the second by the
    /// comparison.
    fn compared(&self) -> Vec<Vec<bool>> {
        let row = |c: &Vec<Entry>| {
            let single = |d: &Vec<Entry>| contained(&self.pairs, c, d);
            self.all.iter().map(single).collect()
        };
        self.all.iter().map(row).collect()
    }

    /// Likewise by the records alone.
    fn tried(&self) -> Vec<Vec<bool>> {
        let fits = |d: &Vec<Entry>| fitting_records(&self.records, d);
        let fitting: Vec<_> = self.all.iter().map(fits).collect();
        let row = |c: &Vec<u64>| fitting.iter().map(|d| within(c, d)).collect();
        fitting.iter().map(row).collect()
    }

    /// The narrowest of each two contains both, and is contained in each of
    /// the descriptions that contains both: asked of the records. What
    /// contains what is given.
    fn least(&self, table: &[Vec<bool>]) {
        let fits = |d: &Vec<Entry>| fitting_records(&self.records, d);
        let fitting: Vec<_> = self.all.iter().map(fits).collect();
        let mut found: BTreeMap<Vec<u8>, Vec<u64>> = BTreeMap::new();
        for (a, b) in (0..fitting.len()).flat_map(|a| (0..=a).map(move |b| (a, b))) {
            let result = joined(&self.pairs, &self.all[a], &self.all[b]);
            let kept = found.entry(encode(&result));
            let result_fits = kept.or_insert_with(|| fits(&result));
            assert!(within(&fitting[a], result_fits) && within(&fitting[b], result_fits));
            for (e, e_fits) in fitting.iter().enumerate() {
                let both = table[a][e] && table[b][e];
                let (a, b, e) = (&self.all[a], &self.all[b], &self.all[e]);
                assert!(!both || within(result_fits, e_fits), "{a:?} {b:?} {e:?}");
            }
        }
    }
}

/// With one property, with two, and with two that exclude each other.
const TRIALS: [(u16, &[(u16, u16)]); 3] = [(1, &[]), (2, &[]), (2, &[(1, 2)])];

#[test]
fn how_much_is_tried() {
    for (link, records) in [(1, [1092, 8456, 3606]), (32_768, [48, 312, 141])] {
        for ((properties, pairs), count) in TRIALS.into_iter().zip(records) {
            let trial = Trial::of(properties, link, pairs);
            assert_eq!(trial.records.len(), count);
            assert_eq!(trial.all.len(), [96, 125][usize::from(properties) - 1]);
        }
    }
}

/// What contains what by the comparison.
#[test]
fn least_of_all_tiny_descriptions() {
    for link in [1, 32_768] {
        for (properties, pairs) in TRIALS {
            let trial = Trial::of(properties, link, pairs);
            trial.least(&trial.compared());
        }
    }
}

/// What contains what by the records alone: of numbers for which records of
/// three items show each case in which something is not contained.
#[test]
fn least_by_records_alone() {
    for link in [1, 32_768] {
        for (properties, pairs) in TRIALS {
            let mut trial = Trial::of(properties, link, pairs);
            let few = |e: &Entry| e.number <= u16::from(e.kind == 3) + 1;
            trial.all.retain(|d| d.iter().all(few));
            trial.least(&trial.tried());
        }
    }
}

const SMALL: Size = Size {
    entries: 10,
    properties: 3,
    links_after: 32_766,
    links: 2,
    number: 3,
};
const LARGE: Size = Size {
    entries: 200,
    ..SMALL
};

/// It contains both, it is a normal form, the order of the two makes no odds,
/// and what contains both contains it.
fn check_drawn(chance: &mut Chance, pairs: &[u8], size: Size) -> usize {
    let (a, b) = (description(chance, size), description(chance, size));
    let b = if chance.once_in(2) {
        weakened(chance, &a)
    } else {
        b
    };
    let result = joined(pairs, &a, &b);
    check_normal(pairs, &result);
    assert_eq!(result, joined(pairs, &b, &a));
    assert!(contained(pairs, &a, &result) && contained(pairs, &b, &result));
    let normal = |d: &[Entry]| normal_under(pairs, &encode(d)).unwrap();
    assert_eq!(joined(pairs, &a, &a), normal(&a));
    if contained(pairs, &a, &b) {
        assert_eq!(result, normal(&b));
    }
    let mut holding = 0;
    for _ in 0..4 {
        let e = weakened(chance, &result);
        if contained(pairs, &a, &e) && contained(pairs, &b, &e) {
            assert!(contained(pairs, &result, &e));
            holding += usize::from(!result.is_empty());
        }
        let e = description(chance, size);
        if contained(pairs, &a, &e) && contained(pairs, &b, &e) {
            assert!(contained(pairs, &result, &e));
        }
    }
    holding
}

#[test]
fn drawn_descriptions() {
    let mut chance = Chance::from(401);
    let lists = [list(&[]), list(&[(1, 2)]), list(&[(1, 2), (2, 3), (3, 1)])];
    let mut holding = 0;
    for round in 0..600 {
        let size = if round % 20 == 0 { LARGE } else { SMALL };
        holding += check_drawn(&mut chance, &lists[round % 3], size);
    }
    assert!(holding > 100, "{holding}");
}

#[test]
fn named_descriptions() {
    let mut chance = Chance::from(402);
    for round in 0..100 {
        let size = Size {
            entries: 4,
            ..SMALL
        };
        let named = drawn_dictionary(&mut chance, size, 1 + round % 3);
        let dict = laid_end_to_end(&named);
        let (a, b) = (
            encode(&drawn(&mut chance, size, named.len())),
            encode(&drawn(&mut chance, size, named.len())),
        );
        let call = |out: &mut [u8]| narrowest(&[], &dict, &a, &b, out);
        let plain = |d: &[u8]| unfolded(&dict, d).unwrap();
        let due = joined(&[], &plain(&a), &plain(&b));
        assert_eq!(written(20_000, call), Ok(due));
        needs(encode(&plain(&a)).len() + encode(&plain(&b)).len(), call);
    }
}

/// Each input in full, in order, whatever comes after it.
#[test]
fn inputs() {
    let good = blocks("1,1");
    for wrong in wrong_descriptions() {
        for other in [&good[..], &[], &wrong.bytes] {
            let call = |out: &mut [u8]| narrowest(&[], &[], &wrong.bytes, other, out);
            refused(wrong.as_input(1), call);
        }
        let call = |out: &mut [u8]| narrowest(&[], &[], &good, &wrong.bytes, out);
        refused(wrong.as_input(2), call);
    }
    // A name that the dictionary doesn't have.
    let named = blocks("1,1; 9,2");
    for dict in [&[][..], &good] {
        let call = |out: &mut [u8]| narrowest(&[], dict, &named, &good, out);
        refused(refusal(13, 1, 2), call);
        let call = |out: &mut [u8]| narrowest(&[], dict, &good, &named, out);
        refused(refusal(13, 2, 2), call);
    }
    let large = encode(&vec![entry(1, 0, 1, 0); 1008]);
    let call = |out: &mut [u8]| narrowest(&[], &large, &blocks("9,1; 9,1"), &large, out);
    refused(refusal(14, 1, 0), call);
    let call = |out: &mut [u8]| narrowest(&[], &large, &large, &blocks("9,1; 9,1"), out);
    refused(refusal(14, 2, 0), call);
}

fn has(count: usize) -> Vec<u8> {
    encode(&vec![entry(1, 0, 1, 0); count])
}

/// More than 16 blocks together, after all checks of both and before 7.
#[test]
fn together() {
    for (a, b) in [
        (1, 946),
        (64, 883),
        (946, 1),
        (505, 505),
        (1008, 0),
        (0, 1008),
    ] {
        let call = |out: &mut [u8]| narrowest(&[], &[], &has(a), &has(b), out);
        refused(refusal(1, 2, 0), call);
    }
    for (a, b) in [(1, 945), (945, 63), (504, 504)] {
        let call = |out: &mut [u8]| narrowest(&[], &[], &has(a), &has(b), out);
        needs(16 * 512, call);
        assert_eq!(written(20_000, call), Ok(entries("1,1")));
    }
    let wrong = [has(945), blocks("8")].concat();
    let call = |out: &mut [u8]| narrowest(&[], &[], &has(945), &wrong, out);
    refused(refusal(3, 2, 16), call);
    // The unfolded lengths count, not those sent.
    let dict = has(505);
    let one = blocks("9,1");
    refused(refusal(1, 2, 0), |out| {
        narrowest(&[], &dict, &one, &one, out)
    });
    let dict = has(504);
    needs(16 * 512, |out| narrowest(&[], &dict, &one, &one, out));
    let none = dictionary(&[""]);
    let long = encode(&vec![entry(9, 0, 1, 0); 1008]);
    needs(1024, |out| narrowest(&[], &none, &long, &long, out));
}

#[test]
fn before_the_inputs() {
    let wrong = vec![FILL; 700];
    let call =
        |pairs: &[u8], dict: &[u8], out: &mut [u8]| narrowest(pairs, dict, &wrong, &wrong, out);
    let dict = blocks("8");
    refused(refusal(11, 0, 0), |out| call(&[1], &dict, out));
    refused(refusal(11, 0, 1), |out| call(&[1, 0, 1, 0], &dict, out));
    refused(refusal(4, 101, 1), |out| call(&[], &dict, out));
    refused(refusal(1, 100, 0), |out| call(&[], &wrong, out));
}

/// 32 properties that each of properties 1 and 2 excludes.
fn widely_excluding() -> Vec<u8> {
    let pairs: Vec<_> = (3..35).flat_map(|k| [(1, k), (2, k)]).collect();
    list(&pairs)
}

/// So many links, each of whose items have this property.
fn below_links(links: u16, property: u16) -> Vec<u8> {
    let every = |link| [entry(5, 0, link, 0), entry(1, 2 * link - 1, property, 0)];
    encode(&(1..=links).flat_map(every).collect::<Vec<_>>())
}

/// Implied lacks can make the result longer than both: then it is the length
/// that counts, and above 1,008 entries no output is long enough.
#[test]
fn lengthened() {
    let pairs = widely_excluding();
    let call = |links: u16, out: &mut [u8]| {
        let (a, b) = (below_links(links, 1), below_links(links, 2));
        narrowest(&pairs, &[], &a, &b, out)
    };
    // 30 links and 30 * 32 lacks: 990 entries.
    needs(16 * 512, |out| call(30, out));
    assert_eq!(written(20_000, |out| call(30, out)).unwrap().len(), 990);
    // 19 links and 19 * 32 lacks: 627 entries, 10 blocks.
    needs(10 * 512, |out| call(19, out));
    let due: Refusal = refusal(7, 0, 0);
    for length in [0, 1024, 8192, 100_000] {
        refused_at(length, due, |out| call(31, out));
        refused_at(length, due, |out| call(250, out));
    }
}

/// Large inputs take no longer than others.
#[test]
fn the_largest() {
    let wide: Vec<Entry> = (1..=504).map(|link| entry(3, 0, link, link)).collect();
    assert_eq!(joined(&[], &wide, &wide), wide);
    let mut deep: Vec<Entry> = (0..32).map(|owner| entry(5, owner, 1, 0)).collect();
    deep.extend((1..=472).map(|property| entry(1, 32, property, 0)));
    assert_eq!(joined(&[], &deep, &deep), deep);
}
