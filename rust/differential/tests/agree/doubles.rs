//! Doubles: one normal form exactly where two descriptions mean the same.

use std::collections::BTreeMap;

use super::*;
use differential::doubles::{self, Background, STEPS};
use differential::excluding;
use differential::naming::{named, Dictionary};
use reference::notation::entries;

/// Both answers come often enough: half of the pairs are made alike, and are; of the others some are alike and some are not.
fn both_answers(run: &Rounds, pairs: u64) {
    let tally = &run.tally;
    assert_eq!(tally.count("double", "no"), 0);
    for (call, answer, times) in [
        ("double", "yes", pairs * 2 / 5),
        ("another", "yes", pairs / 20),
        ("another", "no", pairs / 5),
    ] {
        let listed = tally.count_listed(call, answer);
        let named = tally.count_named(call, answer);
        assert!(tally.count(call, answer) > times, "{call} {answer}");
        assert!(listed > times / 3, "{call} {answer} {listed}");
        assert!(named > times / 2, "{call} {answer} {named}");
    }
}

#[test]
fn drawn_pairs() {
    both_answers(&made(4000, Rounds::doubles), 4000);
}

#[test]
fn small_pairs_in_records() {
    both_answers(&made(600, Rounds::small_doubles), 600);
}

/// What the steps are tried on: a small description with names, its dictionary and a list.
struct Drawn {
    d: Vec<Entry>,
    dictionary: Dictionary,
    given: Given,
}

impl Drawn {
    fn new(chance: &mut Chance, shape: &Shape) -> Drawn {
        let mut dictionary = Dictionary::of_drawn(chance, shape, 2, 3);
        let d = draw::description(chance, shape);
        let d = dictionary.naming(chance, &d);
        doubles::give_name(chance, &mut dictionary, &d);
        let given = Given {
            pairs: excluding::drawn(chance, &d),
            dictionary: dictionary.bytes(),
        };
        Drawn {
            d,
            dictionary,
            given,
        }
    }

    fn background(&self) -> Background<'_> {
        Background {
            pairs: &self.given.pairs,
            dictionary: &self.dictionary,
        }
    }
}

/// Each step by itself: it changes the description often enough, and the same items fit before and after it in small records that
/// keep the list, by what the names mean. So it is the steps that make doubles, and not the normal form that takes them for such.
#[test]
fn each_step() {
    let chance = &mut Chance::from_seed(31);
    let shape = Shape {
        names: Names::Middle,
        ..draw::SMALL
    };
    let mut pool = all_records(Names::Middle, (2, 2), 1);
    for items in [2, 3] {
        let size = Size {
            items,
            properties: 2,
            links: 2,
            names: Names::Middle,
        };
        pool.add_drawn(chance, size, 100);
    }
    for (name, step) in STEPS {
        let mut changed = 0;
        for _ in 0..300 {
            let drawn = Drawn::new(chance, &shape);
            let double = doubles::after(chance, drawn.background(), &drawn.d, step);
            let kept = pool.keeping(&drawn.given.pairs);
            let [before, after] =
                [&drawn.d, &double].map(|d| kept.fitting_named(&drawn.dictionary, d));
            assert!(before == after, "{name}: {:?} {double:?}", drawn.d);
            let under = drawn.given.under();
            doubles::compared_double(chance, under, &drawn.d, &double)
                .unwrap_or_else(|difference| panic!("{name}: {difference}"));
            changed += usize::from(double != drawn.d);
        }
        assert!(changed > 15, "{name}: {changed}");
    }
}

/// The descriptions by their normal forms and by the items that fit them in some records: each two have the one in common exactly if
/// they have the other. Gives how many normal forms there are.
fn divided(under: Under, all: &[Vec<Entry>], fitting: impl Fn(&[Entry]) -> Vec<bool>) -> usize {
    let chance = &mut Chance::from_seed(32);
    let (mut by_form, mut by_items) = (BTreeMap::new(), BTreeMap::new());
    for d in all {
        let form = agree::normal_blocks(chance, under, &encode(d))
            .unwrap_or_else(|difference| panic!("{difference}"));
        let items = fitting(d);
        let (other, c) = by_form.entry(form.clone()).or_insert((items.clone(), d));
        assert!(*other == items, "other items, one form: {c:?} {d:?}");
        let (other, c) = by_items.entry(items).or_insert((form.clone(), d));
        assert!(*other == form, "the same items, two forms: {c:?} {d:?}");
    }
    by_form.len()
}

/// All descriptions of at most two entries over so many properties and links, in all records of at most so many items that keep the
/// rule and the list. Gives the numbers of descriptions and of normal forms.
fn tiny_divided(
    pairs: &[(u16, u16)],
    names: Names,
    (properties, links): (u16, u16),
    most_items: usize,
) -> (usize, usize) {
    let given = Given::pairs(pairs);
    let pool = all_records(names, (properties, links), most_items).keeping(&given.pairs);
    let all = tiny_descriptions(names, properties, links);
    let forms = divided(given.under(), &all, |d| pool.fitting(d));
    (all.len(), forms)
}

/// At most 2 is missed by three items; of links that lead to one item only two are enough.
#[test]
fn all_tiny_ones_in_all_records() {
    // Nothing; has, lacks, at least 1, at most 0, nothing fits; has or lacks with at least 1 or at most 0; 'every' with one of four.
    let due = 1 + 5 + 4 + 4;
    assert_eq!(tiny_divided(&[], Names::Middle, (1, 1), 2), (121, due));
    assert_eq!(tiny_divided(&[], Names::High, (1, 2), 2), (341, 32));
    assert_eq!(tiny_divided(&[], Names::Low, (1, 1), 3), (121, 29));
    // Under the list both properties are impossible together, and each with the lack of the other is one that is there without.
    assert_eq!(tiny_divided(&[], Names::Low, (2, 1), 3), (169, 47));
    assert_eq!(
        tiny_divided(&[(1, 2)], Names::Low, (2, 1), 3),
        (169, 47 - 3)
    );
    let list = &[(32_767, 32_768), (32_769, 32_767), (32_768, 32_767)];
    assert_eq!(tiny_divided(&[], Names::Middle, (3, 1), 2), (225, 42));
    assert_eq!(
        tiny_divided(list, Names::Middle, (3, 1), 2),
        (225, 42 - 2 * 3)
    );
}

/// Each two names of what can be said in an entry or two of a property and a link that leads to one item only, at the top and below
/// an 'every', beside all that is said without names.
#[test]
fn all_tiny_names_in_all_records() {
    let said = [
        "1,32768",
        "2,32768",
        "3,32768,1",
        "4,32768,0",
        "5,32768 [1,32768]",
        "5,32768 [2,32768]",
        "5,32768 [3,32768,1]",
        "5,32768 [4,32768,0]",
        "6",
        "",
    ];
    let dictionary = Dictionary::of(&said.map(entries));
    let mut all = tiny_descriptions(Names::Middle, 1, 1);
    for (one, other) in (1..=10).flat_map(|one| (1..=10).map(move |other| (one, other))) {
        all.push(vec![named(0, one), named(0, other)]);
        all.push(vec![entry(5, 0, 32_768, 0), named(1, one), named(1, other)]);
    }
    let bytes = dictionary.bytes();
    let under = Under {
        pairs: &[],
        dictionary: &bytes,
    };
    let pool = all_records(Names::Middle, (1, 1), 3);
    let forms = divided(under, &all, |d| pool.fitting_named(&dictionary, d));
    // At the top ten of one and twenty of two: has and lacks, at least 1 and at most 0 are impossible together, and at most 0 goes
    // without an 'every'. Below an 'every' as many, of which ten are there already.
    assert_eq!((all.len(), forms), (121 + 200, 30 + 20));
}

/// A drawn description over two properties and one link, with numbers and depths up to 1.
fn few_entries(chance: &mut Chance, names: Names, depth: usize) -> Vec<Entry> {
    let shape = Shape {
        entries: chance.below(6),
        links: 1,
        numbers: 1,
        depth,
        conflicts: 100,
        names,
        ..draw::SMALL
    };
    let mut d = draw::description(chance, &shape);
    // What is drawn has an odd property more.
    for e in d.iter_mut().filter(|e| e.kind <= 2) {
        if e.name == names.name(3) {
            e.name = names.name(2);
        }
    }
    d
}

/// Drawn descriptions with names and a double of each, in all records of at most three items that keep the rule and the list. These
/// are enough: where numbers and depths go up to 1, a specimen needs a top item and two by the link, and what those lead to may be
/// any.
#[test]
fn drawn_ones_in_all_records() {
    let chance = &mut Chance::from_seed(33);
    for (names, pairs) in [
        (Names::Middle, vec![]),
        (Names::Middle, vec![(32_767, 32_768)]),
        (Names::Low, vec![(1, 2)]),
    ] {
        let mut dictionary = Dictionary::default();
        for _ in 0..4 {
            dictionary.push(few_entries(chance, names, 0));
        }
        let mut all: Vec<Vec<Entry>> = Vec::new();
        for _ in 0..100 {
            let d = few_entries(chance, names, 1);
            all.push(dictionary.naming(chance, &d));
        }
        for d in &all[..20] {
            doubles::give_name(chance, &mut dictionary, d);
        }
        let given = Given {
            dictionary: dictionary.bytes(),
            ..Given::pairs(&pairs)
        };
        let background = Background {
            pairs: &given.pairs,
            dictionary: &dictionary,
        };
        for at in 0..all.len() {
            all.push(doubles::double(chance, background, &all[at]));
        }
        let pool = all_records(names, (2, 1), 3).keeping(&given.pairs);
        let plain = |d: &[Entry]| reference::decode(&agree::plain(given.under(), &encode(d)));
        let forms = divided(given.under(), &all, |d| pool.fitting(&plain(d)));
        assert!(forms > 15, "{names:?} {pairs:?} {forms}");
    }
}
