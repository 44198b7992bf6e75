//! The narrowest description of two: drawn pairs, all small ones, and sweeps over lengths, bytes and the order of refusals.

use std::collections::BTreeMap;

use super::sweeps::each_byte;
use super::*;
use differential::excluding::list;
use reference::notation::blocks;

/// The answer of both to these inputs, with an output of this length.
fn narrowest(under: Under, a: &[u8], b: &[u8], length: usize) -> Answer {
    let chance = &mut Chance::from_seed(43);
    agreed(agree::narrowest(chance, under, a, b, length))
}

/// The number, input and place of a refusal.
fn refused(under: Under, a: &[u8], b: &[u8], length: usize) -> Option<(u8, u16, u16)> {
    narrowest(under, a, b, length);
    let refusal = under.narrowest(a, b, &mut vec![0; length]).err()?;
    Some((refusal.reason.number(), refusal.input, refusal.place))
}

fn of_pairs(pairs: &[u8]) -> Under<'_> {
    Under {
        pairs,
        ..Under::default()
    }
}

#[test]
fn drawn() {
    let run = made(150, Rounds::narrowings);
    assert!(run.tally.count("narrowest", "count") > 800);
    assert!(run.tally.count("narrowest", "refused 7 input 0") > 600);
    assert!(run.tally.count_listed("narrowest", "count") > 300);
    assert!(run.tally.count_named("narrowest", "count") > 150);
}

#[test]
fn at_the_limit_of_both() {
    let run = made(2, Rounds::full_narrowings);
    assert!(run.tally.count("narrowest", "count") > 2);
    assert!(run.tally.count("narrowest", "refused 1 input 2") > 2);
}

#[test]
fn what_is_wrong() {
    let run = made(300, Rounds::wrong_narrowings);
    for number in 1..=6 {
        for input in 1..=2 {
            let answer = format!("refused {number} input {input}");
            assert!(run.tally.count("narrowest", &answer) > 5, "{answer}");
        }
    }
    assert!(run.tally.count("narrowest", "refused 11 input 0") > 600);
}

/// All pairs of descriptions of at most two entries over one property and one link, of links on both sides of 32,768.
#[test]
fn all_tiny_pairs() {
    for (names, pairs) in [
        (Names::Low, list(&[])),
        (Names::Middle, list(&[(32_768, 1)])),
    ] {
        let all = tiny_descriptions(names, 1, 1);
        let each: Vec<Vec<u8>> = all.iter().map(|d| encode(d)).collect();
        for a in &each {
            for b in &each {
                let answer = narrowest(of_pairs(&pairs), a, b, 2 * BLOCK);
                assert!(matches!(answer, Answer::Count(_)));
            }
        }
    }
}

/// All descriptions of at most two entries over two properties and a link, and all records of at most three items as their first item sees
/// them, under a list.
struct Small {
    pairs: Vec<u8>,
    all: Vec<Vec<Entry>>,
    records: Pool,
    /// For each description the records that fit it.
    fitting: Vec<Vec<u64>>,
    /// For each two whether the first is contained in the second, by the library's comparison.
    contained: Vec<Vec<bool>>,
}

/// Each of the first is one of the second.
fn within(first: &[u64], second: &[u64]) -> bool {
    let each = first.iter().zip(second);
    each.fold(0, |left, (one, other)| left | one & !other) == 0
}

impl Small {
    fn of(names: Names, pairs: &[(u16, u16)]) -> Small {
        let pairs = list(pairs);
        let all = tiny_descriptions(names, 2, 1);
        let records = Pool::seen_from_first(names, 2, 1, &pairs);
        let fitting = all.iter().map(|d| records.first_fitting(d)).collect();
        let mut small = Small {
            pairs,
            records,
            fitting,
            contained: Vec::new(),
            all,
        };
        let rows = small.all.iter().map(|c| small.contained_in(c));
        small.contained = rows.collect();
        small
    }

    /// In which of the descriptions this one is contained.
    fn contained_in(&self, c: &[Entry]) -> Vec<bool> {
        let c = encode(c);
        let contained = |d: &Vec<Entry>| {
            let (d, mut out) = (encode(d), [0; 32 * BLOCK]);
            let answer = of_pairs(&self.pairs).compare(&c, &d, &mut out);
            answer == Ok(goltximen::Comparison::Contained)
        };
        self.all.iter().map(contained).collect()
    }

    /// 'Contained' holds in the records; and where numbers are so small that three items show each case, so does 'not contained'.
    fn confirm_comparisons(&self) {
        let few = |d: &[Entry]| d.iter().all(|e| e.number <= u16::from(e.kind == 3) + 1);
        for (c, row) in self.contained.iter().enumerate() {
            for (d, &contained) in row.iter().enumerate() {
                let seen = within(&self.fitting[c], &self.fitting[d]);
                let small = few(&self.all[c]) && few(&self.all[d]);
                let (c, d) = (&self.all[c], &self.all[d]);
                assert!(!contained || seen, "{c:?} {d:?}");
                assert!(contained || !seen || !small, "{c:?} {d:?}");
            }
        }
    }

    /// The narrowest of each two is fitted by each record that fits one of them, and is contained in exactly the descriptions that contain
    /// both; which the records confirm. How many different ones there are.
    fn is_the_least(&self) -> usize {
        let mut found: BTreeMap<Vec<u8>, (Vec<u64>, Vec<bool>)> = BTreeMap::new();
        for (one, other) in (0..self.all.len()).flat_map(|a| (0..=a).map(move |b| (a, b))) {
            let [a, b] = [one, other].map(|at| encode(&self.all[at]));
            let mut out = [0; 2 * BLOCK];
            let answer = narrowest(of_pairs(&self.pairs), &a, &b, out.len());
            let entries = of_pairs(&self.pairs).narrowest(&a, &b, &mut out);
            assert_eq!(entries.map(usize::from).map(Answer::Count), Ok(answer));
            let (fitting, above) = found.entry(out[..BLOCK].to_vec()).or_insert_with(|| {
                let result = reference::decode(&out[..BLOCK]);
                (
                    self.records.first_fitting(&result),
                    self.contained_in(&result),
                )
            });
            for at in [one, other] {
                assert!(within(&self.fitting[at], fitting), "{:?}", self.all[at]);
            }
            for (d, &above) in above.iter().enumerate() {
                let both = self.contained[one][d] && self.contained[other][d];
                let seen = within(fitting, &self.fitting[d]);
                let shown = [one, other, d].map(|at| &self.all[at]);
                assert!(above == both && (!above || seen), "{shown:?}");
            }
        }
        found.len()
    }
}

/// Links that lead to one item only and others, with a pair and without.
#[test]
fn the_least_of_all_small_descriptions() {
    for (names, counts) in [(Names::Low, [8456, 3606]), (Names::High, [312, 141])] {
        let pair = [(names.name(1), names.name(2))];
        for (pairs, records) in [(&[][..], counts[0]), (&pair, counts[1])] {
            let small = Small::of(names, pairs);
            assert_eq!((small.all.len(), small.records.count()), (169, records));
            small.confirm_comparisons();
            assert!(small.is_the_least() > 10);
        }
    }
}

/// Lengths of the output around that of both: refused exactly below it.
#[test]
fn each_length_of_the_output() {
    let none = Under::default();
    for (first, second) in [(0, 0), (1, 63), (63, 64), (64, 126)] {
        let (a, b) = (encode(&mixed(first)), encode(&mixed(second)));
        let both = a.len() + b.len();
        for length in [0, 1, both - 513, both - 512, both - 1, both, both + 1] {
            let answer = narrowest(none, &a, &b, length);
            assert_eq!(answer == Answer::Refused(7, 0), length < both);
        }
    }
}

/// Each byte of either input changed, with right checks and without.
#[test]
fn each_byte_of_an_input() {
    let (a, b) = (
        blocks("1,7; 5,1 [2,8; 3,2,4]; 1,9"),
        blocks("5,1 [3,2,3]; 2,8"),
    );
    let under = of_pairs(&[7, 0, 8, 0]);
    each_byte(&a, |a| {
        narrowest(under, a, &b, 1024);
    });
    each_byte(&b, |b| {
        narrowest(under, &a, b, 1024);
    });
}

/// 16 blocks of both together pass, and 17 are 1 at input 2; each with an output that is too short.
#[test]
fn long_inputs() {
    let none = Under::default();
    let long = |entries| encode(&mixed(entries));
    let good = blocks("1,7");
    for (a, b, due) in [
        (long(945), good.clone(), None),
        (good.clone(), long(945), None),
        (long(504), long(504), None),
        (long(946), good.clone(), Some((1, 2, 0))),
        (good.clone(), long(946), Some((1, 2, 0))),
        (long(504), long(505), Some((1, 2, 0))),
        (long(505), long(504), Some((1, 2, 0))),
        (
            encode(&[entry(1, 0, 7, 0); 1009]),
            good.clone(),
            Some((1, 1, 0)),
        ),
        (
            good.clone(),
            encode(&[entry(1, 0, 7, 0); 1009]),
            Some((1, 2, 0)),
        ),
    ] {
        assert_eq!(refused(none, &a, &b, 8192), due);
        assert_eq!(refused(none, &a, &b, 8191), due.or(Some((7, 0, 0))));
    }
}

/// 11; the dictionary; input 1; input 2; 7: each with each that comes later.
#[test]
fn the_order_of_refusals() {
    let (good, bad, short) = (blocks("1,7"), blocks("1,7; 10,1"), vec![1; 100]);
    let inputs = |input| {
        [
            (short.clone(), Some((1, input, 0))),
            (bad.clone(), Some((4, input, 2))),
            (good.clone(), None),
        ]
    };
    for (pairs, of_pairs) in [(&[7, 0, 7, 0][..], Some((11, 0, 1))), (&[7, 0, 8, 0], None)] {
        for (dictionary, of_dictionary) in [(&bad, Some((4, 101, 2))), (&good, None)] {
            let under = Under { pairs, dictionary };
            for (a, of_a) in inputs(1) {
                for (b, of_b) in inputs(2) {
                    for (length, of_length) in [(1023, Some((7, 0, 0))), (1024, None)] {
                        let of_inputs = of_a.or(of_b).or(of_length);
                        let due = of_pairs.or(of_dictionary).or(of_inputs);
                        assert_eq!(refused(under, &a, &b, length), due);
                    }
                }
            }
        }
    }
}
