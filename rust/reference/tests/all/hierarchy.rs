//! A list of services as a hierarchy.

use std::collections::BTreeSet;

use reference::{encode, hierarchy, Entry};

use crate::chance::{description, reordered, Chance, Size};
use crate::comparing::{every_tiny_description, weakened};
use crate::naming::{chain, refusal};
use crate::notation::{
    blocks, compared_under, dictionary, entry, laid_end_to_end, list, Answer, FILL,
};
use crate::wrong::{needs, refused, wrong_descriptions};

/// The three parts of the answer.
struct Parts {
    table: Vec<Vec<u8>>,
    superiors: Vec<Vec<u8>>,
    classes: Vec<u8>,
}

fn parts(pairs: &[u8], services: &[u8], n: usize) -> Parts {
    let mut out = vec![FILL; 2 * n * n + n + 9];
    assert_eq!(hierarchy(pairs, services, &mut out), Ok(2 * n * n + n));
    assert!(out[2 * n * n + n..].iter().all(|&byte| byte == FILL));
    let rows = |bytes: &[u8]| bytes.chunks(n).map(<[u8]>::to_vec).collect();
    Parts {
        table: rows(&out[..n * n]),
        superiors: rows(&out[n * n..2 * n * n]),
        classes: out[2 * n * n..2 * n * n + n].to_vec(),
    }
}

#[test]
fn by_hand() {
    // A chain of three, the middle one twice, one beside, one impossible.
    let texts = ["1,1; 1,2", "1,1", "", "1,1; 3,1,0", "1,3", "6"];
    let found = parts(&[], &dictionary(&texts), 6);
    let table = [
        [1, 1, 1, 1, 0, 0],
        [0, 1, 1, 1, 0, 0],
        [0, 0, 1, 0, 0, 0],
        [0, 1, 1, 1, 0, 0],
        [0, 0, 1, 0, 1, 0],
        [1, 1, 1, 1, 1, 1],
    ];
    let superiors = [
        [0, 1, 0, 1, 0, 0],
        [0, 0, 1, 0, 0, 0],
        [0, 0, 0, 0, 0, 0],
        [0, 0, 1, 0, 0, 0],
        [0, 0, 1, 0, 0, 0],
        [1, 0, 0, 0, 1, 0],
    ];
    assert_eq!(found.table, table);
    assert_eq!(found.superiors, superiors);
    assert_eq!(found.classes, [1, 2, 3, 2, 5, 6]);
    // One service alone.
    let found = parts(&[], &blocks("6"), 1);
    assert_eq!(
        (found.table, found.superiors, found.classes),
        (vec![vec![1]], vec![vec![0]], vec![1])
    );
}

/// Under a list of pairs two may be one class that are two without it.
#[test]
fn under_pairs() {
    let services = dictionary(&["1,1", "1,1; 2,2", "2,2"]);
    assert_eq!(parts(&[], &services, 3).classes, [1, 2, 3]);
    let found = parts(&list(&[(1, 2)]), &services, 3);
    assert_eq!(found.classes, [1, 1, 3]);
    assert_eq!(found.superiors, [[0, 0, 1], [0, 0, 1], [0, 0, 0]]);
}

/// Each byte by its definition, from the single comparisons.
fn check(pairs: &[u8], services: &[Vec<Entry>]) {
    let n = services.len();
    let found = parts(pairs, &laid_end_to_end(services), n);
    let single = |c: usize, d: usize| {
        let answer = compared_under(pairs, &encode(&services[c]), &encode(&services[d]));
        answer == Answer::Contained
    };
    let holds: Vec<Vec<bool>> = (0..n)
        .map(|c| (0..n).map(|d| single(c, d)).collect())
        .collect();
    let above = |c: usize, d: usize| holds[c][d] && !holds[d][c];
    for (c, d) in (0..n).flat_map(|c| (0..n).map(move |d| (c, d))) {
        assert_eq!(found.table[c][d], u8::from(holds[c][d]));
        let direct = above(c, d) && !(0..n).any(|third| above(c, third) && above(third, d));
        assert_eq!(found.superiors[c][d], u8::from(direct));
        // Of one class are exactly those that contain each other.
        let alike = holds[c][d] && holds[d][c];
        assert_eq!(found.classes[c] == found.classes[d], alike);
        assert!(!alike || usize::from(found.classes[c]) <= d + 1);
    }
    for c in 0..n {
        let class = usize::from(found.classes[c]) - 1;
        assert!(holds[c][class] && holds[class][c]);
        let strict: BTreeSet<usize> = (0..n).filter(|&d| above(c, d)).collect();
        assert_eq!(reached(&found.superiors, c), strict);
    }
}

/// What following direct superiors reaches.
fn reached(superiors: &[Vec<u8>], from: usize) -> BTreeSet<usize> {
    let mut all = BTreeSet::new();
    let mut waiting = vec![from];
    while let Some(next) = waiting.pop() {
        for (d, &byte) in superiors[next].iter().enumerate() {
            if byte == 1 && all.insert(d) {
                waiting.push(d);
            }
        }
    }
    all
}

/// Lists drawn of all tiny descriptions.
#[test]
fn lists_of_tiny_descriptions() {
    let mut chance = Chance::from(1101);
    for link in [1, 32_768] {
        let all = every_tiny_description(link, 2);
        for round in 0..6 {
            let pairs = [list(&[]), list(&[(1, 2)])][round % 2].clone();
            let drawn = |_| all[chance.below(all.len())].clone();
            check(&pairs, &(0..40).map(drawn).collect::<Vec<_>>());
        }
    }
}

/// Services that are made from each other, so that there are long chains.
#[test]
fn lists_of_chains() {
    let mut chance = Chance::from(1102);
    let size = Size {
        entries: 8,
        properties: 2,
        links_after: 32_766,
        links: 2,
        number: 3,
    };
    for round in 0..30 {
        let mut services = vec![description(&mut chance, size)];
        for _ in 1..[2, 9, 30][round % 3] {
            let from = services[chance.below(services.len())].clone();
            services.push(match chance.below(4) {
                0 => description(&mut chance, size),
                1 => reordered(&mut chance, &from),
                _ => weakened(&mut chance, &from),
            });
        }
        check(&[list(&[]), list(&[(1, 2)])][round % 2], &services);
    }
}

#[test]
fn inputs() {
    for length in [0, 1, 511, 513] {
        refused(refusal(1, 2, 0), |out| {
            hierarchy(&[], &vec![FILL; length], out)
        });
    }
    let many = dictionary(&[""; 65]);
    refused(refusal(8, 2, 0), |out| hierarchy(&[], &many, out));
    let wrong = [blocks("8"), dictionary(&[""; 64])].concat();
    refused(refusal(8, 2, 0), |out| hierarchy(&[], &wrong, out));
    for wrong in wrong_descriptions() {
        // A length that is none of a list, or the list's own refusal.
        if wrong.number == 1 {
            continue;
        }
        for before in [0, 1, 62] {
            let good = dictionary(&vec!["1,1"; before]);
            let services = [&good[..], &wrong.bytes, &blocks("8")].concat();
            let due = wrong.as_input(2 + before as u16);
            refused(due, |out| hierarchy(&[], &services, out));
        }
    }
    let long = encode(&vec![entry(1, 0, 1, 0); 1009]);
    let services = [blocks(""), long].concat();
    refused(refusal(1, 3, 0), |out| hierarchy(&[], &services, out));
    // There is no dictionary.
    let named = [blocks(""), blocks("1,1; 9,1")].concat();
    refused(refusal(4, 3, 2), |out| hierarchy(&[], &named, out));
    refused(refusal(11, 0, 0), |out| hierarchy(&[1], &[], out));
    refused(refusal(11, 0, 1), |out| {
        hierarchy(&[1, 0, 1, 0], &named, out)
    });
}

#[test]
fn outputs() {
    for n in [1, 2, 7, 64] {
        let services = dictionary(&vec!["5,1 [1,1]"; n]);
        needs(2 * n * n + n, |out| hierarchy(&[], &services, out));
        let found = parts(&[], &services, n);
        assert_eq!(found.classes, vec![1; n]);
        assert_eq!(found.superiors, vec![vec![0; n]; n]);
    }
}

/// Services of 1,008 entries, each contained in all before it.
#[test]
fn the_largest() {
    let service = |k: u16| {
        let mut d = chain(32);
        d.extend((0..976).map(|n| entry(3, n % 33, n + 1, k)));
        d
    };
    let services: Vec<_> = (1..=20).map(service).collect();
    let found = parts(&[], &laid_end_to_end(&services), 20);
    for (c, d) in (0..20).flat_map(|c| (0..20).map(move |d| (c, d))) {
        assert_eq!(found.table[c][d], u8::from(d <= c));
        assert_eq!(found.superiors[c][d], u8::from(d + 1 == c));
    }
}
