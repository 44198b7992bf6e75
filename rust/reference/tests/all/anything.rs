//! Inputs with a few bytes changed, for the calls that have tests of their own
//! in files named after them: no call panics, refusals agree with those of the
//! readers, and outputs of refused calls stay.

use std::collections::BTreeSet;

use reference::{
    catalogue, earning, encode, failing, fit_all, from_stored, hierarchy, missing, narrowest,
    read_description, read_sheet, to_stored, Entry, Refusal,
};

use crate::chance::{description, Chance, Size};
use crate::naming::{drawn, drawn_dictionary, spoilt};
use crate::notation::{blocks, entry, laid_end_to_end, unfolded, FILL};

const SMALL: Size = Size {
    entries: 5,
    properties: 2,
    links_after: 32_766,
    links: 2,
    number: 2,
};

/// The refusal of a call, if it is one; then the output has stayed.
fn refusal_of<T>(call: impl Fn(&mut [u8]) -> Result<T, Refusal>) -> Option<Refusal> {
    let mut out = vec![FILL; 10_000];
    let refusal = call(&mut out).err();
    assert!(refusal.is_none() || out.iter().all(|&byte| byte == FILL));
    refusal
}

fn as_input(input: u16) -> impl Fn(Refusal) -> Refusal {
    move |refusal| Refusal { input, ..refusal }
}

/// A description, now and then with an entry of another kind.
fn sent(chance: &mut Chance) -> Vec<u8> {
    let entries = description(chance, SMALL);
    spoilt(chance, encode(&entries))
}

#[test]
fn calls_without_a_dictionary() {
    let mut chance = Chance::from(1701);
    let mut numbers = BTreeSet::new();
    for _ in 0..2000 {
        let (c, d) = (sent(&mut chance), sent(&mut chance));
        let of_c = read_description(&c).err();
        let of_d = read_description(&d).err().map(as_input(2));
        let due = of_c.or(of_d);
        assert_eq!(refusal_of(|out| earning(&[], &c, &d, out)), due);
        assert_eq!(refusal_of(|out| failing(&[], &c, &d, out)), due);
        assert_eq!(refusal_of(|out| missing(&[], &c, &d, out)), due);
        assert_eq!(refusal_of(|out| to_stored(&c, out)), of_c);
        let sheet = read_sheet(&c).err();
        assert!(sheet == of_c || sheet.is_some_and(|refusal| refusal.number == 19));
        numbers.extend(due.map(|refusal| refusal.number));
    }
    for number in [1, 2, 3, 4, 5] {
        assert!(numbers.contains(&number), "{number}");
    }
}

#[test]
fn the_narrowest() {
    let mut chance = Chance::from(1702);
    for _ in 0..1000 {
        let count = chance.below(4);
        let dict = laid_end_to_end(&drawn_dictionary(&mut chance, SMALL, count));
        let dict = spoilt(&mut chance, dict);
        let [a, b] = [(); 2].map(|()| {
            let entries = drawn(&mut chance, SMALL, count);
            spoilt(&mut chance, encode(&entries))
        });
        let of_dict = unfolded(&dict, &blocks("")).err();
        let of_b = unfolded(&dict, &b).err().map(as_input(2));
        let due = of_dict.or(unfolded(&dict, &a).err()).or(of_b);
        assert_eq!(refusal_of(|out| narrowest(&[], &dict, &a, &b, out)), due);
    }
}

/// Kind 9 is 4 here; where a dictionary has no descriptions it is 13.
#[test]
fn the_hierarchy() {
    let mut chance = Chance::from(1703);
    for _ in 0..1000 {
        let list: Vec<u8> = (0..chance.below(4))
            .flat_map(|_| sent(&mut chance))
            .collect();
        let single = refusal_of(|out| catalogue(&[], &[], &blocks(""), &list, out));
        let due = single.map(|refusal| Refusal {
            number: if refusal.number == 13 {
                4
            } else {
                refusal.number
            },
            ..refusal
        });
        assert_eq!(refusal_of(|out| hierarchy(&[], &list, out)), due);
    }
}

#[test]
fn other_forms() {
    let mut chance = Chance::from(1704);
    let mut numbers = BTreeSet::new();
    for _ in 0..3000 {
        let mut stored = vec![FILL; 512];
        to_stored(&encode(&description(&mut chance, SMALL)), &mut stored).unwrap();
        let stored = spoilt(&mut chance, stored);
        let refusal = refusal_of(|out| from_stored(&stored, out));
        numbers.extend(refusal.map(|refusal| refusal.number));
        let drawn = |_| {
            let number = chance.below(5) as u16;
            entry(
                8,
                1 + number % 3,
                chance.one_of(&[1, 32_768]),
                chance.name(3),
            )
        };
        let entries: Vec<Entry> = (0..4).map(drawn).collect();
        let record = spoilt(&mut chance, encode(&entries));
        let refusal = refusal_of(|out| fit_all(&[], &[], 3, &record, &blocks("4,1,1"), out));
        numbers.extend(refusal.map(|refusal| refusal.number));
    }
    for number in [1, 2, 3, 4, 9, 10, 15] {
        assert!(numbers.contains(&number), "{number}");
    }
}
