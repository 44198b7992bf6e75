//! A fixed number of drawn cases, and sweeps over every byte, place and length that decides.

mod catalogue;
mod desk;
mod doubles;
mod earning;
mod excluding;
mod failing;
mod hierarchy;
mod items;
mod naming;
mod narrowest;
mod sheets;
mod stored;
mod sweeps;

use differential::agree::{self, Answer, Difference};
use differential::chance::Chance;
use differential::damage::{framed, seal, seal_first, Sort};
use differential::draw::{self, Names, Shape};
use differential::exchange::{exchange, least_unseen, told};
use differential::excluding::Given;
use differential::rounds::{Found, Rounds};
use differential::small::{
    confirm, confirm_unfolded, first_that_breaks, tiny_descriptions, tiny_groups, Pool, Size,
};
use differential::{length_of, BLOCK, MOST_DEPTH};
use goltximen::Under;
use reference::notation::entry;
use reference::record::Record;
use reference::{encode, Entry};

/// Makes so many rounds, each with its own seed, and gives what was counted.
fn made(rounds: u64, round: fn(&mut Rounds) -> Found) -> Rounds {
    let mut run = Rounds::from_seed(0);
    for seed in 0..rounds {
        run.chance = Chance::from_seed(seed);
        if let Err(difference) = round(&mut run) {
            panic!("seed {seed}: {difference}");
        }
    }
    run
}

/// The answer; a difference fails the test.
fn agreed(answer: Result<Answer, Difference>) -> Answer {
    answer.unwrap_or_else(|difference| panic!("{difference}"))
}

/// A description of so many entries with entries of each kind, without contradictions.
fn mixed(entries: usize) -> Vec<Entry> {
    let shape = Shape {
        entries,
        conflicts: 0,
        depth: 6,
        ..draw::WIDE
    };
    draw::description(&mut Chance::from_seed(11), &shape)
}

/// A specimen of so many entries.
fn mixed_specimen(entries: usize) -> Vec<Entry> {
    let shape = Shape {
        entries,
        ..draw::WIDE
    };
    draw::specimen(&mut Chance::from_seed(12), &shape)
}

#[test]
fn pairs() {
    let run = made(6000, Rounds::pair);
    assert!(run.tally.count("compare", "contained") > 5000);
    assert!(run.tally.count("compare", "not contained") > 5000);
}

#[test]
fn normal_forms() {
    let run = made(4000, Rounds::normal);
    assert_eq!(run.tally.count("normal form", "count"), 4000);
}

#[test]
fn fits() {
    let run = made(5000, Rounds::fits);
    assert!(run.tally.count("fit", "yes") > 3000);
    assert!(run.tally.count("fit", "no") > 3000);
}

#[test]
fn damaged_bytes() {
    let run = made(6000, Rounds::damage);
    for number in 1..=6 {
        for (call, inputs) in [("compare", 2), ("fit", 2), ("normal form", 1)] {
            for input in 1..=inputs {
                let answer = format!("refused {number} input {input}");
                assert!(run.tally.count(call, &answer) > 100, "{call} {answer}");
            }
        }
        for call in ["read description", "read specimen"] {
            let answer = format!("refused {number} input 1");
            assert!(run.tally.count(call, &answer) > 100, "{call} {answer}");
        }
    }
    for call in ["read specimen", "fit"] {
        assert!(run.tally.count(call, "refused 9 input 1") > 100, "{call}");
    }
    assert_eq!(run.tally.count("read description", "refused 9 input 1"), 0);
    assert_eq!(run.tally.count("fit", "refused 9 input 2"), 0);
}

#[test]
fn exchanged_entries() {
    let run = made(4000, Rounds::exchange);
    for (answer, times) in [
        ("count", 1000),
        ("refused 2 input 1", 5000),
        ("refused 5 input 1", 40),
    ] {
        assert!(run.tally.count("exchange", answer) > times, "{answer}");
    }
}

/// Each two entries of a block, with word sums that differ by nothing, by what the checks do not tell there, and by one more or
/// less.
#[test]
fn each_two_entries_of_a_block() {
    for (one, other) in (1..=63).flat_map(|one| (1..one).map(move |other| (one, other))) {
        let least = least_unseen(one - other);
        for difference in [0, 1, least - 1, least, least + 1] {
            for (sort, kind) in [(Sort::Description, 3), (Sort::Specimen, 7)] {
                let mut entries = vec![entry(1, 0, 1, 0); 63];
                entries[one - 1] = entry(kind, 0, 1, difference as u16);
                entries[other - 1] = entry(kind, 0, 1, 0);
                let mut bytes = encode(&entries);
                exchange(&mut bytes, one, other);
                let told = told(&entries, one, other);
                assert_eq!(told.is_none(), difference % least == 0);
                agreed(agree::exchanged(sort, &bytes, told));
            }
        }
    }
}

#[test]
fn outputs_around_the_needed_length() {
    let run = made(600, Rounds::outputs);
    assert!(run.tally.count("compare", "refused 7 input 0") > 1000);
    assert!(run.tally.count("normal form", "refused 7 input 0") > 1000);
}

#[test]
fn at_the_limit() {
    let run = made(60, Rounds::full);
    assert!(run.tally.count("compare", "contained") > 60);
    assert!(run.tally.count("compare", "not contained") > 60);
}

#[test]
fn small_ones_in_records() {
    let run = made(700, Rounds::small);
    assert!(run.tally.count("compare", "contained") > 500);
    assert!(run.tally.count("compare", "not contained") > 500);
    assert!(run.tally.count("fit", "refused 9 input 1") > 50);
}

/// All pairs of descriptions of at most two entries over one property and one link, against all records of at most three items.
#[test]
fn all_tiny_pairs_in_all_records() {
    let count = all_tiny_pairs(&Given::default(), Names::Low, (1, 1), 3);
    assert_eq!(count, (121, 4 + 64 + 4096));
}

/// The same for link 32,768, against all records that keep the rule: by it each item has none of the items or one of them.
#[test]
fn all_tiny_pairs_of_a_single_link() {
    let count = all_tiny_pairs(&Given::default(), Names::Middle, (1, 1), 3);
    assert_eq!(count, (121, 4 + 4 * 9 + 8 * 64));
}

/// The same for links 32,768 and 32,767 together, against all records of at most two items that keep the rule.
#[test]
fn all_tiny_pairs_of_both_sorts_of_links() {
    let count = all_tiny_pairs(&Given::default(), Names::Middle, (1, 2), 2);
    assert_eq!(count, (1 + 17 + 17 * 17 + 2 * 17, 8 + 4 * 16 * 9));
}

/// All records of at most so many items over so many properties and links that keep the rule.
fn all_records(names: Names, (properties, links): (u16, u16), most_items: usize) -> Pool {
    let mut pool = Pool::empty();
    for items in 1..=most_items {
        pool.add_all(Size {
            items,
            properties,
            links,
            names,
        });
    }
    pool
}

/// All pairs of descriptions of at most two entries over so many properties and links, against all records of at most so many
/// items that keep the rule and the list. Gives the numbers of descriptions and records.
fn all_tiny_pairs(
    given: &Given,
    names: Names,
    (properties, links): (u16, u16),
    most_items: usize,
) -> (usize, usize) {
    let pool = all_records(names, (properties, links), most_items);
    let (pool, under) = (pool.keeping(&given.pairs), given.under());
    let all = tiny_descriptions(names, properties, links);
    let fitting: Vec<Vec<bool>> = all.iter().map(|d| pool.fitting(d)).collect();
    let mut chance = Chance::from_seed(3);
    for (c, fit_c) in all.iter().zip(&fitting) {
        for (d, fit_d) in all.iter().zip(&fitting) {
            let (c_bytes, d_bytes) = (encode(c), encode(d));
            let compared = agree::compare(&mut chance, under, &c_bytes, &d_bytes, 1024);
            let answer = agreed(compared);
            let found = fit_c.iter().zip(fit_d).any(|(&c, &d)| c && !d);
            assert!(answer != Answer::Contained || !found, "{c:?} {d:?}");
            // What 'not contained' claims is looked at in the specimen's record.
            if let Err(difference) = confirm(&Pool::empty(), under, c, d, answer) {
                panic!("{difference}");
            }
        }
    }
    (all.len(), pool.count())
}

/// All lists of at most three groups by links 1, 32,767, 32,768 and 65,535: refused as 9 at the first entry that breaks the rule in
/// the specimen's record, item by item, and else accepted.
#[test]
fn all_tiny_groups_in_their_records() {
    let (mut refused, mut accepted) = (0, 0);
    for groups in 0..=3 {
        for s in tiny_groups(&[1, 32_767, 32_768, 65_535], groups) {
            let bytes = encode(&s);
            let read = agreed(agree::read_specimen(&bytes));
            let fit = agreed(agree::fit(Under::default(), &bytes, &encode(&[])));
            let Some(place) = first_that_breaks(&s, Record::keeps_the_rule) else {
                assert_eq!((read, fit), (Answer::Count(s.len()), Answer::Yes));
                accepted += 1;
                continue;
            };
            assert_eq!((read, fit), (Answer::Refused(9, 1), Answer::Refused(9, 1)));
            let refusal = goltximen::read_specimen(&bytes).unwrap_err();
            assert_eq!(usize::from(refusal.place), place);
            refused += 1;
        }
    }
    assert_eq!(refused + accepted, 1 + 8 + 8 * 16 + 8 * 16 * 24);
    assert!(refused > 1000 && accepted > 500, "{refused} {accepted}");
}

/// Each entry of a specimen at the limit put again at the end, or made a group of two by a link that leads to one item only.
#[test]
fn each_second_item() {
    let mut chains = Vec::new();
    while chains.len() + 33 < 2016 {
        let first = chains.len() as u16;
        chains.push(entry(7, 0, 1, 3));
        chains.extend((1..=32).map(|step| entry(7, first + step, 32_768, 0)));
    }
    let accepted = agreed(agree::read_specimen(&encode(&chains)));
    assert_eq!(accepted, Answer::Count(61 * 33));
    for at in (0..chains.len()).step_by(7) {
        let single = chains[at].name == 32_768;
        let mut again = chains.clone();
        again.push(chains[at]);
        let mut two = chains.clone();
        two[at].number = 1;
        for s in [again, two] {
            let answer = agreed(agree::read_specimen(&encode(&s)));
            let due = if single {
                Answer::Refused(9, 1)
            } else {
                Answer::Count(s.len())
            };
            assert_eq!(answer, due);
        }
    }
}

/// Each byte of blocks changed, with the checks as they were, with the first and with both made right for the block.
#[test]
fn each_byte() {
    for whole in [
        encode(&mixed(100)),
        encode(&mixed_specimen(100)),
        encode(&mixed(0)),
    ] {
        let mut run = Rounds::from_seed(0);
        for at in 0..whole.len() {
            for change in [1, 0x80, 0xff] {
                let mut bytes = whole.clone();
                bytes[at] ^= change;
                run.read(&bytes)
                    .unwrap_or_else(|difference| panic!("{difference}"));
                let block = at / BLOCK * BLOCK;
                let sealed: [fn(&mut [u8]); 2] = [seal_first, seal];
                for sealed in sealed {
                    sealed(&mut bytes[block..block + BLOCK]);
                    run.read(&bytes)
                        .unwrap_or_else(|difference| panic!("{difference}"));
                }
            }
        }
    }
}

/// Each word as the second check, with the first check that is right for it: one is accepted, and the others are refused as 2.
#[test]
fn each_second_check() {
    for entries in [vec![], mixed(20), mixed(100)] {
        let mut bytes = encode(&entries);
        let mut run = Rounds::from_seed(0);
        for second in 0..=u16::MAX {
            bytes[508..510].copy_from_slice(&second.to_le_bytes());
            seal_first(&mut bytes[..BLOCK]);
            run.read(&bytes)
                .unwrap_or_else(|difference| panic!("{difference}"));
        }
        let call = "read description";
        assert_eq!(run.tally.count(call, "count"), 1);
        assert_eq!(run.tally.count(call, "refused 2 input 1"), 65_535);
    }
}

/// Each entry of a description and of a specimen at the limit made wrong in each of the ways of rows 4 and 5.
#[test]
fn each_entry() {
    let faults: [fn(&mut Entry, u16); 7] = [
        |e, _| e.kind = 0,
        |e, _| e.kind = 8,
        |e, _| e.zero = 1,
        |e, _| e.name = u16::from(e.kind == 6),
        |e, number| e.owner = number,
        |e, number| e.owner = number + 1,
        |e, _| e.owner = u16::MAX,
    ];
    let mut run = Rounds::from_seed(0);
    for whole in [mixed(1008), mixed_specimen(2016)] {
        for (number, at) in (1..).zip(0..whole.len()).step_by(5) {
            for fault in faults {
                let mut entries = whole.clone();
                fault(&mut entries[at], number);
                run.read(&encode(&entries))
                    .unwrap_or_else(|difference| panic!("{difference}"));
            }
        }
    }
}

/// An entry owned by one of each kind, next to it or far from it: only 'every' and groups own.
#[test]
fn each_kind_of_owner() {
    let mut run = Rounds::from_seed(0);
    for kind in 1..=7 {
        for far in 0..130 {
            let name = u16::from(kind != 6);
            let mut entries = vec![entry(kind, 0, name, 0)];
            entries.extend(vec![entry(1, 0, 7, 0); far]);
            entries.push(entry(1, 1, 7, 0));
            run.read(&encode(&entries))
                .unwrap_or_else(|difference| panic!("{difference}"));
        }
    }
    // A description allows kinds 1 to 6 and the owner 5, a specimen kinds 1 and 7 and the owner 7.
    for (call, wrong_owner) in [("read description", 5 * 130), ("read specimen", 130)] {
        assert_eq!(run.tally.count(call, "count"), 130);
        assert_eq!(run.tally.count(call, "refused 5 input 1"), wrong_owner);
    }
}

/// A chain of owners that begins after so many other entries; depth 32 is accepted and 33 refused at its entry.
#[test]
fn each_depth() {
    for sort in [Sort::Description, Sort::Specimen] {
        let read = match sort {
            Sort::Description => agree::read_description,
            Sort::Specimen => agree::read_specimen,
        };
        for before in (0..sort.most() - 40).step_by(7) {
            let mut entries = vec![entry(1, 0, 7, 0); before];
            let mut owner = 0;
            for _ in 0..=MOST_DEPTH {
                entries.push(entry(sort.owner_kind(), owner, 1, 0));
                owner = entries.len() as u16;
            }
            let count = Answer::Count(entries.len());
            assert_eq!(agreed(read(&encode(&entries))), count);
            entries.push(entry(1, owner, 7, 0));
            assert_eq!(agreed(read(&encode(&entries))), Answer::Refused(6, 1));
        }
    }
}

/// All lengths around whole blocks, up to over the limits.
#[test]
fn each_length() {
    let bytes = encode(&vec![entry(1, 0, 7, 0); 34 * 63]);
    let mut run = Rounds::from_seed(0);
    for blocks in 0..=33 {
        let whole = blocks * BLOCK;
        for length in [whole, whole + 1, whole + 2, whole + 256, whole + 511] {
            run.read(&bytes[..length])
                .unwrap_or_else(|difference| panic!("{difference}"));
        }
    }
    // 1 to 16 whole blocks are a description, 1 to 32 a specimen.
    assert_eq!(run.tally.count("read description", "count"), 16);
    assert_eq!(run.tally.count("read specimen", "count"), 32);
}

/// Each number of used entries in each of up to three blocks, the others full.
#[test]
fn each_used_count() {
    let full = [entry(1, 0, 7, 0); 63];
    let mut run = Rounds::from_seed(0);
    for blocks in 1..=3 {
        for at in 0..blocks {
            for used in 0..=63 {
                let mut parts = vec![&full[..]; blocks];
                parts[at] = &full[..used];
                run.read(&framed(&parts))
                    .unwrap_or_else(|difference| panic!("{difference}"));
            }
        }
    }
    // The only block uses 0 to 63; the last of several 1 to 63, the others 63.
    let accepted = 64 + (1 + 63) + (1 + 1 + 63);
    assert_eq!(run.tally.count("read description", "count"), accepted);
    assert_eq!(run.tally.count("read specimen", "count"), accepted);
}

/// A full description against a chain: the specimen has more blocks than either of them.
#[test]
fn a_specimen_longer_than_both() {
    let c: Vec<Entry> = (1..=1008).map(|link| entry(3, 0, link, 65_535)).collect();
    let mut d: Vec<Entry> = (0..32).map(|owner| entry(5, owner, 2000, 0)).collect();
    d.push(entry(4, 32, 1, 65_535));
    let (c, d) = (encode(&c), encode(&d));
    let mut chance = Chance::from_seed(5);
    let mut compared = |length| {
        let answer = agree::compare(&mut chance, Under::default(), &c, &d, length);
        agreed(answer)
    };
    for length in [c.len() + d.len(), c.len() + d.len() + 700] {
        assert_eq!(compared(length), Answer::NotContained(33, 1041));
    }
    assert_eq!(compared(c.len() + d.len() - 1), Answer::Refused(7, 0));
    assert_eq!(length_of(1041), 17 * BLOCK);
}

/// Many groups and many 'every' of one link, at the limits.
#[test]
fn fit_of_many_groups_of_one_link() {
    let every = |n: u16| [entry(5, 0, 1, 0), entry(1, 2 * n + 1, 7, 0)];
    let group = |n: u16| [entry(7, 0, 1, u16::MAX), entry(1, 2 * n + 1, 7, 0)];
    let d: Vec<Entry> = (0..504).flat_map(every).collect();
    let mut s: Vec<Entry> = (0..1008).flat_map(group).collect();
    let fit = |s: &[Entry]| agreed(agree::fit(Under::default(), &encode(s), &encode(&d)));
    assert_eq!(fit(&s), Answer::Yes);
    s[2015].name = 8;
    assert_eq!(fit(&s), Answer::No);
}
