//! Named descriptions: dictionaries, names and unfolding, and the calls with a dictionary against those on what is unfolded.

use super::*;
use differential::naming::{chain, laid, named, slipped, Dictionary, Extent, MOST_NAMES, SLIPS};
use differential::{MOST_DESCRIPTION, MOST_SPECIMEN};
use reference::notation::{blocks, entries};

/// The bytes of the longest description.
const LONGEST: usize = 16 * BLOCK;

/// The descriptions of these texts, end to end.
fn dictionary(texts: &[&str]) -> Vec<u8> {
    texts.iter().flat_map(|text| blocks(text)).collect()
}

fn with(dictionary: &[u8]) -> Under<'_> {
    Under {
        pairs: &[],
        dictionary,
    }
}

/// The refusal of an answer, as its number, input and place.
fn numbers<T>(answer: Result<T, goltximen::Refusal>) -> Option<(u8, u16, u16)> {
    let refusal = answer.err()?;
    Some((refusal.reason.number(), refusal.input, refusal.place))
}

/// Each call with this dictionary is refused so, whatever the inputs and the output are.
fn dictionary_refused(dictionary: &[u8], due: (u8, u16, u16)) {
    let chance = &mut Chance::from_seed(21);
    let under = with(dictionary);
    let (good, bad) = (blocks("1,7"), blocks("8"));
    for d in [&good, &bad, &Vec::new()] {
        for length in [0, 2 * BLOCK] {
            agreed(agree::fit(under, d, &bad));
            agreed(agree::normal_form(chance, under, d, length));
            agreed(agree::compare(chance, under, d, &bad, length));
            agreed(agree::unfold(chance, dictionary, d, length));
        }
        let out = &mut [0; 2 * BLOCK];
        assert_eq!(numbers(under.fit(d, &bad)), Some(due));
        assert_eq!(numbers(under.normal_form(d, out)), Some(due));
        assert_eq!(numbers(under.compare(d, &bad, out)), Some(due));
        assert_eq!(numbers(goltximen::unfold(dictionary, d, out)), Some(due));
    }
}

/// Each call with this dictionary is refused so, with the description as each of its inputs, whatever comes after it.
fn refused(dictionary: &[u8], d: &[Entry], number: u8, place: u16) {
    let chance = &mut Chance::from_seed(22);
    let (under, d, good) = (with(dictionary), encode(d), blocks("1,7"));
    for length in [0, 2 * LONGEST] {
        agreed(agree::fit(under, &good, &d));
        agreed(agree::normal_form(chance, under, &d, length));
        agreed(agree::compare(chance, under, &d, &d, length));
        agreed(agree::compare(chance, under, &good, &d, length));
        agreed(agree::unfold(chance, dictionary, &d, length));
    }
    let due = |input| Some((number, input, place));
    let out = &mut [0; 2 * LONGEST];
    assert_eq!(numbers(under.fit(&good, &d)), due(2));
    assert_eq!(numbers(under.normal_form(&d, out)), due(1));
    assert_eq!(numbers(under.compare(&d, &[], out)), due(1));
    assert_eq!(numbers(under.compare(&good, &d, out)), due(2));
    assert_eq!(numbers(goltximen::unfold(dictionary, &d, out)), due(1));
}

/// As `refused`, and as the last description of the dictionary, which may name the same ones.
fn refused_everywhere(descriptions: &[Vec<Entry>], d: &[Entry], number: u8, place: u16) {
    let bytes = laid(descriptions);
    refused(&bytes, d, number, place);
    let input = 101 + descriptions.len() as u16;
    let longer = [&bytes[..], &encode(d)].concat();
    dictionary_refused(&longer, (number, input, place));
    // What comes after it is not looked at.
    let longer = [&longer[..], &blocks("8")].concat();
    dictionary_refused(&longer, (number, input, place));
}

/// Each call with this dictionary and description, at lengths around what it comes to, and the unfolding, which comes to so many
/// entries.
fn accepted(dictionary: &[u8], d: &[Entry], due: usize) {
    let chance = &mut Chance::from_seed(23);
    let (under, d) = (with(dictionary), encode(d));
    let needed = length_of(due);
    for length in [0, needed - 1, needed, needed + 1] {
        let answer = agreed(agree::unfold(chance, dictionary, &d, length));
        let short = length < needed;
        let expected = [Answer::Count(due), Answer::Refused(7, 0)][usize::from(short)];
        assert_eq!(answer, expected);
        let answer = agreed(agree::normal_form(chance, under, &d, length));
        assert_eq!(answer == Answer::Refused(7, 0), short);
    }
    for length in [2 * needed - 1, 2 * needed] {
        let answer = agreed(agree::compare(chance, under, &d, &d, length));
        let expected = [Answer::Refused(7, 0), Answer::Contained];
        assert_eq!(answer, expected[usize::from(length == 2 * needed)]);
    }
    agreed(agree::fit(under, &encode(&[]), &d));
}

#[test]
fn wrong_dictionaries() {
    let run = made(250, Rounds::dictionaries);
    for call in ["fit", "normal form", "compare", "unfold"] {
        for number in [1, 2, 3, 4, 5, 6, 13, 14] {
            let answer = format!("refused {number} input 100 + n");
            assert!(run.tally.count(call, &answer) > 10, "{call} {answer}");
        }
        for answer in ["refused 1 input 100", "refused 8 input 100"] {
            assert!(run.tally.count(call, answer) > 200, "{call} {answer}");
        }
    }
}

/// The drawn rounds come to each answer with dictionaries often enough.
#[test]
fn answers_with_dictionaries() {
    let run = made(1500, Rounds::pair);
    assert!(run.tally.count_named("compare", "contained") > 300);
    assert!(run.tally.count_named("compare", "not contained") > 300);
    let run = made(1500, Rounds::fits);
    assert!(run.tally.count_named("fit", "yes") > 100);
    assert!(run.tally.count_named("fit", "no") > 300);
    let run = made(1500, Rounds::damage);
    for call in ["fit", "compare"] {
        let answer = "refused 13 input 2";
        assert!(run.tally.count_named(call, answer) > 20, "{call}");
    }
    for call in ["normal form", "compare", "unfold"] {
        for number in [4, 5, 13] {
            let answer = format!("refused {number} input 1");
            assert!(run.tally.count_named(call, &answer) > 20, "{call} {answer}");
        }
    }
    let run = made(300, Rounds::small);
    assert!(run.tally.count_named("compare", "contained") > 50);
    assert!(run.tally.count_named("compare", "not contained") > 50);
}

#[test]
fn unfoldings() {
    let run = made(600, Rounds::unfolds);
    assert!(run.tally.count_named("unfold", "count") > 1000);
    assert!(run.tally.count_named("unfold", "refused 7 input 0") > 1000);
    for call in ["unfold", "normal form", "compare"] {
        let times = run.tally.count_named(call, "refused 14 input 1");
        assert!(times > 50, "{call} {times}");
    }
}

#[test]
fn hostile_dictionaries() {
    let run = made(40, Rounds::hostile);
    assert!(run.tally.count_named("unfold", "count") > 20);
    assert!(run.tally.count_named("unfold", "refused 14 input 1") > 10);
}

/// No multiple of 512 is refused as 1, before 8 and before any description.
#[test]
fn each_length_of_a_dictionary() {
    let one = blocks("1,7");
    for count in [1, 2, 64, 65] {
        let bytes = one.repeat(count);
        for part in [1, 2, 255, 256, 511] {
            dictionary_refused(&bytes[..bytes.len() - part], (1, 100, 0));
        }
    }
    dictionary_refused(&[vec![7; 512 * 65], vec![7]].concat(), (1, 100, 0));
}

/// 64 descriptions are allowed, of one block or of sixteen, and 65 are refused before anything in them.
#[test]
fn each_count_of_descriptions() {
    let full = encode(&vec![entry(1, 0, 7, 0); MOST_DESCRIPTION]);
    for count in 0..=67 {
        let name = count.min(MOST_NAMES) as u16;
        for part in [blocks("1,7"), blocks("")] {
            let bytes = part.repeat(count);
            if count > MOST_NAMES {
                dictionary_refused(&bytes, (8, 100, 0));
            } else if count > 0 {
                let due = reference::decode(&part).len();
                accepted(&bytes, &[named(0, name)], due);
                refused(&bytes, &[named(0, name + 1)], 13, 1);
            }
        }
    }
    accepted(&full.repeat(MOST_NAMES), &[named(0, 64)], MOST_DESCRIPTION);
    dictionary_refused(&full.repeat(MOST_NAMES + 1), (8, 100, 0));
    let mut bad = blocks("8");
    for count in [65, 66, 129] {
        dictionary_refused(&bad.repeat(count), (8, 100, 0));
    }
    // The stored number alone decides, whatever the checks are.
    bad[510] ^= 1;
    dictionary_refused(&bad.repeat(65), (8, 100, 0));
    dictionary_refused(&bad.repeat(64), (2, 101, 1));
}

/// The first block begins a description whatever its number is; each later one does exactly if its number is 1.
#[test]
fn each_number_of_a_block() {
    let numbered = |block: &[u8], number: u16| {
        let mut block = block.to_vec();
        block[..2].copy_from_slice(&number.to_le_bytes());
        seal(&mut block);
        block
    };
    let (one, full) = (blocks("1,7"), encode(&[entry(1, 0, 7, 0); 63]));
    for number in [0, 1, 2, 3, 4, 255, 256, 257, 258, 513, 65_535] {
        let first = numbered(&one, number);
        if number != 1 {
            dictionary_refused(&first, (3, 101, 1));
        }
        for before in 1..=3 {
            let mut bytes = full.clone();
            for at in 2..=before {
                bytes.extend(numbered(&full, at));
            }
            bytes.extend(numbered(&one, number));
            if number == 1 {
                accepted(
                    &bytes,
                    &[named(0, 2), named(0, 1)],
                    63 * usize::from(before) + 1,
                );
            } else if number == before + 1 {
                accepted(&bytes, &[named(0, 1)], 63 * usize::from(before) + 1);
                refused(&bytes, &[named(0, 2)], 13, 1);
            } else {
                dictionary_refused(&bytes, (3, 101, before + 1));
            }
        }
    }
}

/// Each byte of a dictionary changed, with the checks as they were and made right: the same on both sides, in each call.
#[test]
fn each_byte_of_a_dictionary() {
    let whole = dictionary(&["1,7; 5,1 [2,8]", "9,1; 5,2 [9,1]", ""]);
    let d = blocks("9,2; 5,3 [9,3; 9,1]");
    let chance = &mut Chance::from_seed(24);
    for at in 0..whole.len() {
        for change in [1, 2, 8, 0x80] {
            let mut bytes = whole.clone();
            bytes[at] ^= change;
            for sealed in [false, true] {
                if sealed {
                    let block = at / BLOCK * BLOCK;
                    seal(&mut bytes[block..block + BLOCK]);
                }
                agreed(agree::unfold(chance, &bytes, &d, LONGEST));
            }
            agreed(agree::fit(with(&bytes), &blocks("1,7"), &d));
        }
    }
}

/// Each fault of a description, in an input and in the dictionary after so many others, named by nobody.
#[test]
fn each_fault_of_a_description() {
    for count in [0, 1, 2, 40, 62] {
        let earlier = vec![entries("1,7; 5,1 [1,8]"); count];
        let all = |d: &[Entry], number, place| refused_everywhere(&earlier, d, number, place);
        let too_many = vec![entry(1, 0, 7, 0); MOST_DESCRIPTION + 1];
        all(&too_many, 1, 0);
        all(&entries("1,7; 8"), 4, 2);
        all(&entries("1,7; 7,1"), 4, 2);
        all(&[entry(1, 0, 7, 0), entry(1, 1, 7, 0)], 5, 2);
        all(&[chain(33), vec![entry(1, 33, 7, 0)]].concat(), 6, 34);
        for name in [0, count as u16 + 1, count as u16 + 2, 256, 65_535] {
            all(&[entry(1, 0, 7, 0), named(0, name)], 13, 2);
            all(&[entry(1, 0, 7, 0), entry(9, 0, name, 1)], 4, 2);
            all(&[named(7, name)], 13, 1);
        }
        if count > 0 {
            all(&[named(7, 1)], 5, 1);
            all(&[named(0, 1), entry(1, 1, 7, 0)], 5, 2);
            all(&[named(0, 1), named(1, 1)], 5, 2);
            let too_much = vec![named(0, count as u16); 337];
            all(&too_much, 14, 0);
            all(&[&too_much[..], &entries("8")].concat(), 4, 338);
        }
        let mut wrong = encode(&vec![entry(1, 0, 7, 0); 100]);
        wrong[1000] ^= 1;
        let due = 101 + count as u16;
        let bytes = [&laid(&earlier)[..], &wrong, &blocks("8")].concat();
        dictionary_refused(&bytes, (2, due, 2));
        seal(&mut wrong[BLOCK..]);
        let bytes = [&laid(&earlier)[..], &wrong, &blocks("8")].concat();
        dictionary_refused(&bytes, (3, due, 2));
    }
}

/// In a dictionary each description may name the earlier ones and no other.
#[test]
fn each_name_in_each_description() {
    for own in [1, 2, 3, 31, 63, 64] {
        for name in [0, 1, 2, 3, 30, 31, 32, 62, 63, 64, 65] {
            let mut descriptions = vec![entries("1,7"); MOST_NAMES];
            descriptions[own - 1] = vec![entry(1, 0, 8, 0), named(0, name)];
            let bytes = laid(&descriptions);
            if (1..own).contains(&usize::from(name)) {
                accepted(&bytes, &[named(0, own as u16)], 2);
            } else {
                dictionary_refused(&bytes, (13, 100 + own as u16, 2));
            }
        }
    }
}

/// A name at each depth of descriptions of each number of levels: 14 where they come to more than depth 32, and 6 where the name
/// itself stands at 33.
#[test]
fn each_depth_of_a_name() {
    for levels in 0..=33 {
        let bytes = laid(&[chain(levels), vec![named(0, 1), named(0, 1)]]);
        for depth in 0..=32 {
            for (name, times) in [(1, 1), (2, 2)] {
                let mut d = chain(depth);
                d.push(named(depth as u16, name));
                if depth + levels > 33 {
                    refused(&bytes, &d, 14, 0);
                } else {
                    accepted(&bytes, &d, depth + times * levels);
                }
            }
        }
        let mut d = chain(33);
        d.push(named(33, 2));
        refused(&bytes, &d, 6, 34);
        // The dictionary's own descriptions.
        for depth in [0, 1, 31, 32] {
            let mut around = chain(depth);
            around.push(named(depth as u16, 1));
            let bytes = laid(&[chain(levels), around]);
            if depth + levels > 33 {
                dictionary_refused(&bytes, (14, 102, 0));
            } else {
                accepted(&bytes, &[named(0, 2)], depth + levels);
            }
        }
    }
}

/// Names of descriptions of each size, so many that they come to 1,008 entries or just to more.
#[test]
fn each_size_of_a_name() {
    for size in [1, 2, 7, 16, 62, 63, 64, 504, 505, 1007, 1008] {
        let bytes = laid(&[vec![entry(1, 0, 7, 0); size], vec![named(0, 1)]]);
        let most = MOST_DESCRIPTION / size;
        for name in [1, 2] {
            let mut d = vec![named(0, name); most];
            accepted(&bytes, &d, size * most);
            d.extend(vec![entry(1, 0, 8, 0); MOST_DESCRIPTION - size * most]);
            accepted(&bytes, &d, MOST_DESCRIPTION);
            if d.len() < MOST_DESCRIPTION {
                d.push(entry(1, 0, 8, 0));
                refused(&bytes, &d, 14, 0);
                let longer = [&bytes[..], &encode(&d)].concat();
                dictionary_refused(&longer, (14, 103, 0));
            }
            let names = vec![named(0, name); most + 1];
            if names.len() <= MOST_DESCRIPTION {
                refused(&bytes, &names, 14, 0);
            }
        }
        // A million entries.
        if size > 1 {
            refused(&bytes, &vec![named(0, 2); MOST_DESCRIPTION], 14, 0);
        }
    }
    // By the length as sent: names of nothing.
    let bytes = laid(&[vec![]]);
    accepted(&bytes, &vec![named(0, 1); MOST_DESCRIPTION], 0);
    refused(&bytes, &vec![named(0, 1); MOST_DESCRIPTION + 1], 1, 0);
}

/// Chains of names of nothing, each named 1,008 times by the next, behind which nothing, one property or an 'every' stands.
#[test]
fn chains_of_empty_names() {
    let mut empty = vec![vec![]];
    for name in 1..63 {
        empty.push(vec![named(0, name); MOST_DESCRIPTION]);
    }
    let bytes = laid(&empty);
    accepted(&bytes, &vec![named(0, 63); MOST_DESCRIPTION], 0);
    let mut around = chain(33);
    around.extend(vec![named(32, 63); MOST_DESCRIPTION - 33]);
    accepted(&bytes, &around, 33);
    refused(&bytes, &[chain(33), vec![named(33, 63)]].concat(), 6, 34);
    for first in ["1,7", "5,1 [1,7]"] {
        let mut deep = vec![vec![], entries(first)];
        for name in 2..64 {
            let mut description = vec![named(0, 1); MOST_DESCRIPTION];
            let at = usize::from(name) * 16 - 17;
            description[at] = named(0, name);
            deep.push(description);
        }
        let bytes = laid(&deep);
        let due = deep[1].len();
        accepted(&bytes, &[named(0, 64)], due);
        let mut d = vec![named(0, 1); MOST_DESCRIPTION];
        d[500] = named(0, 64);
        accepted(&bytes, &d, due);
        d.splice(..9, vec![named(0, 64); 9]);
        accepted(&bytes, &d, 10 * due);
    }
}

/// Names of names that double: the first that comes to more than 1,008 entries is refused, and 2 to the 62nd is not counted.
#[test]
fn names_that_double() {
    let mut descriptions = vec![entries("1,7")];
    for name in 1..64 {
        descriptions.push(vec![named(0, name); 2]);
    }
    for count in 1..=10 {
        let bytes = laid(&descriptions[..count]);
        accepted(&bytes, &[named(0, count as u16)], 1 << (count - 1));
    }
    for count in 11..=64 {
        dictionary_refused(&laid(&descriptions[..count]), (14, 111, 0));
    }
    descriptions[0] = vec![];
    accepted(&laid(&descriptions), &[named(0, 64); 1008], 0);
}

/// A specimen names nothing, whatever the dictionary is, at each place; and its refusals come before the description's.
#[test]
fn specimens_name_nothing() {
    let bytes = dictionary(&["1,7", ""]);
    for before in [0, 1, 62, 63, MOST_SPECIMEN - 1] {
        let mut s = vec![entry(1, 0, 7, 0); before];
        s.push(named(0, 1));
        let s = encode(&s);
        for d in [blocks("9,1"), blocks("9,3"), blocks("8"), vec![]] {
            agreed(agree::fit(with(&bytes), &s, &d));
            let place = before as u16 + 1;
            let found = numbers(with(&bytes).fit(&s, &d));
            assert_eq!(found, Some((4, 1, place)));
        }
    }
}

/// Without a dictionary each named entry is refused as 13, in each call and input, and as 4 by the readers.
#[test]
fn no_dictionary() {
    for name in [0, 1, 2, 64, 65_535] {
        for before in [0, 1, 63, 1007] {
            let mut d = vec![entry(1, 0, 7, 0); before];
            d.push(named(0, name));
            refused(&[], &d, 13, before as u16 + 1);
            let read = agreed(agree::read_description(&encode(&d)));
            assert_eq!(read, Answer::Refused(4, 1));
            d[before].number = 1;
            refused(&[], &d, 4, before as u16 + 1);
        }
    }
}

/// All descriptions of at most two entries, with each entry also behind a name, below each owner: the items that fit are those that
/// fit by what the names mean.
#[test]
fn all_tiny_names_in_all_records() {
    let pool = all_records(Names::Low, (1, 1), 2);
    let all = tiny_descriptions(Names::Low, 1, 1);
    let chance = &mut Chance::from_seed(25);
    for first in &all {
        for second in all.iter().step_by(7) {
            let mut names = Dictionary::of(&[first.clone(), second.clone()]);
            names.push(vec![named(0, 2), entry(5, 0, 1, 0), named(2, 1)]);
            let d = vec![entry(5, 0, 1, 0), named(1, 3), named(0, 2)];
            let bytes = names.bytes();
            let answer = agreed(agree::unfold(chance, &bytes, &encode(&d), LONGEST));
            let extent = names.extent(&d);
            assert_eq!(answer, Answer::Count(extent.entries));
            let plain = reference::decode(&agree::plain(with(&bytes), &encode(&d)));
            assert_eq!(Extent::of(&plain, &[]), extent);
            if let Err(difference) = confirm_unfolded(&pool, &names, &d, &plain) {
                panic!("{difference}");
            }
        }
    }
}

/// Each slip comes to a refusal, at the dictionary or in it, most of the time.
#[test]
fn each_slip() {
    let chance = &mut Chance::from_seed(26);
    let names = Dictionary::of(&[entries("1,7"), vec![], entries("9,1; 5,1 [9,2]")]);
    for slip in 0..SLIPS {
        let mut refusals = 0;
        for _ in 0..60 {
            let bytes = slipped(chance, &names, slip);
            let answer = agreed(agree::unfold(chance, &bytes, &blocks("1,7"), BLOCK));
            refusals += usize::from(matches!(answer, Answer::Refused(_, 100..)));
        }
        assert!(refusals > 20, "{slip}: {refusals}");
    }
}
