//! The vectors: the files that are kept are the ones that are made, every answer comes often enough, and the named
//! cases give what the specification and the literature say.

mod catalogue;
mod doubles;
mod drafting;
mod earning;
mod excluding;
mod failing;
mod hierarchy;
mod items;
mod missing;
mod naming;
mod narrowest;
mod sheets;
mod stored;

use std::collections::{BTreeMap, BTreeSet};
use std::sync::OnceLock;

use differential::agree;
use differential::chance::Chance;
use differential::excluding::Given;
use differential::vectors::{
    calls_of, digest, standard_input, standard_output, Answer, Call, Vector, FILL, MOST_DICTIONARY,
    MOST_LENGTH, MOST_LIST, MOST_VECTORS,
};
use differential::{drawn, named};
use reference::notation::{blocks, entry};
use reference::{encode, Entry};

/// All vectors, made once.
fn all() -> &'static [Vector] {
    static ALL: OnceLock<Vec<Vector>> = OnceLock::new();
    ALL.get_or_init(differential::vectors::all)
}

/// A file of the crate that reads the vectors.
fn kept(name: &str) -> Vec<u8> {
    let folder = concat!(env!("CARGO_MANIFEST_DIR"), "/../../crates/vectors");
    std::fs::read(format!("{folder}/{name}")).unwrap_or_else(|error| panic!("{name}: {error}"))
}

/// How often each sort of answer comes.
fn sorts(vectors: &[Vector]) -> BTreeMap<String, usize> {
    let mut sorts = BTreeMap::new();
    for vector in vectors {
        *sorts.entry(vector.sort()).or_insert(0) += 1;
    }
    sorts
}

/// An answer that is expected, and the bytes that the call writes.
struct Expected {
    answer: String,
    written: Vec<u8>,
}

/// An answer that writes nothing.
fn said(answer: impl Into<String>) -> Expected {
    filled(answer, &[])
}

/// Refused by this call with this number, input and place.
fn refused(call: &str, number: u8, input: u16, place: u32) -> Expected {
    said(format!(
        "{call} refused {number} input {input} place {place}"
    ))
}

/// Refused by this call with each of these numbers and places, where it is the first service of a list and where it is the third.
fn first_and_third(call: &str, refusals: &[(u8, u32)]) -> Vec<Expected> {
    let each = refusals.iter();
    each.flat_map(|&(number, place)| [2, 4].map(|input| refused(call, number, input, place)))
        .collect()
}

/// An answer that writes these bytes.
fn filled(answer: impl Into<String>, written: &[u8]) -> Expected {
    Expected {
        answer: answer.into(),
        written: written.to_vec(),
    }
}

/// An answer that writes the blocks of this text.
fn wrote(answer: &str, text: &str) -> Expected {
    filled(answer, &blocks(text))
}

/// An answer that writes the blocks of these entries.
fn wrote_entries(answer: &str, entries: &[Entry]) -> Expected {
    filled(answer, &encode(entries))
}

/// Each vector gives the line that is expected, with the digest of an output that starts with what is written.
fn check(vectors: &[Vector], expected: &[Expected]) {
    assert_eq!(vectors.len(), expected.len());
    for (number, (vector, expected)) in (1..).zip(vectors.iter().zip(expected)) {
        let mut line = format!("{number} {}", expected.answer);
        if vector.call.writes() {
            let mut out = vec![FILL; vector.output];
            out[..expected.written.len()].copy_from_slice(&expected.written);
            line += &format!(" output {}", digest(&out));
        }
        assert_eq!(vector.line(number), line);
    }
}

#[test]
fn the_files_are_the_ones_that_are_made() {
    let vectors = all();
    assert!(kept("stdin") == standard_input(vectors));
    assert!(kept("stdout") == standard_output(vectors).into_bytes());
}

#[test]
fn the_bytes_of_a_vector() {
    let vector = Vector::compare(vec![1, 2, 3], vec![4; 258], 515).given(Given {
        pairs: vec![5; 8],
        dictionary: vec![6; 4],
    });
    let bytes = vector.bytes();
    let header = [5, 0, 8, 0, 4, 0, 3, 0, 2, 1, 3, 2, 0, 0, 0, 0];
    assert_eq!(bytes[..16], header);
    assert_eq!(bytes[16..28], [5, 5, 5, 5, 5, 5, 5, 5, 6, 6, 6, 6]);
    assert_eq!(bytes[28..32], [1, 2, 3, 4]);
    assert_eq!(bytes.len(), 16 + 8 + 4 + 3 + 258);
}

#[test]
fn the_digest() {
    assert_eq!(digest(&[]), 0);
    assert_eq!(digest(&[165]), 165);
    assert_eq!(digest(&[1, 2]), 259);
    // Without the modulus it would be 4,345,429,500.
    assert_eq!(digest(&[255; 4]), 50_462_209);
}

#[test]
fn as_many_and_as_long_as_allowed() {
    let vectors = all();
    assert!(vectors.len() <= MOST_VECTORS);
    assert!(standard_input(vectors).len() < 4_000_000);
    for vector in vectors {
        let [pairs, dictionary, first, second] = vector.parts().map(<[u8]>::len);
        assert!(dictionary <= MOST_DICTIONARY);
        let most_second = match vector.call {
            Call::Catalogue | Call::Hierarchy => MOST_LIST,
            _ => MOST_LENGTH,
        };
        assert!(pairs.max(first) <= MOST_LENGTH && second <= most_second);
        assert!(vector.output <= MOST_LENGTH);
        let one_input = !matches!(
            vector.call,
            Call::Fit
                | Call::Compare
                | Call::Catalogue
                | Call::Hierarchy
                | Call::Items
                | Call::Earning
                | Call::Failing
                | Call::Missing
                | Call::Narrowest
        );
        assert!(vector.total == 0 || vector.call == Call::Items);
        assert!(vector.second.is_empty() || !one_input);
        assert!(vector.output == 0 || vector.call.writes());
        // The unfolding takes no list.
        assert!(pairs == 0 || vector.call != Call::Unfold);
        // The hierarchy takes a list of services alone.
        assert!(dictionary + first == 0 || vector.call != Call::Hierarchy);
        let listed = [Call::Earning, Call::Failing, Call::Missing].contains(&vector.call);
        assert!(dictionary == 0 || !listed);
        // The stored form and the desk take input 1 alone.
        let alone = [Call::ToStored, Call::FromStored, Call::Desk].contains(&vector.call);
        assert!(pairs + dictionary == 0 || !alone);
        assert!(first.is_multiple_of(9) || vector.call != Call::Desk);
    }
}

/// Each answer of each call at least ten times, in the whole list and in the drawn parts; a call's refusals together are one.
#[test]
fn each_answer_of_each_call() {
    let drawn = [drawn::drawn(), drawn::naming(), drawn::catalogues()].concat();
    for vectors in [all(), &drawn] {
        let sorts = sorts(vectors);
        for answer in [
            "description accepted",
            "specimen accepted",
            "fit yes",
            "fit no",
            "normal form",
            "compare contained",
            "compare not contained",
            "unfold",
            "catalogue",
        ] {
            assert!(sorts[answer] >= 10, "{answer}");
        }
        for call in [
            "description",
            "specimen",
            "fit",
            "normal form",
            "compare",
            "unfold",
            "catalogue",
        ] {
            let refused = format!("{call} refused");
            let times = sorts.iter().filter(|(sort, _)| sort.starts_with(&refused));
            assert!(times.map(|(_, times)| times).sum::<usize>() >= 10, "{call}");
        }
    }
}

/// Each refusal of each call and input at least three times, each number 2 to 6, 9 and 11 to 13 at three places or more.
#[test]
fn each_refusal() {
    let vectors = all();
    let sorts = sorts(vectors);
    for (call, inputs) in [
        ("description", 1),
        ("specimen", 1),
        ("fit", 2),
        ("normal form", 1),
        ("compare", 2),
    ] {
        for (number, input) in (1..=6).flat_map(|n| (1..=inputs).map(move |i| (n, i))) {
            let sort = format!("{call} refused {number} input {input}");
            assert!(sorts[&sort] >= 3, "{sort}");
        }
    }
    for call in ["specimen", "fit"] {
        let sort = format!("{call} refused 9 input 1");
        assert!(sorts[&sort] >= 3, "{sort}");
    }
    assert!(!sorts.contains_key("description refused 9 input 1"));
    assert!(!sorts.contains_key("fit refused 9 input 2"));
    for call in ["fit", "normal form", "compare"] {
        for refusal in ["refused 11 input 0", "refused 1 input 100"] {
            assert!(sorts[&format!("{call} {refusal}")] >= 3, "{call} {refusal}");
        }
    }
    for (call, inputs) in [("fit", 2..=2), ("normal form", 1..=1), ("compare", 1..=2)] {
        for (number, input) in [13, 14]
            .iter()
            .flat_map(|n| inputs.clone().map(move |i| (n, i)))
        {
            let sort = format!("{call} refused {number} input {input}");
            assert!(sorts[&sort] >= 1, "{sort}");
        }
    }
    for refusal in [
        "refused 1 input 100",
        "refused 8 input 100",
        "refused 13 input 1",
        "refused 14 input 1",
        "refused 13 input 102",
        "refused 7 input 0",
    ] {
        assert!(sorts[&format!("unfold {refusal}")] >= 2, "unfold {refusal}");
    }
    for (number, input) in [
        (11, 0),
        (1, 100),
        (13, 103),
        (1, 1),
        (4, 1),
        (13, 1),
        (14, 1),
        (1, 2),
        (8, 2),
        (2, 2),
        (3, 3),
        (4, 4),
        (5, 4),
        (6, 4),
        (13, 4),
        (14, 4),
        (1, 3),
        (7, 0),
    ] {
        let sort = format!("catalogue refused {number} input {input}");
        assert!(sorts.contains_key(&sort), "{sort}");
    }
    for (number, input) in [
        (11, 0),
        (1, 2),
        (8, 2),
        (2, 2),
        (3, 3),
        (4, 4),
        (5, 4),
        (6, 4),
        (1, 3),
        (7, 0),
    ] {
        let sort = format!("hierarchy refused {number} input {input}");
        assert!(sorts.contains_key(&sort), "{sort}");
    }
    assert!(sorts["fit refused 12 input 1"] >= 3);
    assert!(sorts["normal form refused 7 input 0"] >= 3);
    assert!(sorts["compare refused 7 input 0"] >= 3);
    let mut places: BTreeMap<u8, BTreeSet<u32>> = BTreeMap::new();
    for vector in vectors {
        if let (Answer::Refused(refusal), _) = vector.answer() {
            places
                .entry(refusal.number)
                .or_default()
                .insert(refusal.place);
        }
    }
    for number in [2, 3, 4, 5, 6, 9, 10, 11, 12, 13] {
        assert!(places[&number].len() >= 3, "{number}");
    }
}

/// Each of these calls of a desk on both sides; the last answer.
fn drafts(rows: &[u8]) -> Result<agree::Answer, agree::Difference> {
    let mut desk = agree::Drafting::with_past(&[]);
    let mut last = agree::Answer::Count(0);
    for call in calls_of(rows) {
        last = desk.call(call)?;
    }
    Ok(last)
}

/// The library answers as the reference does, in each vector.
#[test]
fn the_library_agrees() {
    let mut chance = Chance::from_seed(7);
    for (number, vector) in (1..).zip(all()) {
        let (under, first, second) = (vector.given.under(), &vector.first, &vector.second);
        let agreed = match vector.call {
            Call::Description => agree::read_description(first),
            Call::Specimen => agree::read_specimen(first),
            Call::Fit => agree::fit(under, first, second),
            Call::NormalForm => agree::normal_form(&mut chance, under, first, vector.output),
            Call::Compare => agree::compare(&mut chance, under, first, second, vector.output),
            Call::Unfold => agree::unfold(&mut chance, under.dictionary, first, vector.output),
            Call::Catalogue => agree::catalogue(&mut chance, under, first, second, vector.output),
            Call::Hierarchy => agree::hierarchy(&mut chance, under.pairs, second, vector.output),
            Call::Sheet => agree::read_sheet(first),
            Call::Items => {
                let (total, output) = (vector.total, vector.output);
                agree::fit_all(&mut chance, under, total, first, second, output)
            }
            Call::ToStored => agree::to_stored(&mut chance, first, vector.output),
            Call::FromStored => agree::from_stored(&mut chance, first, vector.output),
            Call::Desk => drafts(first),
            Call::Earning => agree::earning(&mut chance, under.pairs, first, second, vector.output),
            Call::Failing => agree::failing(&mut chance, under.pairs, first, second, vector.output),
            Call::Missing => agree::missing(&mut chance, under.pairs, first, second, vector.output),
            Call::Narrowest => agree::narrowest(&mut chance, under, first, second, vector.output),
        };
        if let Err(difference) = agreed {
            panic!("vector {number}: {difference}");
        }
    }
}

#[test]
fn sizes_and_lengths() {
    let sorted: Vec<Entry> = (1..=1008).map(|name| entry(1, 0, name, 0)).collect();
    let mut expected = vec![
        said("description accepted 1008"),
        wrote_entries("normal form 1008", &sorted),
        said("compare contained"),
        said("description refused 1 input 1 place 0"),
        said("compare refused 1 input 2 place 0"),
        said("fit refused 1 input 2 place 0"),
        said("specimen accepted 2016"),
        said("specimen refused 1 input 1 place 0"),
        said("description refused 2 input 1 place 16"),
        said("specimen refused 2 input 1 place 32"),
        said("specimen refused 3 input 1 place 32"),
        said("specimen refused 4 input 1 place 2016"),
    ];
    // Lengths 0, 511 and 513.
    for _ in 0..3 {
        expected.extend([
            said("description refused 1 input 1 place 0"),
            said("specimen refused 1 input 1 place 0"),
            said("fit refused 1 input 1 place 0"),
            said("fit refused 1 input 2 place 0"),
            said("normal form refused 1 input 1 place 0"),
            said("compare refused 1 input 1 place 0"),
            said("compare refused 1 input 2 place 0"),
        ]);
    }
    check(&named::limits()[..33], &expected);
}

#[test]
fn depths() {
    let mut every: Vec<Entry> = (0..32).map(|owner| entry(5, owner, 1, 0)).collect();
    every.push(entry(1, 32, 7, 0));
    let mut groups: Vec<Entry> = (0..32).map(|owner| entry(7, owner, 1, 0)).collect();
    groups.push(entry(1, 32, 7, 0));
    let expected = [
        said("description accepted 33"),
        said("description accepted 33"),
        said("description refused 6 input 1 place 34"),
        said("description refused 6 input 1 place 34"),
        said("specimen accepted 33"),
        said("specimen accepted 33"),
        said("specimen refused 6 input 1 place 34"),
        said("specimen refused 6 input 1 place 34"),
        wrote("normal form 0", ""),
        wrote_entries("normal form 33", &every),
        said("normal form refused 6 input 1 place 34"),
        // C has the property and D also lacks it: the specimen is a chain of groups of one item.
        wrote_entries("compare not contained 34 entries 33", &groups),
        said("compare refused 6 input 2 place 34"),
        said("fit yes"),
        said("fit no"),
        said("fit refused 6 input 1 place 34"),
        said("fit refused 6 input 2 place 34"),
    ];
    check(&named::limits()[33..50], &expected);
}

#[test]
fn outputs() {
    let expected = [
        // One block: 0, 511, 512 and 513.
        said("normal form refused 7 input 0 place 0"),
        said("normal form refused 7 input 0 place 0"),
        wrote("normal form 1", "1,7"),
        wrote("normal form 1", "1,7"),
        // Two blocks: 512, 1023, 1024 and 1025.
        said("normal form refused 7 input 0 place 0"),
        said("normal form refused 7 input 0 place 0"),
        wrote("normal form 1", "1,7"),
        wrote("normal form 1", "1,7"),
        // Two inputs of one block, 'contained' and not: 0, 512, 1023, 1024 and 1025.
        said("compare refused 7 input 0 place 0"),
        said("compare refused 7 input 0 place 0"),
        said("compare refused 7 input 0 place 0"),
        said("compare refused 7 input 0 place 0"),
        said("compare refused 7 input 0 place 0"),
        said("compare refused 7 input 0 place 0"),
        said("compare contained"),
        wrote("compare not contained 1 entries 0", ""),
        said("compare contained"),
        wrote("compare not contained 1 entries 0", ""),
        // An output that is too short, and an input that is refused before.
        said("normal form refused 4 input 1 place 1"),
        said("compare refused 4 input 2 place 2"),
    ];
    check(&named::limits()[50..], &expected);
}

/// How many of the vectors of the checks come before the exchanges.
const BEFORE_EXCHANGES: usize = 8 + 13 + 15;

#[test]
fn checks() {
    let empty = {
        let mut block = vec![0; 512];
        (block[0], block[508], block[510]) = (1, 1, 2);
        block
    };
    let mut expected = vec![
        said("description accepted 0"),
        said("specimen accepted 0"),
        filled("normal form 0", &empty),
        said("description refused 2 input 1 place 1"),
        said("specimen refused 2 input 1 place 1"),
        said("description refused 2 input 1 place 1"),
        said("description refused 2 input 1 place 1"),
        said("description refused 2 input 1 place 1"),
        // Two blocks: right, then the first, the second, its high byte and both wrong.
        said("description accepted 64"),
        said("description refused 2 input 1 place 2"),
        said("description refused 2 input 1 place 2"),
        said("description refused 2 input 1 place 2"),
        said("description refused 2 input 1 place 2"),
        // Word 254 changed, with the first check right and with both.
        said("description refused 2 input 1 place 1"),
        said("description accepted 64"),
        said("specimen refused 2 input 1 place 2"),
        said("fit refused 2 input 1 place 2"),
        said("fit refused 2 input 2 place 2"),
        said("normal form refused 2 input 1 place 2"),
        said("compare refused 2 input 1 place 2"),
        said("compare refused 2 input 2 place 2"),
    ];
    // Number, used count and unused entry: only with both checks right it is 3.
    for _ in 0..3 {
        expected.extend([
            said("description refused 3 input 1 place 2"),
            said("description refused 2 input 1 place 2"),
            said("description refused 2 input 1 place 2"),
            said("description refused 2 input 1 place 2"),
        ]);
    }
    expected.extend([
        said("description refused 3 input 1 place 1"),
        said("description refused 2 input 1 place 1"),
        said("description refused 2 input 1 place 2"),
    ]);
    check(&named::checks()[..BEFORE_EXCHANGES], &expected);
}

#[test]
fn exchanges() {
    let mut expected = vec![
        said("description refused 2 input 1 place 1"),
        said("description accepted 2"),
        wrote("normal form 2", "1,8; 2,7"),
        said("description refused 2 input 1 place 1"),
        said("description refused 5 input 1 place 1"),
        said("specimen accepted 3"),
        said("specimen refused 2 input 1 place 1"),
        said("fit refused 2 input 1 place 1"),
        said("fit refused 2 input 2 place 1"),
        said("normal form refused 2 input 1 place 1"),
        said("compare refused 2 input 1 place 1"),
        said("compare refused 2 input 2 place 1"),
    ];
    // One less than what passes, what passes, one more, and what passes twice and three times.
    for (accepted, refused) in [
        (
            "description accepted 63",
            "description refused 2 input 1 place 1",
        ),
        (
            "description accepted 63",
            "description refused 2 input 1 place 1",
        ),
        (
            "description accepted 63",
            "description refused 2 input 1 place 1",
        ),
        (
            "description accepted 63",
            "description refused 2 input 1 place 1",
        ),
        (
            "description accepted 63",
            "description refused 2 input 1 place 1",
        ),
        (
            "description accepted 126",
            "description refused 2 input 1 place 2",
        ),
    ] {
        expected.extend([refused, accepted, refused, accepted, accepted].map(said));
    }
    expected.extend([
        said("specimen refused 2 input 1 place 1"),
        said("specimen accepted 2"),
        said("specimen refused 2 input 1 place 1"),
    ]);
    check(&named::checks()[BEFORE_EXCHANGES..], &expected);
}

#[test]
fn at_least_2_of_a_single_link() {
    let expected = [
        said("description accepted 4"),
        wrote("normal form 1", "6"),
        wrote("normal form 1", "6"),
        wrote("normal form 1", "3,32767,2"),
        wrote("normal form 1", "6"),
        wrote("normal form 2", "1,8; 4,1,0"),
        wrote("normal form 1", "4,32768,0"),
        wrote("normal form 1", "4,1,0"),
        wrote("normal form 2", "5,1 [4,32768,0]"),
        wrote("normal form 1", "6"),
        said("compare contained"),
        said("compare contained"),
        said("compare contained"),
        wrote("compare not contained 1 entries 0", ""),
        wrote("compare not contained 1 entries 1", "7,32768"),
    ];
    check(&named::single_links()[..15], &expected);
}

#[test]
fn at_most_of_a_single_link() {
    let expected = [
        wrote("normal form 0", ""),
        wrote("normal form 0", ""),
        wrote("normal form 1", "4,32767,1"),
        wrote("normal form 1", "4,32768,0"),
        wrote("normal form 1", "3,32768,1"),
        wrote("normal form 2", "5,32768 [1,7]"),
        wrote("normal form 1", "1,7"),
        wrote("normal form 0", ""),
        said("compare contained"),
        said("compare contained"),
        said("compare contained"),
        wrote("compare not contained 1 entries 1", "7,32767,1"),
        // One item or none.
        wrote("normal form 1", "4,32768,0"),
        wrote("normal form 3", "3,32768,1; 5,32768 [1,7]"),
        wrote("compare not contained 1 entries 0", ""),
        wrote("compare not contained 1 entries 1", "7,32768"),
        wrote(
            "compare not contained 2 entries 4",
            "7,32768 [1,7; 1,8; 7,2,3]",
        ),
        said("fit yes"),
        said("fit no"),
        wrote(
            "compare not contained 3 entries 3",
            "7,32768 [7,65535 [7,65535]]",
        ),
    ];
    check(&named::single_links()[15..35], &expected);
}

#[test]
fn second_items() {
    let expected = [
        said("specimen accepted 1"),
        said("specimen refused 9 input 1 place 1"),
        said("specimen refused 9 input 1 place 1"),
        said("specimen accepted 2"),
        said("specimen accepted 3"),
        said("specimen refused 9 input 1 place 4"),
        said("specimen accepted 4"),
        said("specimen refused 9 input 1 place 3"),
        said("specimen accepted 3"),
        said("specimen accepted 5"),
        // The group after three chains: of the top, of the next to last of the first chain, of the first of the third.
        said("specimen accepted 100"),
        said("specimen refused 9 input 1 place 100"),
        said("specimen refused 9 input 1 place 100"),
        said("fit refused 9 input 1 place 1"),
        said("fit refused 9 input 1 place 2"),
        said("fit refused 9 input 1 place 100"),
        // After 4, 5 and 6.
        said("specimen refused 4 input 1 place 1"),
        said("specimen refused 5 input 1 place 1"),
        said("specimen refused 6 input 1 place 34"),
        said("specimen refused 9 input 1 place 34"),
        said("specimen refused 9 input 1 place 2"),
        said("specimen refused 4 input 1 place 1"),
        said("specimen refused 2 input 1 place 2"),
        // Counted as before.
        said("fit yes"),
        said("fit no"),
        said("fit no"),
        said("fit yes"),
        said("fit yes"),
        said("fit no"),
    ];
    check(&named::single_links()[35..], &expected);
}

#[test]
fn desk() {
    let expected = [
        said("compare contained"),
        said("compare contained"),
        wrote("compare not contained 3 entries 2", "7,1 [7,2,1]"),
        said("fit yes"),
        said("fit no"),
        wrote("normal form 1", "4,1,0"),
        said("compare contained"),
        said("compare contained"),
        said("compare contained"),
        said("compare contained"),
        wrote("compare not contained 1 entries 1", "7,1,1"),
        said("fit yes"),
        said("fit no"),
        wrote("normal form 1", "6"),
        said("compare contained"),
        said("compare contained"),
        said("compare contained"),
        said("compare contained"),
        wrote("compare not contained 1 entries 1", "7,1,65535"),
        said("fit yes"),
        said("fit no"),
        wrote("compare not contained 1 entries 2", "1,7; 1,8"),
        said("fit yes"),
        said("fit no"),
        said("compare contained"),
        said("compare contained"),
        wrote("compare not contained 1 entries 0", ""),
        said("fit yes"),
        said("fit no"),
    ];
    check(&named::desk(), &expected);
}

/// The canonical graph: P, Q and at most 0 S by R; Q and at least 3 S by S.
fn figure_5() -> [Entry; 7] {
    [
        entry(5, 0, 1, 0),
        entry(5, 0, 2, 0),
        entry(1, 1, 1, 0),
        entry(1, 1, 2, 0),
        entry(4, 1, 2, 0),
        entry(1, 2, 2, 0),
        entry(3, 2, 2, 3),
    ]
}

/// D of the running example, whose graph no rule changes: P by R, Q by R and S, Q and at least
/// 1 S by S.
fn graph_of_d() -> [Entry; 7] {
    [
        entry(5, 0, 1, 0),
        entry(5, 0, 2, 0),
        entry(1, 1, 1, 0),
        entry(5, 1, 2, 0),
        entry(1, 2, 2, 0),
        entry(3, 2, 2, 1),
        entry(1, 4, 2, 0),
    ]
}

#[test]
fn report() {
    let expected = [
        said("description accepted 12"),
        said("description accepted 12"),
        said("description accepted 7"),
        wrote_entries("normal form 7", &figure_5()),
        wrote_entries("normal form 7", &figure_5()),
        wrote_entries("normal form 7", &figure_5()),
        wrote_entries("normal form 7", &graph_of_d()),
        said("compare contained"),
        said("compare contained"),
        said("compare contained"),
        said("compare contained"),
        said("compare contained"),
        // D does not ask for Q by R, which is entry 3 of C.
        wrote("compare not contained 3 entries 2", "7,1 [1,1]"),
        said("compare contained"),
        // D' asks nothing, and P by R is entry 2 of C'.
        wrote("compare not contained 2 entries 1", "7,1"),
        wrote("normal form 0", ""),
        said("compare contained"),
        said("compare contained"),
        said("compare contained"),
        said("compare contained"),
        wrote("normal form 3", "1,1; 5,1 [4,2,0]"),
        said("compare contained"),
    ];
    check(&named::report(), &expected);
}
