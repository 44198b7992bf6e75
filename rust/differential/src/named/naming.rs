//! Vectors of the statements on named descriptions.

use reference::notation::{blocks, entry};
use reference::{encode, Entry};

use super::{compare, compare_bytes, fit, normal_form};
use crate::damage::{seal, seal_first};
use crate::excluding::Given;
use crate::naming::{chain, laid, named, MOST_NAMES};
use crate::vectors::Vector;
use crate::{length_of, word, BLOCK, MOST_DEPTH, MOST_DESCRIPTION};

/// All of them, in the order of the statements.
pub fn all() -> Vec<Vector> {
    [
        dictionaries(),
        wrong_dictionaries(),
        order(),
        named_entries(),
        names(),
        takers(),
        too_much(),
        unfolding(),
        chains(),
        as_unfolded(),
        outputs_by_unfolded(),
        outputs_of_unfold(),
        meaning(),
    ]
    .concat()
}

/// The blocks of these texts, end to end.
pub(super) fn dictionary(texts: &[&str]) -> Vec<u8> {
    texts.iter().flat_map(|text| blocks(text)).collect()
}

/// The unfolding, with an output for the longest description.
fn unfold_bytes(description: Vec<u8>) -> Vector {
    Vector::unfold(description, length_of(MOST_DESCRIPTION))
}

/// The unfolding of a text, with an output of two blocks.
fn unfold(description: &str) -> Vector {
    Vector::unfold(blocks(description), 2 * BLOCK)
}

/// The unfolding of these entries, with an output of two blocks.
fn unfold_entries(entries: &[Entry]) -> Vector {
    Vector::unfold(encode(entries), 2 * BLOCK)
}

/// The vectors with this dictionary.
pub(super) fn with(dictionary: &[u8], vectors: Vec<Vector>) -> Vec<Vector> {
    let each = vectors.into_iter();
    each.map(|vector| vector.with(dictionary)).collect()
}

/// Each call that takes a dictionary, on inputs that are refused as 1 and an output of length 0.
fn on_no_inputs(dictionary: &[u8]) -> Vec<Vector> {
    let calls = vec![
        Vector::fit(Vec::new(), Vec::new()),
        Vector::normal_form(Vec::new(), 0),
        Vector::compare(Vec::new(), Vec::new(), 0),
        Vector::unfold(Vec::new(), 0),
    ];
    with(dictionary, calls)
}

/// Each call that takes a dictionary, on this description as each of its inputs.
fn in_each_input(dictionary: &[u8], d: &[u8]) -> Vec<Vector> {
    let (good, both) = (blocks("1,7"), 2 * length_of(MOST_DESCRIPTION));
    let calls = vec![
        Vector::fit(good.clone(), d.to_vec()),
        Vector::normal_form(d.to_vec(), both),
        Vector::compare(d.to_vec(), good.clone(), both),
        Vector::compare(good, d.to_vec(), both),
        unfold_bytes(d.to_vec()),
    ];
    with(dictionary, calls)
}

/// The block of one property, with this number and right checks.
pub(super) fn numbered(number: u16) -> Vec<u8> {
    let mut block = blocks("1,7");
    block[..2].copy_from_slice(&number.to_le_bytes());
    seal(&mut block);
    block
}

/// So many properties 7, and then property 8.
fn properties(count: usize) -> Vec<Entry> {
    let mut entries = vec![entry(1, 0, 7, 0); count];
    entries.push(entry(1, 0, 8, 0));
    entries
}

/// What a dictionary may be: nothing; up to 64 descriptions, of one block and of several.
pub fn dictionaries() -> Vec<Vector> {
    let two_blocks = encode(&properties(63));
    let three = [blocks("1,7"), two_blocks, blocks("2,8")].concat();
    let most = [blocks("1,7").repeat(MOST_NAMES - 1), blocks("2,9")].concat();
    vec![
        unfold("1,8"),
        unfold("").with(&blocks("1,7")),
        unfold("9,1").with(&blocks("1,7")),
        unfold("9,1; 9,3").with(&three),
        unfold("9,2").with(&three),
        unfold("9,64; 9,63").with(&most),
    ]
}

/// What is refused of a dictionary: its length, more than 64, and then each description in full before the next, named or not.
pub fn wrong_dictionaries() -> Vec<Vector> {
    let one = blocks("1,7");
    let mut vectors: Vec<Vector> = [1, 511, 513]
        .iter()
        .flat_map(|&length| {
            let mut bytes = one.clone();
            bytes.resize(length, 0);
            on_no_inputs(&bytes)
        })
        .collect();
    let many = one.repeat(MOST_NAMES + 1);
    let first_bad = [blocks("8"), one.repeat(MOST_NAMES)].concat();
    let with_a_part = [&many[..], &[1]].concat();
    let long = encode(&vec![entry(1, 0, 7, 0); MOST_DESCRIPTION + 1]);
    let full = encode(&[entry(1, 0, 7, 0); 63]);
    let mut wrong_check = blocks("1,7");
    wrong_check[508] ^= 1;
    seal_first(&mut wrong_check);
    let deep = [chain(MOST_DEPTH + 1), vec![entry(1, 33, 7, 0)]].concat();
    let too_much = [encode(&[entry(1, 0, 7, 0); 2]), encode(&[named(0, 1); 505])].concat();
    vectors.push(compare("1,7", "1,7").with(&many));
    vectors.extend(
        [
            many,
            first_bad,
            with_a_part,
            [one.clone(), long].concat(),
            // The first block begins a description whatever its number is.
            numbered(2),
            // A later block belongs to the description before it, unless its number is 1.
            [&full[..], &numbered(3)].concat(),
            [&full[..], &numbered(1), &numbered(2)].concat(),
            [&one[..], &one, &wrong_check].concat(),
            dictionary(&["1,7", "1,8; 8", "1,9"]),
            dictionary(&["1,7", "1,8; 7,1", "1,9"]),
            [one.clone(), encode(&[entry(1, 0, 8, 0), entry(1, 1, 7, 0)])].concat(),
            encode(&deep),
            [&too_much[..], &blocks("8")].concat(),
            [blocks("1,7; 9,1"), too_much].concat(),
            [&one[..], &blocks("8"), &wrong_check].concat(),
        ]
        .map(|dictionary| unfold("1,7").with(&dictionary)),
    );
    vectors
}

/// 11, then the dictionary, then input 1 and input 2 in full, then the output.
pub fn order() -> Vec<Vector> {
    let (right, wrong) = (dictionary(&["1,7", "", "1,8"]), blocks("9,1"));
    let given = |pairs: &[(u16, u16)], dictionary: &[u8]| Given {
        dictionary: dictionary.to_vec(),
        ..Given::pairs(pairs)
    };
    let mut vectors: Vec<Vector> = on_no_inputs(&[])
        .into_iter()
        .take(3)
        .map(|vector| vector.given(given(&[(7, 7)], &wrong)))
        .collect();
    vectors.extend(on_no_inputs(&wrong));
    vectors.extend(on_no_inputs(&right));
    let too_much = encode(&[named(0, 1); MOST_DESCRIPTION]);
    let over = [&too_much[..], &blocks("1,7")].concat();
    vectors.extend(with(
        &dictionary(&["1,7; 1,7"]),
        vec![
            Vector::compare(too_much.clone(), blocks("8"), 0),
            Vector::compare(blocks("9,2"), too_much.clone(), 0),
            Vector::compare(blocks("9,1"), too_much, 0),
            Vector::compare(blocks("9,1"), blocks("9,2"), 0),
            Vector::compare(blocks("9,1"), over, 0),
            Vector::compare(blocks("9,1"), blocks("9,1"), 0),
        ],
    ));
    // The specimen between the dictionary and the description.
    vectors.extend([
        fit("7,1,2; 8", "9,4").with(&right),
        fit("1,7; 1,8", "9,4").given(given(&[(7, 8)], &right)),
        fit("1,7", "9,4").given(given(&[(7, 8)], &right)),
        fit("1,7", "9,1").given(given(&[(7, 8)], &right)),
        fit("8", "9,1").with(&wrong),
    ]);
    vectors
}

/// The form of a named entry: 4 before 13, 13 before 5 and 6, and nothing is owned by one; the lowest entry decides.
pub fn named_entries() -> Vec<Vector> {
    let right = dictionary(&["1,7", "", "5,1"]);
    let zero = Entry {
        zero: 1,
        ..named(0, 1)
    };
    let at_depth = |depth: usize, name| {
        let mut entries = chain(MOST_DEPTH + 1);
        entries.push(named(word(depth), name));
        entries
    };
    let mut vectors: Vec<Vector> = [
        vec![entry(9, 0, 1, 1)],
        vec![entry(9, 0, 0, 65_535)],
        vec![entry(9, 0, 9, 256)],
        vec![zero],
        vec![entry(1, 0, 7, 0), entry(9, 9, 9, 9)],
        vec![named(9, 9)],
        vec![named(9, 1)],
        vec![named(1, 1)],
        at_depth(33, 9),
        at_depth(33, 1),
        // It stands for nothing, and stands too deep all the same.
        at_depth(33, 2),
        at_depth(32, 1),
        // Owned by what stands for a property, for nothing and for an 'every'.
        vec![named(0, 1), entry(1, 1, 7, 0)],
        vec![named(0, 2), entry(1, 1, 7, 0)],
        vec![named(0, 3), entry(1, 1, 7, 0)],
        vec![named(0, 3), named(1, 1)],
        vec![named(0, 4), entry(8, 0, 1, 0)],
        vec![entry(8, 0, 1, 0), named(0, 4)],
        vec![entry(1, 2, 7, 0), named(0, 4)],
    ]
    .iter()
    .map(|entries| unfold_entries(entries).with(&right))
    .collect();
    vectors.extend(in_each_input(&right, &blocks("1,7; 9,1,1")));
    vectors
}

/// 13: a name of 0, above the count, and in the dictionary one that is not earlier.
pub fn names() -> Vec<Vector> {
    let right = dictionary(&["1,7", "1,8"]);
    let mut vectors: Vec<Vector> = [0, 3, 257, 258, 65_535]
        .iter()
        .map(|&name| unfold_entries(&[named(0, 1), named(0, 2), named(0, name)]).with(&right))
        .collect();
    vectors.extend(in_each_input(&right, &blocks("1,7; 5,1 [9,3]")));
    for name in 0..=4 {
        let text = format!("1,7; 9,{name}");
        vectors.push(unfold("9,3").with(&dictionary(&["1,9", &text, "9,2"])));
    }
    vectors
}

/// The readers take no dictionary: kind 9 is 4 there, and so in a specimen. The others take one; of length 0 it has no names.
pub fn takers() -> Vec<Vector> {
    let right = dictionary(&["1,7"]);
    let mut vectors = vec![
        Vector::description(blocks("1,7; 9,1")).with(&right),
        Vector::specimen(blocks("1,7; 9,1")).with(&right),
        Vector::description(blocks("9,1")),
        fit("1,7; 9,1", "9,1").with(&right),
        fit("9,1", "9,1"),
    ];
    vectors.extend(in_each_input(&right, &blocks("9,1")));
    vectors.extend(in_each_input(&[], &blocks("1,7; 9,1")));
    vectors.extend(in_each_input(&[], &blocks("9,1,1")));
    vectors.push(compare("9,1", "9,1").under(&[(7, 8)]));
    vectors
}

/// 14: 1,008 entries and depth 32 once unfolded, and one more; after all else of that input, at place 0.
pub fn too_much() -> Vec<Vector> {
    let right = laid(&[
        vec![entry(1, 0, 7, 0); 16],
        chain(17),
        vec![],
        vec![named(0, 3); 2],
    ]);
    let below = |outer: usize, name| {
        let mut entries = chain(outer);
        entries.push(named(word(outer), name));
        entries
    };
    let full = vec![named(0, 1); 63];
    let more = |last| [&full[..], &[last]].concat();
    let mut vectors: Vec<Vector> = [
        full.clone(),
        more(entry(1, 0, 8, 0)),
        more(named(0, 1)),
        more(named(0, 4)),
        more(entry(8, 0, 1, 0)),
        below(16, 2),
        below(17, 2),
        below(32, 1),
        below(32, 2),
        // Names of nothing add no depth.
        below(32, 4),
        [below(17, 2), vec![named(0, 5)]].concat(),
    ]
    .iter()
    .map(|entries| unfold_bytes(encode(entries)).with(&right))
    .collect();
    vectors.extend(in_each_input(&right, &encode(&below(17, 2))));
    let million = encode(&vec![named(0, 1); MOST_DESCRIPTION]);
    let largest = encode(&vec![entry(1, 0, 7, 0); MOST_DESCRIPTION]);
    vectors.push(unfold_bytes(million).with(&largest));
    // In the dictionary, also of a description that is not named.
    let third = [&right[..], &encode(&below(17, 2)), &blocks("8")].concat();
    vectors.extend(on_no_inputs(&third));
    vectors
}

/// Contents in the place of their name, in their order: their top entries get its owner, later numbers shift, and a name of an empty
/// description vanishes.
pub fn unfolding() -> Vec<Vector> {
    let core = "1,7; 5,2 [2,8; 5,3]";
    let right = dictionary(&[core, "", "9,2; 5,4 [9,1; 9,2; 1,9]", "9,2; 9,2", "9,3; 9,1"]);
    let mut vectors: Vec<Vector> = [
        "9,1",
        "9,2",
        "9,4; 9,2; 9,4",
        "1,5; 9,1; 1,6",
        "9,2; 5,1 [9,2; 1,6; 9,4]; 9,2; 5,6 [1,5]",
        "5,1 [9,1; 1,6]; 5,6 [9,1]",
        "9,1; 9,1",
        "9,3",
        "5,1 [5,1 [9,3]]; 1,5",
        "9,5",
    ]
    .iter()
    .map(|text| unfold(text).with(&right))
    .collect();
    // Nothing is named: the blocks as they came.
    vectors.push(unfold(core).with(&right));
    vectors.push(unfold_entries(&properties(63)).with(&right));
    // An owner far before a name, and owners after it.
    let mut entries = vec![entry(5, 0, 1, 0)];
    entries.extend([entry(1, 1, 7, 0); 60]);
    entries.extend([named(1, 1), entry(5, 1, 9, 0), named(63, 1), named(0, 1)]);
    entries.push(entry(1, 63, 6, 0));
    vectors.push(unfold_entries(&entries).with(&right));
    vectors
}

/// Names of names: chains of empty ones that are named many times, names that double, and one property behind 64.
pub fn chains() -> Vec<Vector> {
    let chain_of = |first: &str, next: fn(u16) -> Vec<Entry>, count: usize| {
        let mut bytes = blocks(first);
        for name in 1..word(count) {
            bytes.extend(encode(&next(name)));
        }
        bytes
    };
    let many = chain_of("", |name| vec![named(0, name); MOST_DESCRIPTION], 5);
    let twice = |first, count| chain_of(first, |name| vec![named(0, name); 2], count);
    let every = chain_of("1,7", |name| vec![entry(5, 0, name, 0), named(1, name)], 34);
    vec![
        unfold_entries(&vec![named(0, 5); MOST_DESCRIPTION]).with(&many),
        unfold_entries(&[named(0, 64); 64]).with(&twice("", 64)),
        // 512 properties, and 512 twice.
        unfold_bytes(blocks("9,10")).with(&twice("1,7", 10)),
        unfold_bytes(blocks("9,10; 9,10")).with(&twice("1,7", 10)),
        unfold_bytes(blocks("1,7")).with(&twice("1,7", 11)),
        // Each below an 'every' of the one before: depth 32, and 33.
        unfold_bytes(blocks("9,33")).with(&every[..33 * BLOCK]),
        unfold_bytes(blocks("5,9 [9,32]")).with(&every[..33 * BLOCK]),
        unfold_bytes(blocks("5,9 [9,33]")).with(&every[..33 * BLOCK]),
        unfold_bytes(blocks("1,7")).with(&every),
        unfold("5,1 [9,64]").with(&chain_of("1,7", |name| vec![named(0, name)], 64)),
    ]
}

/// Each call on descriptions that name others, and then on the same unfolded, with no dictionary: one line, but for its number. The
/// entry that fails is counted in what is unfolded.
pub fn as_unfolded() -> Vec<Vector> {
    let right = dictionary(&["1,7; 2,8", "", "5,1 [9,1; 3,2,1]"]);
    let list = &[(7, 9)];
    let mut vectors = Vec::new();
    for (c, d, plain_c, plain_d) in [
        ("9,1", "9,2; 9,1; 1,9", "1,7; 2,8", "1,7; 2,8; 1,9"),
        (
            "9,3",
            "5,1 [9,1; 4,2,0]",
            "5,1 [1,7; 2,8; 3,2,1]",
            "5,1 [1,7; 2,8; 4,2,0]",
        ),
        (
            "9,3; 9,1",
            "9,1; 9,3",
            "5,1 [1,7; 2,8; 3,2,1]; 1,7; 2,8",
            "1,7; 2,8; 5,1 [1,7; 2,8; 3,2,1]",
        ),
        ("9,1; 9,1", "2,9", "1,7; 2,8; 1,7; 2,8", "2,9"),
    ] {
        for (c, d, dictionary) in [(c, d, &right[..]), (plain_c, plain_d, &[])] {
            vectors.extend([
                compare(c, d).with(dictionary),
                compare(c, d).under(list).with(dictionary),
                normal_form(c).with(dictionary),
                fit("1,7; 7,1 [1,7; 7,2]", c).with(dictionary),
                fit("1,7; 7,1 [1,7; 7,2]", d).under(list).with(dictionary),
            ]);
        }
    }
    vectors
}

/// 7 by the lengths of what is unfolded; the limit of 16 blocks by what is sent.
pub fn outputs_by_unfolded() -> Vec<Vector> {
    let right = laid(&[vec![entry(1, 0, 7, 0); 20], vec![]]);
    let (longer, shorter) = (blocks("9,1; 9,1; 9,1; 9,1"), encode(&[named(0, 2); 64]));
    let mut vectors = Vec::new();
    for output in [BLOCK, 2 * BLOCK - 1, 2 * BLOCK, 2 * BLOCK + 1] {
        vectors.push(Vector::normal_form(longer.clone(), output));
    }
    for output in [BLOCK - 1, BLOCK] {
        vectors.push(Vector::normal_form(shorter.clone(), output));
    }
    for output in [2 * BLOCK, 3 * BLOCK - 1, 3 * BLOCK] {
        vectors.push(Vector::compare(longer.clone(), shorter.clone(), output));
        vectors.push(Vector::compare(shorter.clone(), longer.clone(), output));
    }
    let sixteen = encode(&vec![named(0, 2); MOST_DESCRIPTION]);
    let seventeen = encode(&vec![named(0, 2); MOST_DESCRIPTION + 1]);
    vectors.extend([
        Vector::normal_form(sixteen, BLOCK),
        Vector::normal_form(seventeen.clone(), BLOCK),
        Vector::unfold(seventeen, BLOCK),
    ]);
    with(&right, vectors)
}

/// 7 of the unfolding exactly where the output is shorter than what it writes, after all else; later bytes stay.
pub fn outputs_of_unfold() -> Vec<Vector> {
    let right = laid(&[vec![entry(1, 0, 7, 0); 32], vec![]]);
    let mut vectors = Vec::new();
    for (text, needed) in [
        ("9,1; 9,1", 2 * BLOCK),
        ("9,1", BLOCK),
        ("9,2", BLOCK),
        ("1,7", BLOCK),
    ] {
        for output in [0, needed - 1, needed, needed + 1] {
            vectors.push(Vector::unfold(blocks(text), output));
        }
    }
    let many = encode(&[named(0, 2); 64]);
    vectors.extend([
        Vector::unfold(many.clone(), BLOCK - 1),
        Vector::unfold(many, BLOCK),
        Vector::unfold(blocks("9,1; 9,3"), 0),
        Vector::unfold(encode(&[named(0, 1); 32]), 0),
        Vector::unfold(Vec::new(), 0),
    ]);
    let mut vectors = with(&right, vectors);
    vectors.push(Vector::unfold(blocks("1,7"), BLOCK - 1));
    vectors.push(Vector::unfold(blocks("1,7"), BLOCK));
    vectors
}

/// An item meets a named entry exactly if it fits that description, at each place; and a description and what it unfolds to contain
/// each other.
pub fn meaning() -> Vec<Vector> {
    let right = dictionary(&["1,7; 2,8", "5,1 [9,1]; 3,1,2", "6"]);
    let vectors = vec![
        fit("1,7", "9,1"),
        fit("1,7; 1,8", "9,1"),
        fit("1,8", "9,1"),
        fit("7,1,1 [1,7]", "9,2"),
        fit("7,1 [1,7]", "9,2"),
        fit("7,1,1 [1,7; 1,8]", "9,2"),
        fit("7,2 [7,1,1 [1,7]]; 1,8", "5,2 [9,2]; 1,8"),
        fit("7,2 [7,1,1 [1,7]; 7,1]; 1,8", "5,2 [9,2]; 1,8"),
        fit("", "5,2 [9,3]"),
        fit("7,2", "5,2 [9,3]"),
        compare("9,2", "5,1 [1,7; 2,8]; 3,1,2"),
        compare("5,1 [1,7; 2,8]; 3,1,2", "9,2"),
        compare("5,1 [9,1]", "9,2"),
        compare("9,3", "9,2"),
        compare_bytes(blocks("9,1"), blocks("9,1")),
    ];
    with(&right, vectors)
}
