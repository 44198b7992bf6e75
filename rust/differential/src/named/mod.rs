//! Vectors of the cases that are proved, of each clause, and of the examples in the literature.

pub mod catalogue;
pub mod doubles;
pub mod drafting;
pub mod earning;
pub mod excluding;
pub mod failing;
pub mod hierarchy;
pub mod items;
pub mod missing;
pub mod naming;
pub mod narrowest;
pub mod sheets;
pub mod stored;

use reference::notation::{blocks, entry};
use reference::{encode, Entry};

use crate::damage::{seal, seal_first, seal_second};
use crate::exchange::exchange;
use crate::vectors::Vector;
use crate::{BLOCK, MOST_DESCRIPTION, MOST_SPECIMEN};

/// The comparison of two texts, with an output that is just long enough.
fn compare(c: &str, d: &str) -> Vector {
    compare_bytes(blocks(c), blocks(d))
}

/// The comparison, with an output that is just long enough.
fn compare_bytes(c: Vec<u8>, d: Vec<u8>) -> Vector {
    let output = c.len() + d.len();
    Vector::compare(c, d, output)
}

/// The normal form of a text, with an output that is just long enough.
fn normal_form(description: &str) -> Vector {
    normal_form_bytes(blocks(description))
}

/// The normal form, with an output that is just long enough.
fn normal_form_bytes(description: Vec<u8>) -> Vector {
    let output = description.len();
    Vector::normal_form(description, output)
}

/// The fit answer for two texts.
fn fit(specimen: &str, description: &str) -> Vector {
    Vector::fit(blocks(specimen), blocks(description))
}

/// Blocks of so many different properties, the largest name first.
fn properties(count: usize) -> Vec<u8> {
    let names = (1..=crate::word(count)).rev();
    encode(&names.map(|name| entry(1, 0, name, 0)).collect::<Vec<_>>())
}

/// So many entries of this kind, each owned by the one before, and then these with the last of them as owner.
fn chain(kind: u8, length: u16, then: &[u8]) -> Vec<u8> {
    let mut entries: Vec<Entry> = (0..length).map(|owner| entry(kind, owner, 1, 0)).collect();
    entries.extend(then.iter().map(|&kind| entry(kind, length, 7, 0)));
    encode(&entries)
}

/// The cases about limits: sizes, lengths, depths and outputs.
pub fn limits() -> Vec<Vector> {
    [sizes(), lengths(), depths(), outputs()].concat()
}

/// As many entries as are allowed, and one more; and as many, with a fault in the last block or entry.
fn sizes() -> Vec<Vector> {
    let full = properties(MOST_DESCRIPTION);
    let over = properties(MOST_DESCRIPTION + 1);
    let full_specimen = properties(MOST_SPECIMEN);
    vec![
        Vector::description(full.clone()),
        normal_form_bytes(full.clone()),
        compare_bytes(full.clone(), full.clone()),
        Vector::description(over.clone()),
        compare_bytes(blocks("1,7"), over.clone()),
        Vector::fit(blocks("1,7"), over),
        Vector::specimen(full_specimen.clone()),
        Vector::specimen(properties(MOST_SPECIMEN + 1)),
        Vector::description(in_last_block(full, |block| change(block, 511))),
        Vector::specimen(in_last_block(full_specimen.clone(), |block| {
            change(block, 508);
            seal_first(block);
        })),
        Vector::specimen(in_last_block(full_specimen.clone(), |block| {
            change(block, 0);
            seal(block);
        })),
        // Byte 500 is the kind of the last entry, which becomes 0.
        Vector::specimen(in_last_block(full_specimen, |block| {
            change(block, 500);
            seal(block);
        })),
    ]
}

/// The bytes with their last block changed.
fn in_last_block(mut bytes: Vec<u8>, change: fn(&mut [u8])) -> Vec<u8> {
    if let Some(block) = bytes.chunks_exact_mut(BLOCK).last() {
        change(block);
    }
    bytes
}

/// Changes the lowest bit of the byte at this place.
fn change(block: &mut [u8], at: usize) {
    if let Some(byte) = block.get_mut(at) {
        *byte ^= 1;
    }
}

/// Lengths of 0 and of a block but for one byte.
fn lengths() -> Vec<Vector> {
    let one = blocks("1,7");
    let mut vectors = Vec::new();
    for length in [0, BLOCK - 1, BLOCK + 1] {
        let mut bytes = one.clone();
        bytes.resize(length, 0);
        vectors.extend([
            Vector::description(bytes.clone()),
            Vector::specimen(bytes.clone()),
            Vector::fit(bytes.clone(), one.clone()),
            Vector::fit(one.clone(), bytes.clone()),
            Vector::normal_form(bytes.clone(), 2 * BLOCK),
            Vector::compare(bytes.clone(), one.clone(), 3 * BLOCK),
            Vector::compare(one.clone(), bytes, 3 * BLOCK),
        ]);
    }
    vectors
}

/// Depth 32: an 'every' or group that owns nothing, and a property. Depth 33: the same.
fn depths() -> Vec<Vector> {
    let description = |length, then| Vector::description(chain(5, length, then));
    let specimen = |length, then| Vector::specimen(chain(7, length, then));
    vec![
        description(33, &[]),
        description(32, &[1]),
        description(34, &[]),
        description(33, &[1]),
        specimen(33, &[]),
        specimen(32, &[1]),
        specimen(34, &[]),
        specimen(33, &[1]),
        normal_form_bytes(chain(5, 33, &[])),
        normal_form_bytes(chain(5, 32, &[1])),
        normal_form_bytes(chain(5, 33, &[1])),
        compare_bytes(chain(5, 32, &[1]), chain(5, 32, &[1, 2])),
        compare_bytes(blocks(""), chain(5, 33, &[1])),
        Vector::fit(chain(7, 32, &[1]), chain(5, 32, &[1])),
        Vector::fit(chain(7, 32, &[1]), chain(5, 32, &[2])),
        Vector::fit(chain(7, 33, &[1]), chain(5, 33, &[1])),
        Vector::fit(chain(7, 32, &[1]), chain(5, 33, &[1])),
    ]
}

/// Outputs one byte short, just long enough and one byte longer. A description of two blocks has a normal form of one, and its
/// output is too short all the same if it is not as long as the input. Bytes that are refused come before the output.
fn outputs() -> Vec<Vector> {
    let one = blocks("1,7");
    let two = encode(&[entry(1, 0, 7, 0); 64]);
    let both = 2 * BLOCK;
    let mut vectors = Vec::new();
    for output in [0, BLOCK - 1, BLOCK, BLOCK + 1] {
        vectors.push(Vector::normal_form(one.clone(), output));
    }
    for output in [BLOCK, both - 1, both, both + 1] {
        vectors.push(Vector::normal_form(two.clone(), output));
    }
    for output in [0, BLOCK, both - 1, both, both + 1] {
        vectors.push(Vector::compare(one.clone(), one.clone(), output));
        vectors.push(Vector::compare(blocks(""), one.clone(), output));
    }
    vectors.push(Vector::normal_form(blocks("7,1"), BLOCK - 1));
    vectors.push(Vector::compare(one, blocks("1,7; 7,1"), both - 1));
    vectors
}

/// The cases about the two checks of a block: each wrong alone, with the frame right or wrong, and entries exchanged.
pub fn checks() -> Vec<Vector> {
    [empty_block(), each_check(), checks_and_frame(), exchanges()].concat()
}

/// The empty block as it is now, which is also what the normal form writes; as it was without a second check; and with each check
/// one too high.
fn empty_block() -> Vec<Vector> {
    let block = |second, first| {
        let mut block = vec![0; BLOCK];
        (block[0], block[508], block[510]) = (1, second, first);
        block
    };
    vec![
        Vector::description(block(1, 2)),
        Vector::specimen(block(1, 2)),
        normal_form_bytes(block(1, 2)),
        Vector::description(block(0, 1)),
        Vector::specimen(block(0, 1)),
        Vector::description(block(2, 3)),
        Vector::description(block(1, 3)),
        Vector::description(block(2, 2)),
    ]
}

/// A check that is wrong in the second block, in each call and input. The first check covers the second, so that a second check
/// which is changed alone makes both wrong.
fn each_check() -> Vec<Vector> {
    let right = two_blocks();
    let one = blocks("1,7");
    let first = in_last_block(right.clone(), |block| change(block, 510));
    let second = in_last_block(right.clone(), |block| {
        change(block, 508);
        seal_first(block);
    });
    let high_byte = in_last_block(right.clone(), |block| {
        change(block, 509);
        seal_first(block);
    });
    let both = in_last_block(right.clone(), |block| change(block, 508));
    // The number of the last entry of block 1 is its word 254, the last that the second check counts.
    let last_word = in_first_block(right.clone(), |block| {
        change(block, 506);
        seal_first(block);
    });
    let new_word = in_first_block(right.clone(), |block| {
        change(block, 506);
        seal(block);
    });
    vec![
        Vector::description(right),
        Vector::description(first),
        Vector::description(second.clone()),
        Vector::description(high_byte),
        Vector::description(both),
        Vector::description(last_word),
        Vector::description(new_word),
        Vector::specimen(second.clone()),
        Vector::fit(second.clone(), one.clone()),
        Vector::fit(one.clone(), second.clone()),
        normal_form_bytes(second.clone()),
        compare_bytes(second.clone(), one.clone()),
        compare_bytes(one, second),
    ]
}

/// 63 at least, of which the last has number 256, and one property after them.
fn two_blocks() -> Vec<u8> {
    let mut entries = vec![entry(3, 0, 1, 1); 62];
    entries.extend([entry(3, 0, 1, 256), entry(1, 0, 7, 0)]);
    encode(&entries)
}

/// The bytes with their first block changed.
fn in_first_block(mut bytes: Vec<u8>, change: fn(&mut [u8])) -> Vec<u8> {
    change(&mut bytes[..BLOCK]);
    bytes
}

/// A block number, a used count and an unused entry that are wrong, each with both checks right for it, with a wrong second, with
/// a wrong first, and with both wrong. Then blocks and entries in turn.
fn checks_and_frame() -> Vec<Vector> {
    let faults: [fn(&mut [u8]); 3] = [
        |block| block[0] = 3,
        |block| block[2] = 64,
        |block| block[507] = 1,
    ];
    let sealed: [fn(&mut [u8]); 4] = [seal, seal_first, seal_second, |_| ()];
    let mut vectors = Vec::new();
    for fault in faults {
        for sealed in sealed {
            let mut bytes = two_blocks();
            fault(&mut bytes[BLOCK..]);
            sealed(&mut bytes[BLOCK..]);
            vectors.push(Vector::description(bytes));
        }
    }
    let wrong_second: fn(&mut [u8]) = |block| {
        change(block, 508);
        seal_first(block);
    };
    let wrong_number: fn(&mut [u8]) = |block| {
        change(block, 1);
        seal(block);
    };
    let wrong_kind: fn(&mut [u8]) = |block| {
        block[4] = 9;
        seal(block);
    };
    for (first, last) in [
        (wrong_number, wrong_second),
        (wrong_second, wrong_number),
        (wrong_kind, wrong_second),
    ] {
        let bytes = in_last_block(in_first_block(two_blocks(), first), last);
        vectors.push(Vector::description(bytes));
    }
    vectors
}

/// The description of this text with two of its entries exchanged, and nothing else.
fn exchanged(text: &str, one: usize, other: usize) -> Vec<u8> {
    let mut bytes = blocks(text);
    exchange(&mut bytes, one, other);
    bytes
}

/// So many properties 1, with at least 0 and at least so many at these two places, exchanged.
fn exchanged_among(
    entries: usize,
    (one, other): (usize, usize),
    kind: u8,
    difference: u16,
) -> Vec<u8> {
    let mut entries = vec![entry(1, 0, 1, 0); entries];
    entries[one - 1] = entry(kind, 0, 1, 0);
    entries[other - 1] = entry(kind, 0, 1, difference);
    let mut bytes = encode(&entries);
    exchange(&mut bytes, one, other);
    bytes
}

/// Two entries of one block exchanged: told by the second check unless the distance times the difference of the word sums is a
/// multiple of 16,384.
fn exchanges() -> Vec<Vector> {
    let mut vectors = vec![
        // Word sums 8 and 6.
        Vector::description(exchanged("1,7; 3,1,2", 1, 2)),
        // Word sums 9 and 9: another description, and its normal form.
        Vector::description(exchanged("1,8; 2,7", 1, 2)),
        normal_form_bytes(exchanged("1,8; 2,7", 1, 2)),
        // Word sums 10 and 9.
        Vector::description(exchanged("1,9; 2,7", 1, 2)),
        // Word sums 6 and 6: the blocks pass, and the owner stands after what it owns.
        Vector::description(exchanged("5,1 [1,4]", 1, 2)),
        // Word sums 8, 8 and 10, in each call and input.
        Vector::specimen(exchanged("1,7; 7,1; 7,1,2", 1, 2)),
        Vector::specimen(exchanged("1,7; 7,1; 7,1,2", 2, 3)),
        Vector::fit(exchanged("1,7; 7,1,2", 1, 2), blocks("1,7")),
        Vector::fit(blocks("1,7"), exchanged("1,7; 3,1,2", 1, 2)),
        normal_form_bytes(exchanged("1,7; 3,1,2", 1, 2)),
        compare_bytes(exchanged("1,7; 3,1,2", 1, 2), blocks("1,7")),
        compare_bytes(blocks("1,7"), exchanged("1,7; 3,1,2", 1, 2)),
    ];
    // Distances 1, 2, 3, 32 and 62 in a block of 63, and 62 in a second one.
    for (entries, two, least) in [
        (63, (1, 2), 16_384),
        (63, (62, 60), 8_192),
        (63, (7, 10), 16_384),
        (63, (20, 52), 512),
        (63, (1, 63), 8_192),
        (126, (126, 64), 8_192),
    ] {
        for difference in [least - 1, least, least + 1, 2 * least, 3 * least] {
            let bytes = exchanged_among(entries, two, 3, difference);
            vectors.push(Vector::description(bytes));
        }
    }
    for difference in [16_383, 16_384, 16_385] {
        let bytes = exchanged_among(2, (1, 2), 7, difference);
        vectors.push(Vector::specimen(bytes));
    }
    vectors
}

/// The cases of links that lead to one item only, which are those from 32,768 up: what is impossible, what is always met, what
/// stays, what a specimen may not have, and what is as it was.
pub fn single_links() -> Vec<Vector> {
    [
        more_than_one(),
        always_met(),
        one_or_none(),
        second_items(),
        order_of_9(),
        counted_as_before(),
    ]
    .concat()
}

/// At least 2 of such a link: no reader refuses it, its place is impossible, and so on upward.
fn more_than_one() -> Vec<Vector> {
    vec![
        Vector::description(blocks("3,32768,2; 3,65535,65535; 5,40000 [3,50000,9]")),
        normal_form("3,32768,2"),
        normal_form("3,65535,65535"),
        normal_form("3,32767,2"),
        normal_form("3,32768,2; 4,32768,5"),
        normal_form("5,1 [3,32768,2]; 1,8"),
        normal_form("5,32768 [3,32768,2]; 5,32768 [1,7]"),
        normal_form("5,1 [3,32768,1; 5,32768 [3,2,1; 5,2 [3,65535,2]]]"),
        normal_form("5,1 [5,32768 [3,2,1; 5,2 [3,65535,2]]]"),
        normal_form("3,32768,1; 5,32768 [6]"),
        compare("3,32768,2", "6"),
        compare("5,1 [3,32768,2]", "4,1,0"),
        compare("4,1,0", "5,1 [3,32768,2]"),
        compare("", "3,32768,2"),
        compare("3,32768,1", "3,32768,2"),
    ]
}

/// At most 1 or more of such a link: no normal form has it, and it holds, also where nothing is said of its place.
fn always_met() -> Vec<Vector> {
    vec![
        normal_form("4,32768,1"),
        normal_form("4,65535,65535"),
        normal_form("4,32767,1"),
        normal_form("4,32768,1; 4,32768,0; 5,32768 [1,7]"),
        normal_form("3,32768,1; 4,32768,1"),
        normal_form("4,32768,1; 5,32768 [1,7]"),
        normal_form("5,1 [5,32768 [4,40000,9]]; 1,7"),
        normal_form_bytes(encode(&[entry(4, 0, 32_768, 1); 64])),
        compare("", "4,32768,1"),
        compare("1,7", "5,9 [5,32768 [4,65535,65535]]"),
        compare("4,32768,0", "4,32768,1"),
        compare("", "4,32767,1"),
    ]
}

/// At least 1 and at most 0 say something. A specimen has one item by such a link or none.
fn one_or_none() -> Vec<Vector> {
    let c = "3,32768,1; 5,32768 [3,2,4; 1,7]";
    let d = "5,32768 [2,8]";
    vec![
        normal_form("4,32768,0"),
        normal_form("5,32768 [1,7]; 3,32768,1"),
        compare("", "3,32768,1"),
        compare("4,32768,1", "4,32768,0"),
        compare(c, d),
        fit("7,32768 [1,7; 1,8; 7,2,3]", c),
        fit("7,32768 [1,7; 1,8; 7,2,3]", d),
        compare("5,32768 [3,65535,1]", "5,32768 [5,65535 [4,65535,0]]"),
    ]
}

/// Reading of a specimen.
fn specimen(text: &str) -> Vector {
    Vector::specimen(blocks(text))
}

/// Three chains of such groups below groups of four, and then one more group with this owner.
fn chains(owner: u16) -> Vec<u8> {
    let mut entries = Vec::new();
    for _ in 0..3 {
        let first = crate::word(entries.len());
        entries.push(entry(7, 0, 1, 3));
        entries.extend((1..=32).map(|step| entry(7, first + step, 32_768, 0)));
    }
    entries.push(entry(7, owner, 32_768, 0));
    encode(&entries)
}

/// Groups that bring their owner a second item by such a link, and groups that just do not: the items of one owner's groups by
/// one link add up, whatever the owner's own number.
fn second_items() -> Vec<Vector> {
    vec![
        specimen("7,32768"),
        specimen("7,32768,1"),
        specimen("7,65535,65535"),
        specimen("7,32767,65535; 7,32767,65535"),
        specimen("7,32768; 7,32769; 7,65535"),
        specimen("7,32768; 1,7; 7,32769; 7,32768"),
        specimen("7,1,3 [7,32768]; 7,1 [7,32768]"),
        specimen("7,1,3 [7,32768; 7,32768]"),
        specimen("7,32768 [7,32768 [7,32768]]"),
        specimen("1,32768; 1,32768; 7,32768 [1,32768; 1,32768]"),
        Vector::specimen(chains(0)),
        Vector::specimen(chains(32)),
        Vector::specimen(chains(67)),
        fit("7,32768,1", ""),
        fit("7,32768; 7,32768", "8"),
        Vector::fit(chains(1), Vec::new()),
    ]
}

/// After 4, 5 and 6 at one entry; the lowest entry decides, and blocks come before entries.
fn order_of_9() -> Vec<Vector> {
    let two = entry(7, 0, 32_768, 1);
    let chain: Vec<Entry> = (0..33).map(|owner| entry(7, owner, 32_768, 0)).collect();
    let then = |last: Entry| Vector::specimen(encode(&[&chain[..], &[last]].concat()));
    vec![
        Vector::specimen(encode(&[Entry { zero: 1, ..two }])),
        Vector::specimen(encode(&[Entry { owner: 1, ..two }])),
        then(Entry { owner: 33, ..two }),
        then(Entry { owner: 32, ..two }),
        specimen("7,32768; 7,32768; 9"),
        specimen("9; 7,32768,1"),
        Vector::specimen(in_last_block(chains(32), |block| change(block, 508))),
    ]
}

/// The fit answer counts, and foresees nothing.
fn counted_as_before() -> Vec<Vector> {
    vec![
        fit("7,32768", "3,32768,1; 4,32768,1"),
        fit("7,32768", "3,32768,2"),
        fit("7,32768", "4,32768,0"),
        fit("", "4,32768,0; 5,32768 [6]"),
        fit("7,1,3 [7,32768 [1,7]]", "5,1 [5,32768 [1,7]]"),
        fit("7,1,3 [7,32768 [1,7]]", "5,1 [5,32768 [2,7]]"),
    ]
}

/// The cases that are proved (C16), each normal form before what it is compared with, and after a specimen that is
/// named what it fits.
pub fn desk() -> Vec<Vector> {
    vec![
        compare("", ""),
        compare("1,7", "1,7"),
        compare("5,1 [3,2,1]", "5,1 [3,2,1; 4,2,1]"),
        fit("7,1 [7,2,1]", "5,1 [3,2,1]"),
        fit("7,1 [7,2,1]", "5,1 [3,2,1; 4,2,1]"),
        normal_form("5,1 [5,2 [6]; 3,2,1]"),
        compare("5,1 [5,2 [6]; 3,2,1]", "5,1 [1,9]"),
        compare("", "5,3 [3,1,0]"),
        compare("", "5,1 []"),
        compare("3,1,2; 4,1,2", "3,1,2"),
        compare("3,1,2; 4,1,2", "3,1,3"),
        fit("7,1,1", "3,1,2; 4,1,2"),
        fit("7,1,1", "3,1,3"),
        normal_form("3,1,3; 4,1,2"),
        compare("3,1,3; 4,1,2", ""),
        compare("3,1,3; 4,1,2", "6"),
        compare("3,1,3; 4,1,2", "1,1; 2,1"),
        compare("3,1,3; 4,1,2", "5,1 [6]; 3,1,9"),
        compare("", "4,1,65535"),
        fit("7,1,65535", ""),
        fit("7,1,65535", "4,1,65535"),
        compare("1,7", "2,8"),
        fit("1,7; 1,8", "1,7"),
        fit("1,7; 1,8", "2,8"),
        compare("4,1,0", "5,1 [6]"),
        compare("5,1 [6]", "4,1,0"),
        compare("", "6"),
        fit("", ""),
        fit("", "6"),
    ]
}

/// C of Molitor's running example, where 'for all S > ((' is read as 'for all S.((', as its graph has it.
///
/// Here and below P is property 1 and Q property 2, R is link 1 and S link 2.
const C_7: &str = "5,1 [1,1; 1,2; 5,2 [3,2,1; 5,2 [1,2; 2,2]]]; 5,2 [1,2]; 5,2 [3,2,3]";
/// D of Molitor's running example.
const D_7: &str = "5,1 [1,1; 5,2 [1,2]]; 5,2 [1,2; 3,2,1]";
/// The canonical graph of C, which the rules come to.
const C_11: &str = "5,1 [1,1; 1,2; 4,2,0]; 5,2 [1,2; 3,2,3]";
/// C' of Molitor's example on at least 0.
const C_15: &str = "5,1 [1,1]";
/// D' of that example.
const D_15: &str = "5,2 [3,1,0]";

/// The graph of C node by node, v1, v4 and v5 first: the same entries as in C, in another order.
fn graph_of_c() -> Vec<u8> {
    encode(&[
        entry(5, 0, 1, 0),
        entry(5, 0, 2, 0),
        entry(5, 0, 2, 0),
        entry(1, 1, 1, 0),
        entry(1, 1, 2, 0),
        entry(5, 1, 2, 0),
        entry(1, 2, 2, 0),
        entry(3, 3, 2, 3),
        entry(3, 6, 2, 1),
        entry(5, 6, 2, 0),
        entry(1, 10, 2, 0),
        entry(2, 10, 2, 0),
    ])
}

/// Molitor's examples, with the pairs that his text speaks of and these exchanged, and the examples of its Sections 5
/// and 6 that have no number.
pub fn report() -> Vec<Vector> {
    vec![
        // The running example and its canonical graph.
        Vector::description(blocks(C_7)),
        Vector::description(graph_of_c()),
        Vector::description(blocks(D_7)),
        normal_form(C_7),
        normal_form_bytes(graph_of_c()),
        normal_form(C_11),
        normal_form(D_7),
        compare(C_7, C_11),
        compare(C_11, C_7),
        // C is contained in D, by the canonical graph of C.
        compare(C_7, D_7),
        compare_bytes(graph_of_c(), blocks(D_7)),
        compare(C_11, D_7),
        compare(D_7, C_7),
        // C' is contained in D', and D' is fitted by all items.
        compare(C_15, D_15),
        compare(D_15, C_15),
        normal_form(D_15),
        compare("", D_15),
        compare(D_15, ""),
        // 'For all R.(P and not P)' is 'at most 0 R', also below a link.
        compare("5,1 [1,1; 2,1]", "4,1,0"),
        compare("4,1,0", "5,1 [1,1; 2,1]"),
        normal_form("1,1; 5,1 [4,2,0; 5,2 [1,2]]"),
        // The canonical graph's node by R is more specific than P and at most 1 S.
        compare("1,1; 1,2; 4,2,0", "1,1; 4,2,1"),
    ]
}
