//! The calls on what is written in the notation of the desk examples.

pub use reference::notation::{blocks, entries, entry};
use reference::{compare_with, encode, normal_with, unfold, Comparison, Entry, Refusal};

/// The value that fills outputs before a call.
pub const FILL: u8 = 0xA5;

#[test]
fn the_notation() {
    assert_eq!(entries(""), []);
    assert_eq!(
        entries("5,1 [5,2 [6]; 3,2,1]; 5,1 []; 1,9"),
        [
            entry(5, 0, 1, 0),
            entry(5, 1, 2, 0),
            entry(6, 2, 0, 0),
            entry(3, 1, 2, 1),
            entry(5, 0, 1, 0),
            entry(1, 0, 9, 0),
        ]
    );
}

/// The bytes of a list of excluding pairs.
pub fn list(pairs: &[(u16, u16)]) -> Vec<u8> {
    let words = pairs.iter().flat_map(|&(one, other)| [one, other]);
    words.flat_map(u16::to_le_bytes).collect()
}

/// The bytes of a list of descriptions laid end to end.
pub fn laid_end_to_end(descriptions: &[Vec<Entry>]) -> Vec<u8> {
    descriptions.iter().flat_map(|d| encode(d)).collect()
}

/// As `laid_end_to_end`, for texts.
pub fn dictionary(texts: &[&str]) -> Vec<u8> {
    texts.iter().flat_map(|text| blocks(text)).collect()
}

/// Calls the unfolding with the longest output that is ever needed and some
/// more, checks the number answered and the bytes that stay, and answers the
/// entries.
pub fn unfolded(dict: &[u8], description: &[u8]) -> Result<Vec<Entry>, Refusal> {
    let mut out = vec![FILL; 16 * 512 + 700];
    let answer = unfold(dict, description, &mut out);
    let written = answer.map(|count| written_entries(&out, count));
    let length = written.as_ref().map_or(0, |written| encode(written).len());
    assert!(out[length..].iter().all(|&byte| byte == FILL));
    written
}

/// The normal form with no pairs.
pub fn normal(description: &[u8]) -> Result<Vec<Entry>, Refusal> {
    normal_under(&[], description)
}

/// Calls the normal form with an output somewhat longer than needed, checks
/// the number answered and the bytes that stay, and answers the entries.
pub fn normal_under(pairs: &[u8], description: &[u8]) -> Result<Vec<Entry>, Refusal> {
    let mut out = vec![FILL; description.len() + 700];
    let answer = normal_with(pairs, &[], description, &mut out);
    let written = match answer {
        Ok(count) => written_entries(&out, count),
        Err(_) => Vec::new(),
    };
    let length = if answer.is_ok() {
        encode(&written).len()
    } else {
        0
    };
    assert!(length <= description.len());
    assert!(out[length..].iter().all(|&byte| byte == FILL));
    answer.map(|_| written)
}

/// What the comparison answers, with the specimen.
#[derive(Clone, Debug, PartialEq, Eq)]
pub enum Answer {
    Contained,
    Not { entry: usize, specimen: Vec<Entry> },
    Refused(Refusal),
}

/// The comparison with no pairs.
pub fn compared(c: &[u8], d: &[u8]) -> Answer {
    compared_under(&[], c, d)
}

/// Calls the comparison with an output somewhat longer than needed, checks
/// the number answered and the bytes that stay, and answers the specimen.
pub fn compared_under(pairs: &[u8], c: &[u8], d: &[u8]) -> Answer {
    let mut out = vec![FILL; c.len() + d.len() + 700];
    let (answer, length) = match compare_with(pairs, &[], c, d, &mut out) {
        Ok(Comparison::Contained) => (Answer::Contained, 0),
        Ok(Comparison::NotContained { entry, entries }) => {
            let specimen = written_entries(&out, entries);
            let length = encode(&specimen).len();
            (Answer::Not { entry, specimen }, length)
        }
        Err(refusal) => (Answer::Refused(refusal), 0),
    };
    assert!(length <= c.len() + d.len());
    assert!(out[length..].iter().all(|&byte| byte == FILL));
    answer
}

/// As `compared`, for texts.
pub fn compared_texts(c: &str, d: &str) -> Answer {
    compared(&blocks(c), &blocks(d))
}

/// Reads `count` entries out of an output, and checks that the output starts
/// with exactly the blocks of these.
pub fn written_entries(out: &[u8], count: usize) -> Vec<Entry> {
    let blocks = count.div_ceil(63).max(1);
    let written = &out[..blocks * 512];
    let entries = reference::decode(written);
    assert_eq!(entries.len(), count);
    assert_eq!(encode(&entries), written);
    entries
}
