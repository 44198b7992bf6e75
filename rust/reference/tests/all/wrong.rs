//! Wrong inputs, and what a call does with them and with its output.

use std::fmt::Debug;

use reference::{encode, Entry, Refusal};

use crate::naming::{chain, refusal};
use crate::notation::{blocks, entry, written_entries, FILL};
use crate::refusals::with_checks;

/// A description that each call refuses, by this number at this place.
pub struct Wrong {
    pub bytes: Vec<u8>,
    pub number: u8,
    pub place: u32,
}

impl Wrong {
    /// The refusal where the description is this input.
    pub fn as_input(&self, input: u16) -> Refusal {
        refusal(self.number, input, self.place)
    }
}

/// Descriptions that 1 to 6 refuse, whether the call has a dictionary or not.
pub fn wrong_descriptions() -> Vec<Wrong> {
    let lengths = [0, 1, 511, 513, 17 * 512].map(|length| (vec![FILL; length], 1, 0));
    let entries = [
        ("7,1", 4, 1),
        ("1,1; 8,1,1", 4, 2),
        ("1,1; 5,2 [3,1]; 1", 4, 4),
        ("1,1,1", 4, 1),
        ("6,1", 4, 1),
    ]
    .map(|(text, number, place)| (blocks(text), number, place));
    let mut zero = entry(1, 0, 1, 0);
    zero.zero = 1;
    let others = [
        (encode(&[zero]), 4, 1),
        (encode(&[entry(1, 1, 1, 0)]), 5, 1),
        (encode(&[entry(1, 0, 1, 0), entry(1, 1, 1, 0)]), 5, 2),
        (encode(&chain(34)), 6, 34),
    ];
    let all = lengths.into_iter().chain(entries).chain(others);
    let wrong = |(bytes, number, place)| Wrong {
        bytes,
        number,
        place,
    };
    all.chain(wrong_blocks()).map(wrong).collect()
}

/// A second block whose checks or whose frame are wrong, before an entry that
/// is wrong.
fn wrong_blocks() -> [(Vec<u8>, u8, u32); 3] {
    let mut entries = vec![entry(1, 0, 1, 0); 70];
    entries[0].name = 0;
    let right = encode(&entries);
    let mut check = right.clone();
    check[512 + 510] ^= 1;
    let mut second = right.clone();
    second[512 + 508] ^= 1;
    let mut frame = right;
    frame[512] = 3;
    [(check, 2, 2), (second, 2, 2), (with_checks(frame), 3, 2)]
}

/// Checks that the call is refused like this whatever the length of its output
/// is, and that each byte of the output stays.
pub fn refused<T: Debug>(due: Refusal, call: impl Fn(&mut [u8]) -> Result<T, Refusal>) {
    for length in [0, 1, 511, 512, 1024, 20_000] {
        refused_at(length, due, &call);
    }
}

/// As `refused`, with an output of this length.
pub fn refused_at<T: Debug>(
    length: usize,
    due: Refusal,
    call: impl Fn(&mut [u8]) -> Result<T, Refusal>,
) {
    let mut out = vec![FILL; length];
    assert_eq!(call(&mut out).err(), Some(due), "{length}");
    assert!(out.iter().all(|&byte| byte == FILL));
}

/// Checks that 7 is the answer below this length, whatever it is, and that
/// nothing is written then, and that 7 is not the answer at this length.
pub fn needs<T: Debug>(length: usize, call: impl Fn(&mut [u8]) -> Result<T, Refusal>) {
    for shorter in [0, 1, length / 2, length.saturating_sub(1)] {
        if shorter < length {
            refused_at(shorter, refusal(7, 0, 0), &call);
        }
    }
    assert!(call(&mut vec![FILL; length]).is_ok());
}

/// Calls with an output of this length, checks that the entries answered are
/// written in blocks and that all other bytes stay, and gives the entries.
pub fn written(
    length: usize,
    call: impl Fn(&mut [u8]) -> Result<usize, Refusal>,
) -> Result<Vec<Entry>, Refusal> {
    let mut out = vec![FILL; length];
    let answer = call(&mut out);
    let entries = answer.map(|count| written_entries(&out, count));
    let end = entries.as_ref().map_or(0, |entries| encode(entries).len());
    assert!(out[end..].iter().all(|&byte| byte == FILL));
    entries
}

/// Calls with an output of this length, checks that of so many bytes each is 0
/// or 1 and that all others stay, and gives the answer with the bytes as marks.
pub fn marked<T: Copy>(
    length: usize,
    count: usize,
    call: impl Fn(&mut [u8]) -> Result<T, Refusal>,
) -> Result<(T, Vec<bool>), Refusal> {
    let mut out = vec![FILL; length];
    let answer = call(&mut out);
    let end = if answer.is_ok() { count } else { 0 };
    assert!(out[..end].iter().all(|&byte| byte <= 1));
    assert!(out[end..].iter().all(|&byte| byte == FILL));
    answer.map(|answer| (answer, out[..end].iter().map(|&byte| byte == 1).collect()))
}

/// A call under a list of pairs that marks entries of one of two descriptions.
pub type Marking<T> = fn(&[u8], &[u8], &[u8], &mut [u8]) -> Result<T, Refusal>;

/// Checks that such a call refuses wrong descriptions as either input, names in
/// either, and wrong lists, each before all that comes later.
pub fn refuses_inputs<T: Debug>(call: Marking<T>) {
    let good = blocks("1,1");
    for wrong in wrong_descriptions() {
        for other in [&good[..], &[], &wrong.bytes] {
            refused(wrong.as_input(1), |out| call(&[], &wrong.bytes, other, out));
        }
        refused(wrong.as_input(2), |out| call(&[], &good, &wrong.bytes, out));
    }
    let named = blocks("1,1; 9,1");
    refused(refusal(4, 1, 2), |out| call(&[], &named, &[], out));
    refused(refusal(4, 2, 2), |out| call(&[], &good, &named, out));
    refused(refusal(11, 0, 0), |out| call(&[1], &named, &[FILL; 9], out));
    refused(refusal(11, 0, 1), |out| call(&[1, 0, 1, 0], &[], &[], out));
}

/// Checks that such a call needs a byte for each entry of the second
/// description, whatever it answers.
pub fn needs_a_byte_for_each_asked<T: Debug>(call: Marking<T>) {
    for (d, length) in [("", 0), ("1,1", 1), ("5,1 [1,1; 1,2]", 3)] {
        for c in ["", "6", "1,1; 1,2; 1,3; 1,4"] {
            needs(length, |out| call(&[], &blocks(c), &blocks(d), out));
        }
    }
}
