//! The desk examples.

use reference::{
    compare, encode, fit, normal_form, read_description, read_specimen, Comparison, Refusal,
};

use crate::notation::{blocks, compared_texts, entries, entry, normal, Answer, FILL};

/// 'not contained', this entry, with the specimen written in this text.
fn not(entry: usize, specimen: &str) -> Answer {
    Answer::Not {
        entry,
        specimen: entries(specimen),
    }
}

fn contained(c: &str, d: &str) {
    assert_eq!(compared_texts(c, d), Answer::Contained, "{c} / {d}");
}

fn normal_text(description: &str) -> Vec<reference::Entry> {
    normal(&blocks(description)).unwrap()
}

#[test]
fn both_empty_and_both_one_property() {
    contained("", "");
    contained("1,7", "1,7");
}

#[test]
fn at_most_below_a_link() {
    let answer = compared_texts("5,1 [3,2,1]", "5,1 [3,2,1; 4,2,1]");
    assert_eq!(answer, not(3, "7,1 [7,2,1]"));
}

#[test]
fn impossible_two_links_down() {
    assert_eq!(normal_text("5,1 [5,2 [6]; 3,2,1]"), entries("4,1,0"));
    contained("5,1 [5,2 [6]; 3,2,1]", "5,1 [1,9]");
}

#[test]
fn at_least_0_and_every_that_owns_nothing() {
    contained("", "5,3 [3,1,0]");
    contained("", "5,1 []");
}

#[test]
fn at_least_2_and_at_most_2() {
    contained("3,1,2; 4,1,2", "3,1,2");
    assert_eq!(compared_texts("3,1,2; 4,1,2", "3,1,3"), not(1, "7,1,1"));
}

#[test]
fn at_least_3_and_at_most_2() {
    assert_eq!(normal_text("3,1,3; 4,1,2"), entries("6"));
    for d in [
        "",
        "6",
        "1,1",
        "2,1",
        "3,1,9",
        "4,1,0",
        "5,1 [6]",
        "1,1; 2,1",
        "3,1,3; 4,1,2",
    ] {
        contained("3,1,3; 4,1,2", d);
    }
}

#[test]
fn at_most_65535() {
    assert_eq!(compared_texts("", "4,1,65535"), not(1, "7,1,65535"));
}

#[test]
fn lacks_gives_the_property() {
    assert_eq!(compared_texts("1,7", "2,8"), not(1, "1,7; 1,8"));
}

#[test]
fn at_most_0_and_every_nothing() {
    contained("4,1,0", "5,1 [6]");
    contained("5,1 [6]", "4,1,0");
}

#[test]
fn nothing_fits() {
    let mut out = vec![FILL; 1024];
    let answer = compare(&blocks(""), &blocks("6"), &mut out);
    assert_eq!(
        answer,
        Ok(Comparison::NotContained {
            entry: 1,
            entries: 0
        })
    );
    // A specimen of no entries (C16): bytes 0 and 508 = 1, byte 510 = 2.
    let mut empty = vec![0; 512];
    (empty[0], empty[508], empty[510]) = (1, 1, 2);
    assert_eq!(out[..512], empty);
    assert!(out[512..].iter().all(|&byte| byte == FILL));
    assert_eq!(fit(&out[..512], &blocks("")), Ok(true));
    assert_eq!(fit(&out[..512], &blocks("6")), Ok(false));
}

#[test]
fn sizes() {
    let full = vec![entry(1, 0, 1, 0); 1008];
    assert_eq!(read_description(&encode(&full)), Ok(1008));
    assert_eq!(normal(&encode(&full)).unwrap(), entries("1,1"));
    let over = vec![entry(1, 0, 1, 0); 1009];
    assert_eq!(encode(&over).len(), 17 * 512);
    let refusal = Refusal {
        number: 1,
        input: 1,
        place: 0,
    };
    assert_eq!(read_description(&encode(&over)), Err(refusal));
    // A specimen has at most 32 blocks, 2,016 entries (B8).
    assert_eq!(
        read_specimen(&encode(&vec![entry(1, 0, 1, 0); 2016])),
        Ok(2016)
    );
    assert_eq!(
        read_specimen(&encode(&vec![entry(1, 0, 1, 0); 2017])),
        Err(refusal)
    );
}

#[test]
fn depths() {
    // A chain: entry k has depth k - 1.
    let chain = |length: u16| {
        (0..length)
            .map(|owner| entry(5, owner, 1, 0))
            .collect::<Vec<_>>()
    };
    assert_eq!(read_description(&encode(&chain(33))), Ok(33));
    let refusal = Refusal {
        number: 6,
        input: 1,
        place: 34,
    };
    assert_eq!(read_description(&encode(&chain(34))), Err(refusal));
}

#[test]
fn output_one_byte_short() {
    let refusal = Refusal {
        number: 7,
        input: 0,
        place: 0,
    };
    let two = encode(&vec![entry(1, 0, 1, 0); 64]);
    let one = blocks("2,1");
    let mut out = vec![FILL; 1023];
    assert_eq!(normal_form(&two, &mut out), Err(refusal));
    assert_eq!(normal_form(&one, &mut out[..511]), Err(refusal));
    assert_eq!(compare(&one, &one, &mut out), Err(refusal));
    assert!(out.iter().all(|&byte| byte == FILL));
    let mut out = vec![FILL; 1024];
    assert_eq!(normal_form(&two, &mut out), Ok(1));
    let mut out = vec![FILL; 1024];
    assert_eq!(compare(&one, &one, &mut out), Ok(Comparison::Contained));
    assert!(out.iter().all(|&byte| byte == FILL));
}
