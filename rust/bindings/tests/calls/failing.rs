//! The entries that fail, and what is refused.

use goltximen::{failing, Reason, Refusal};

use crate::{blocks, refusal, FILL};

/// The answer, and the bytes of all entries of the second.
fn failed(pairs: &[u8], c: &[[u16; 4]], d: &[[u16; 4]]) -> Result<(bool, Vec<u8>), Refusal> {
    let mut out = vec![FILL; d.len() + 1];
    let answer = failing(pairs, &blocks(c), &blocks(d), &mut out)?;
    assert_eq!(out.pop(), Some(FILL));
    Ok((answer, out))
}

#[test]
fn marks_each_that_fails() {
    let none = [[4, 0, 1, 0]];
    let d = [
        [5, 0, 1, 0],
        [1, 1, 7, 0],
        [1, 0, 2, 0],
        [4, 0, 1, 3],
        [6, 0, 0, 0],
    ];
    // Below an at most 0 nothing fails, nor does an 'every'.
    assert_eq!(failed(&[], &none, &d), Ok((false, vec![0, 0, 1, 0, 1])));
    assert_eq!(failed(&[], &[], &d), Ok((false, vec![0, 1, 1, 1, 1])));
    // Nothing fits the first.
    let impossible = [[6, 0, 0, 0]];
    assert_eq!(failed(&[], &impossible, &d), Ok((true, vec![0; 5])));
    assert_eq!(failed(&[], &[], &[]), Ok((true, vec![])));
}

#[test]
fn takes_a_list_and_no_dictionary() {
    let (c, d) = ([[1, 0, 7, 0]], [[2, 0, 8, 0], [2, 0, 9, 0]]);
    assert_eq!(failed(&[], &c, &d), Ok((false, vec![1, 1])));
    assert_eq!(failed(&[7, 0, 8, 0], &c, &d), Ok((false, vec![0, 1])));
    assert_eq!(
        failed(&[], &c, &[[9, 0, 1, 0]]),
        refusal(Reason::Form, 2, 1)
    );
}

#[test]
fn refuses_in_order() {
    let (good, bad) = (blocks(&[[1, 0, 7, 0]]), blocks(&[[0, 0, 7, 0]]));
    let mut out = [FILL; 1];
    let asked = |pairs: &[u8], c: &[u8], d: &[u8], out: &mut [u8]| failing(pairs, c, d, out);
    assert_eq!(
        asked(&[7], &bad, &bad, &mut []),
        refusal(Reason::Pairs, 0, 0)
    );
    assert_eq!(asked(&[], &bad, &bad, &mut []), refusal(Reason::Form, 1, 1));
    assert_eq!(
        asked(&[], &good, &bad, &mut []),
        refusal(Reason::Form, 2, 1)
    );
    assert_eq!(
        asked(&[], &good, &good, &mut []),
        refusal(Reason::Output, 0, 0)
    );
    assert_eq!(
        asked(&[], &good, &bad, &mut out),
        refusal(Reason::Form, 2, 1)
    );
    assert_eq!(out, [FILL]);
}
