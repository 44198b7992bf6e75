//! The entries that earn a yes, and what is refused.

use goltximen::{earning, Reason, Refusal};

use crate::{blocks, refusal, FILL};

/// The answer, and the bytes of all entries of the first.
fn marked(pairs: &[u8], c: &[[u16; 4]], d: &[[u16; 4]]) -> Result<(bool, Vec<u8>), Refusal> {
    let mut out = vec![FILL; c.len() + 1];
    let answer = earning(pairs, &blocks(c), &blocks(d), &mut out)?;
    assert_eq!(out.pop(), Some(FILL));
    Ok((answer, out))
}

#[test]
fn marks_what_is_needed_with_its_owners() {
    let c = [
        [5, 0, 1, 0],
        [1, 1, 7, 0],
        [3, 1, 2, 3],
        [2, 1, 8, 0],
        [3, 0, 1, 1],
    ];
    let d = [[5, 0, 1, 0], [3, 1, 2, 2], [1, 1, 7, 0]];
    assert_eq!(marked(&[], &c, &d), Ok((true, vec![1, 1, 1, 0, 0])));
    assert_eq!(marked(&[], &c, &[]), Ok((true, vec![0; 5])));
    assert_eq!(marked(&[], &c, &[[1, 0, 9, 0]]), Ok((false, vec![0; 5])));
    // Of two that are enough alone the first is left.
    let twice = [[1, 0, 7, 0], [1, 0, 7, 0]];
    assert_eq!(marked(&[], &twice, &[[1, 0, 7, 0]]), Ok((true, vec![1, 0])));
}

#[test]
fn takes_a_list_and_no_dictionary() {
    let (c, d) = ([[1, 0, 7, 0], [1, 0, 9, 0]], [[2, 0, 8, 0]]);
    assert_eq!(marked(&[], &c, &d), Ok((false, vec![0, 0])));
    assert_eq!(marked(&[7, 0, 8, 0], &c, &d), Ok((true, vec![1, 0])));
    assert_eq!(
        marked(&[], &[[9, 0, 1, 0]], &d),
        refusal(Reason::Form, 1, 1)
    );
}

#[test]
fn refuses_in_order() {
    let (good, bad) = (blocks(&[[1, 0, 7, 0]]), blocks(&[[0, 0, 7, 0]]));
    let mut out = [FILL; 1];
    let asked = |pairs: &[u8], c: &[u8], d: &[u8], out: &mut [u8]| earning(pairs, c, d, out);
    assert_eq!(
        asked(&[7], &bad, &bad, &mut []),
        refusal(Reason::Pairs, 0, 0)
    );
    assert_eq!(asked(&[], &bad, &bad, &mut []), refusal(Reason::Form, 1, 1));
    assert_eq!(
        asked(&[], &good, &bad, &mut []),
        refusal(Reason::Form, 2, 1)
    );
    assert_eq!(
        asked(&[], &good, &good, &mut []),
        refusal(Reason::Output, 0, 0)
    );
    assert_eq!(
        asked(&[], &good, &bad, &mut out),
        refusal(Reason::Form, 2, 1)
    );
    assert_eq!(out, [FILL]);
}
