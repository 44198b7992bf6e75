//! What a description lacks for a yes, and what is refused.

use goltximen::{missing, Lack, Reason, Refusal};

use crate::{blocks, refusal, FILL};

/// The answer, and the bytes of all entries of the second.
fn marked(pairs: &[u8], c: &[[u16; 4]], d: &[[u16; 4]]) -> Result<(Lack, Vec<u8>), Refusal> {
    let mut out = vec![FILL; d.len() + 1];
    let answer = missing(pairs, &blocks(c), &blocks(d), &mut out)?;
    assert_eq!(out.pop(), Some(FILL));
    Ok((answer, out))
}

#[test]
fn marks_what_is_to_be_added_with_its_owners() {
    let d = [
        [5, 0, 1, 0],
        [1, 1, 7, 0],
        [3, 1, 2, 2],
        [3, 0, 1, 1],
        [3, 0, 1, 1],
    ];
    let add = Lack::Addable;
    assert_eq!(marked(&[], &[], &d), Ok((add, vec![1, 1, 1, 1, 0])));
    let c = [[5, 0, 1, 0], [1, 1, 7, 0], [3, 0, 1, 2]];
    assert_eq!(marked(&[], &c, &d), Ok((add, vec![1, 0, 1, 0, 0])));
    assert_eq!(marked(&[], &d, &c), Ok((add, vec![0, 0, 1])));
    assert_eq!(marked(&[], &d, &d), Ok((Lack::Nothing, vec![0; 5])));
    assert_eq!(marked(&[], &d, &[]), Ok((Lack::Nothing, Vec::new())));
}

#[test]
fn tells_where_no_item_fits_both() {
    let (c, d) = ([[1, 0, 1, 0]], [[2, 0, 1, 0], [1, 0, 2, 0]]);
    assert_eq!(marked(&[], &c, &d), Ok((Lack::Against, vec![1, 0])));
    // What no item fits is contained in all.
    assert_eq!(
        marked(&[], &[[6, 0, 0, 0]], &d),
        Ok((Lack::Nothing, vec![0, 0]))
    );
    // The top fits where the one link leads nowhere.
    let (c, d) = (
        [[5, 0, 1, 0], [1, 1, 1, 0]],
        [[5, 0, 1, 0], [2, 1, 1, 0], [4, 0, 1, 0]],
    );
    assert_eq!(marked(&[], &c, &d), Ok((Lack::Addable, vec![1, 1, 0])));
}

#[test]
fn takes_a_list_and_no_dictionary() {
    let (c, d) = ([[1, 0, 7, 0]], [[2, 0, 8, 0], [1, 0, 8, 0]]);
    assert_eq!(marked(&[], &c, &d), Ok((Lack::Against, vec![1, 1])));
    assert_eq!(
        marked(&[7, 0, 8, 0], &c, &d),
        Ok((Lack::Against, vec![0, 1]))
    );
    assert_eq!(
        marked(&[], &[[9, 0, 1, 0]], &d),
        refusal(Reason::Form, 1, 1)
    );
}

#[test]
fn refuses_in_order() {
    let (good, bad) = (blocks(&[[1, 0, 7, 0]]), blocks(&[[0, 0, 7, 0]]));
    let mut out = [FILL; 1];
    let asked = |pairs: &[u8], c: &[u8], d: &[u8], out: &mut [u8]| missing(pairs, c, d, out);
    assert_eq!(
        asked(&[7], &bad, &bad, &mut []),
        refusal(Reason::Pairs, 0, 0)
    );
    assert_eq!(asked(&[], &bad, &bad, &mut []), refusal(Reason::Form, 1, 1));
    assert_eq!(
        asked(&[], &good, &bad, &mut []),
        refusal(Reason::Form, 2, 1)
    );
    assert_eq!(
        asked(&[], &good, &good, &mut []),
        refusal(Reason::Output, 0, 0)
    );
    assert_eq!(
        asked(&[], &good, &bad, &mut out),
        refusal(Reason::Form, 2, 1)
    );
    // 8 and 9 blocks together are one too many, also where the output is too short.
    let many = |entries: u16| {
        blocks(
            &(1..=entries)
                .map(|name| [1, 0, name, 0])
                .collect::<Vec<_>>(),
        )
    };
    assert_eq!(
        asked(&[], &many(8 * 63), &many(8 * 63 + 1), &mut []),
        refusal(Reason::Length, 2, 0)
    );
    assert_eq!(
        asked(&[], &many(8 * 63), &many(8 * 63), &mut []),
        refusal(Reason::Output, 0, 0)
    );
    assert_eq!(out, [FILL]);
}
