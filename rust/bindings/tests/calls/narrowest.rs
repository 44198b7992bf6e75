//! The narrowest description that contains two, and what is refused.

use goltximen::{Comparison, Reason, Refusal, Under};

use crate::named::{laid, named};
use crate::{blocks, refusal, FILL};

/// The bytes that are written, into an output that has room for any result.
fn written(under: Under<'_>, a: &[[u16; 4]], b: &[[u16; 4]]) -> Result<Vec<u8>, Refusal> {
    let mut out = vec![FILL; 8192 + 1];
    let entries = under.narrowest(&blocks(a), &blocks(b), &mut out)?;
    let size = 512 * usize::from(entries).div_ceil(63).max(1);
    assert!(out[size..].iter().all(|&byte| byte == FILL));
    out.truncate(size);
    Ok(out)
}

/// The result is this, in either order, and contains both.
fn gives(under: Under<'_>, a: &[[u16; 4]], b: &[[u16; 4]], result: &[[u16; 4]]) {
    let bytes = blocks(result);
    for (first, second) in [(a, b), (b, a)] {
        assert_eq!(written(under, first, second), Ok(bytes.clone()));
        let mut out = vec![FILL; 2 * 8192];
        let within = under.compare(&blocks(first), &bytes, &mut out);
        assert_eq!(within, Ok(Comparison::Contained));
    }
}

#[test]
fn joins_what_both_say() {
    let none = Under::default();
    let a = [
        [1, 0, 7, 0],
        [3, 0, 1, 2],
        [4, 0, 1, 5],
        [5, 0, 1, 0],
        [1, 4, 7, 0],
        [1, 4, 8, 0],
    ];
    let b = [
        [3, 0, 1, 1],
        [4, 0, 1, 3],
        [4, 0, 2, 1],
        [5, 0, 1, 0],
        [1, 4, 8, 0],
        [2, 4, 7, 0],
    ];
    let both = [[3, 0, 1, 1], [4, 0, 1, 5], [5, 0, 1, 0], [1, 3, 8, 0]];
    gives(none, &a, &b, &both);
    // At most 0 on one side: the other's place whole.
    let open = [[4, 0, 1, 3], [5, 0, 1, 0], [1, 2, 7, 0]];
    gives(none, &[[4, 0, 1, 0]], &open, &open);
    // A joined place that comes out empty goes.
    let (seven, eight) = ([[5, 0, 1, 0], [1, 1, 7, 0]], [[5, 0, 1, 0], [1, 1, 8, 0]]);
    gives(none, &seven, &eight, &[]);
    // Where one is impossible, the other.
    gives(none, &[[6, 0, 0, 0]], &seven, &seven);
    gives(none, &[[6, 0, 0, 0]], &[[6, 0, 0, 0]], &[[6, 0, 0, 0]]);
}

#[test]
fn takes_a_list_and_a_dictionary() {
    // 7 and 9 exclude 8: the lack that both imply is listed, since nothing that both have implies it.
    let pairs = [7, 0, 8, 0, 9, 0, 8, 0];
    let under = Under {
        pairs: &pairs,
        ..Under::default()
    };
    gives(under, &[[1, 0, 7, 0]], &[[1, 0, 9, 0]], &[[2, 0, 8, 0]]);
    let (a, b) = ([[1, 0, 7, 0]], [[1, 0, 7, 0], [1, 0, 9, 0]]);
    gives(under, &a, &b, &a);
    let dictionary = laid(&[&[[1, 0, 7, 0]], &[[1, 0, 9, 0]]]);
    let with = Under {
        dictionary: &dictionary,
        ..under
    };
    gives(with, &[named(0, 1)], &[named(0, 2)], &[[2, 0, 8, 0]]);
    assert_eq!(
        written(under, &[named(0, 1)], &a),
        refusal(Reason::Name, 1, 1)
    );
}

/// 'every' of links 1 to k, each with this property.
fn places(k: u16, property: u16) -> Vec<[u16; 4]> {
    let every = (1..=k).map(|link| [5, 0, link, 0]);
    let has = (1..=k).map(|owner| [1, owner, property, 0]);
    every.chain(has).collect()
}

#[test]
fn a_result_of_1008_entries_and_no_more() {
    // Eight properties, each of which excludes eight others: a place of two that have one each lacks eight.
    let mut pairs = Vec::new();
    for (p, q) in (1..=8).flat_map(|p| (11..=18).map(move |q| (p, q))) {
        pairs.extend([p, 0, q, 0]);
    }
    let under = Under {
        pairs: &pairs,
        ..Under::default()
    };
    let most = written(under, &places(112, 1), &places(112, 2)).unwrap();
    assert_eq!(most.len(), 8192);
    assert_eq!(
        written(under, &places(113, 1), &places(113, 2)),
        refusal(Reason::Output, 0, 0)
    );
    // An output as long as both, which is shorter than the result.
    let (a, b) = (blocks(&places(112, 1)), blocks(&places(112, 2)));
    let mut out = vec![FILL; a.len() + b.len()];
    assert_eq!(
        under.narrowest(&a, &b, &mut out),
        refusal(Reason::Output, 0, 0)
    );
    assert!(out.iter().all(|&byte| byte == FILL));
}

#[test]
fn refuses_in_order() {
    let none = Under::default();
    let (good, bad) = (blocks(&[[1, 0, 7, 0]]), blocks(&[[0, 0, 7, 0]]));
    let wrong = Under {
        pairs: &[7],
        ..none
    };
    assert_eq!(
        wrong.narrowest(&bad, &bad, &mut []),
        refusal(Reason::Pairs, 0, 0)
    );
    assert_eq!(
        none.narrowest(&bad, &bad, &mut []),
        refusal(Reason::Form, 1, 1)
    );
    assert_eq!(
        none.narrowest(&good, &bad, &mut []),
        refusal(Reason::Form, 2, 1)
    );
    // 8 and 8 blocks, and 8 and 9: 16 blocks come before the output.
    let (eight, nine) = (blocks(&[[1, 0, 7, 0]; 504]), blocks(&[[1, 0, 7, 0]; 505]));
    assert_eq!(
        none.narrowest(&eight, &nine, &mut []),
        refusal(Reason::Length, 2, 0)
    );
    let mut out = vec![FILL; 8192];
    assert_eq!(
        none.narrowest(&eight, &eight, &mut out[..8191]),
        refusal(Reason::Output, 0, 0)
    );
    assert!(out.iter().all(|&byte| byte == FILL));
    assert_eq!(none.narrowest(&eight, &eight, &mut out), Ok(1));
    assert_eq!(out[..512], good);
}
