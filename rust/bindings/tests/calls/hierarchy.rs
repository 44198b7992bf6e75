//! The catalogue as a hierarchy.

use super::named::{laid, named};
use super::*;
use goltximen::{hierarchy, hierarchy_bytes, Under};

/// What is written, in an output longer than needed of which the rest stays.
fn ranked(pairs: &[u8], list: &[u8]) -> Result<Vec<u8>, Refusal> {
    let mut out = [FILL; 40];
    let written = hierarchy(pairs, list, &mut out).map(|ranked| ranked.written().to_vec());
    let rest = &out[written.as_ref().map_or(0, Vec::len)..];
    assert!(rest.iter().all(|&byte| byte == FILL));
    written
}

/// A class of two, one below it, one above it, and one that nothing fits.
#[test]
fn superiors_and_classes() {
    let one = [1, 0, 1, 0];
    let list = laid(&[
        &[one],
        &[one, [1, 0, 2, 0]],
        &[],
        &[one, one],
        &[[6, 0, 0, 0]],
    ]);
    let mut out = [FILL; hierarchy_bytes(5)];
    let ranked = hierarchy(&[], &list, &mut out).unwrap();
    assert_eq!(ranked.count(), 5);
    let table = [
        1, 0, 1, 1, 0, 1, 1, 1, 1, 0, 0, 0, 1, 0, 0, 1, 0, 1, 1, 0, 1, 1, 1, 1, 1,
    ];
    assert_eq!(ranked.table(), table);
    let superiors: [&[usize]; 5] = [&[2], &[0, 3], &[], &[2], &[1]];
    for (i, due) in superiors.into_iter().enumerate() {
        assert_eq!(ranked.superiors_of(i).collect::<Vec<_>>(), due);
    }
    assert_eq!(ranked.classes(), [1, 2, 3, 1, 5]);
    assert!(!ranked.is_contained(5, 0) && !ranked.is_contained(0, 5));
    assert_eq!(ranked.superiors_of(5).next(), None);
}

/// Each byte of the table is that of the single comparison; up to 64 services.
#[test]
fn as_single_comparisons() {
    let names = |count: u16| (1..=count).map(|n| [1, 0, n, 0]).collect::<Vec<_>>();
    for count in [1, 2, 63, 64] {
        let services: Vec<Vec<u8>> = (0..count).map(|n| blocks(&names(n * 7 % 64))).collect();
        let (list, mut out) = (services.concat(), [FILL; hierarchy_bytes(64)]);
        let ranked = hierarchy(&[], &list, &mut out).unwrap();
        for (i, c) in services.iter().enumerate() {
            let mut row = [FILL; 64];
            let filled = Under::default().catalogue(c, &list, &mut row);
            assert_eq!(filled, Ok(ranked.count()));
            assert!((0..ranked.count()).all(|j| ranked.is_contained(i, j) == (row[j] == 1)));
        }
    }
}

#[test]
fn refusals_in_their_order() {
    let seven = [1, 0, 7, 0];
    let good = laid(&[&[seven], &[]]);
    assert_eq!(ranked(&[7, 0, 7, 0], &[]), refusal(Reason::Pairs, 0, 1));
    assert_eq!(ranked(&[], &[]), refusal(Reason::Length, 2, 0));
    assert_eq!(ranked(&[], &good[..600]), refusal(Reason::Length, 2, 0));
    let many = blocks(&[seven]).repeat(65);
    assert_eq!(ranked(&[], &many), refusal(Reason::TooMany, 2, 0));
    let named = laid(&[&[seven], &[seven, named(0, 1)]]);
    assert_eq!(ranked(&[], &named), refusal(Reason::Form, 3, 2));
    assert_eq!(
        hierarchy(&[], &good, &mut [FILL; 9]),
        refusal(Reason::Output, 0, 0)
    );
    assert_eq!(ranked(&[], &good).map(|bytes| bytes.len()), Ok(10));
}
