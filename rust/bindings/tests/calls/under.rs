//! The calls under a list of properties that exclude each other.

use super::*;
use goltximen::Under;

/// Property 7 excludes 8, and 300 excludes 7.
const LIST: [u8; 8] = [7, 0, 8, 0, 44, 1, 7, 0];

fn under(pairs: &[u8]) -> Under<'_> {
    Under {
        pairs,
        ..Under::default()
    }
}

#[test]
fn a_place_with_one_of_a_pair_lacks_the_other() {
    let (has_7, lacks_300) = (blocks(&[[1, 0, 7, 0]]), blocks(&[[2, 0, 300, 0]]));
    let mut out = [FILL; 1024];
    assert_eq!(
        under(&LIST).compare(&has_7, &lacks_300, &mut out),
        Ok(Comparison::Contained)
    );
    assert_eq!(out, [FILL; 1024]);
    let both = blocks(&[[1, 0, 7, 0], [2, 0, 300, 0]]);
    assert_eq!(under(&LIST).normal_form(&both, &mut out), Ok(1));
    assert_eq!(out[..512], has_7);
}

#[test]
fn a_place_with_both_of_a_pair_is_impossible() {
    let both = [
        [5, 0, 1, 0],
        [1, 1, 7, 0],
        [3, 0, 2, 1],
        [5, 0, 1, 0],
        [1, 4, 8, 0],
    ];
    let mut out = [FILL; 1024];
    assert_eq!(under(&LIST).normal_form(&blocks(&both), &mut out), Ok(2));
    assert_eq!(out[..512], blocks(&[[3, 0, 2, 1], [4, 0, 1, 0]]));
    assert_eq!(under(&[]).normal_form(&blocks(&both), &mut out), Ok(4));
}

/// 8 and 300 may hold of one item, and the specimen of a no keeps the list.
#[test]
fn a_no_is_shown_by_a_specimen_that_keeps_the_list() {
    let (c, d) = (blocks(&[[1, 0, 8, 0]]), blocks(&[[2, 0, 300, 0]]));
    let mut out = [FILL; 1024];
    let shown = Comparison::NotContained {
        entry: 1,
        entries: 2,
    };
    assert_eq!(under(&LIST).compare(&c, &d, &mut out), Ok(shown));
    assert_eq!(out[..512], blocks(&[[1, 0, 8, 0], [1, 0, 300, 0]]));
    assert_eq!(under(&LIST).fit(&out[..512], &c), Ok(Fit::Yes));
    assert_eq!(under(&LIST).fit(&out[..512], &d), Ok(Fit::No));
}

#[test]
fn refused_lists_come_first() {
    let refused = |pairs: &[u8], place| {
        let (under, mut out) = (under(pairs), [FILL; 8]);
        assert_eq!(under.fit(&[], &[]), refusal(Reason::Pairs, 0, place));
        assert_eq!(
            under.normal_form(&[], &mut out),
            refusal(Reason::Pairs, 0, place)
        );
        assert_eq!(
            under.compare(&[], &[], &mut out),
            refusal(Reason::Pairs, 0, place)
        );
        assert_eq!(out, [FILL; 8]);
    };
    refused(&LIST[..7], 0);
    refused(&[[1, 0, 2, 0]; 65].concat(), 0);
    refused(&[1, 0, 2, 0, 0, 0, 3, 0, 4, 0, 4, 0], 2);
    let most = [[1, 0, 2, 0]; 64].concat();
    assert_eq!(under(&most).fit(&[], &[]), refusal(Reason::Length, 1, 0));
}

#[test]
fn a_specimen_that_does_not_keep_the_list() {
    let s = blocks(&[[1, 0, 7, 0], [7, 0, 1, 0], [1, 2, 8, 0], [1, 0, 300, 0]]);
    let both = |place| refusal(Reason::BothOfAPair, 1, place);
    assert_eq!(under(&LIST).fit(&s, &[]), both(4));
    assert_eq!(under(&LIST[..4]).fit(&s, &blocks(&[])), Ok(Fit::Yes));
    // Its other refusals come first, also at later entries.
    let s = blocks(&[[1, 0, 7, 0], [1, 0, 8, 0], [7, 0, 32_768, 1]]);
    assert_eq!(under(&LIST).fit(&s, &[]), refusal(Reason::SecondItem, 1, 3));
    assert_eq!(read_specimen(&blocks(&[[1, 0, 7, 0], [1, 0, 8, 0]])), Ok(2));
}

/// Every call, on inputs that lead far down, under the longest list.
fn call_all() {
    let pairs: Vec<u8> = (2000..2064u16)
        .flat_map(|other| [7, other])
        .flat_map(u16::to_le_bytes)
        .collect();
    let wide: Vec<[u16; 4]> = (1..=1008)
        .map(|n: u32| [1, 0, (n * 397 % 1009) as u16, 0])
        .collect();
    let wide = blocks(&wide);
    let mut out = vec![0; 2 * wide.len()];
    let under = under(&pairs);
    assert_eq!(under.fit(&blocks(&[]), &wide), Ok(Fit::No));
    assert_eq!(under.normal_form(&wide, &mut out), Ok(1008));
    assert_eq!(
        under.compare(&wide, &wide, &mut out),
        Ok(Comparison::Contained)
    );
}

#[test]
fn a_stack_of_96_kib_has_room() {
    on_a_small_stack(call_all);
}
