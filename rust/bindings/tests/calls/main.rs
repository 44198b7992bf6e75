//! The calls on the proved cases, on refused inputs, and on a small stack.
//!
//! An entry is written as its kind, owner, name and number.

mod catalogue;
mod desk;
mod earning;
mod failing;
mod hierarchy;
mod missing;
mod named;
mod narrowest;
mod sheets;
mod under;

use goltximen::{
    compare, fit, normal_form, read_description, read_specimen, Comparison, Fit, Reason, Refusal,
};

/// The value that fills outputs before a call.
const FILL: u8 = 0xA5;

/// The entries as blocks.
fn blocks(entries: &[[u16; 4]]) -> Vec<u8> {
    if entries.is_empty() {
        return block(1, &[]);
    }
    let numbered = (1..).zip(entries.chunks(63));
    numbered
        .flat_map(|(number, used)| block(number, used))
        .collect()
}

/// One block with this number and these entries, at most 63.
fn block(number: u16, used: &[[u16; 4]]) -> Vec<u8> {
    let mut words = vec![number, used.len() as u16];
    words.extend(used.iter().flatten());
    words.resize(254, 0);
    words.push(second_check(&words));
    words.push(words.iter().fold(0, |sum, &word| sum.wrapping_add(word)));
    words.into_iter().flat_map(u16::to_le_bytes).collect()
}

/// The sum of the words, each times its number.
fn second_check(words: &[u16]) -> u16 {
    let numbered = (1..).zip(words);
    numbered.fold(0, |sum: u16, (number, word)| {
        sum.wrapping_add(word.wrapping_mul(number))
    })
}

/// The answer, and the first bytes of the output that a comparison writes: the rest is as it was.
fn compared(c: &[[u16; 4]], d: &[[u16; 4]]) -> (Comparison, Vec<u8>) {
    let (c, d) = (blocks(c), blocks(d));
    let mut out = vec![FILL; c.len() + d.len()];
    let answer = compare(&c, &d, &mut out).unwrap();
    let written = match answer {
        Comparison::Contained => 0,
        Comparison::NotContained { entries, .. } => 512 * usize::from(entries).div_ceil(63).max(1),
    };
    assert!(out[written..].iter().all(|&byte| byte == FILL));
    out.truncate(written);
    (answer, out)
}

/// 'not contained', with this entry and this specimen.
fn shown(entry: u16, specimen: &[[u16; 4]]) -> (Comparison, Vec<u8>) {
    let entries = specimen.len() as u16;
    (
        Comparison::NotContained { entry, entries },
        blocks(specimen),
    )
}

fn refusal<T>(reason: Reason, input: u16, place: u16) -> Result<T, Refusal> {
    Err(Refusal {
        reason,
        input,
        place,
    })
}

#[test]
fn contained() {
    let yes = (Comparison::Contained, vec![]);
    assert_eq!(compared(&[], &[]), yes);
    assert_eq!(compared(&[[1, 0, 7, 0]], &[[1, 0, 7, 0]]), yes);
    assert_eq!(compared(&[], &[[5, 0, 3, 0], [3, 1, 1, 0]]), yes);
    assert_eq!(
        compared(&[[3, 0, 1, 3], [4, 0, 1, 2]], &[[6, 0, 0, 0]]),
        yes
    );
    assert_eq!(
        compared(&[[4, 0, 1, 0]], &[[5, 0, 1, 0], [6, 1, 0, 0]]),
        yes
    );
}

#[test]
fn not_contained() {
    let c = [[5, 0, 1, 0], [3, 1, 2, 1]];
    let d = [[5, 0, 1, 0], [3, 1, 2, 1], [4, 1, 2, 1]];
    assert_eq!(compared(&c, &d), shown(3, &[[7, 0, 1, 0], [7, 1, 2, 1]]));
    assert_eq!(
        compared(&[[3, 0, 1, 2], [4, 0, 1, 2]], &[[3, 0, 1, 3]]),
        shown(1, &[[7, 0, 1, 1]])
    );
    assert_eq!(
        compared(&[], &[[4, 0, 1, 65_535]]),
        shown(1, &[[7, 0, 1, 65_535]])
    );
    assert_eq!(
        compared(&[[1, 0, 7, 0]], &[[2, 0, 8, 0]]),
        shown(1, &[[1, 0, 7, 0], [1, 0, 8, 0]])
    );
    assert_eq!(compared(&[], &[[6, 0, 0, 0]]), shown(1, &[]));
}

#[test]
fn normal_forms() {
    let mut out = [FILL; 513];
    let d = blocks(&[[5, 0, 1, 0], [5, 1, 2, 0], [6, 2, 0, 0], [3, 1, 2, 1]]);
    assert_eq!(normal_form(&d, &mut out), Ok(1));
    assert_eq!(out[..512], blocks(&[[4, 0, 1, 0]]));
    assert_eq!(out[512], FILL);
    assert_eq!(
        normal_form(&blocks(&[[3, 0, 1, 3], [4, 0, 1, 2]]), &mut out),
        Ok(1)
    );
    assert_eq!(out[..512], blocks(&[[6, 0, 0, 0]]));
}

#[test]
fn fitting() {
    let s = blocks(&[[7, 0, 1, 1], [1, 1, 7, 0], [7, 0, 1, 0]]);
    assert_eq!(fit(&s, &blocks(&[[3, 0, 1, 3]])), Ok(Fit::Yes));
    assert_eq!(fit(&s, &blocks(&[[4, 0, 1, 2]])), Ok(Fit::No));
    assert_eq!(fit(&s, &blocks(&[[5, 0, 1, 0], [1, 1, 7, 0]])), Ok(Fit::No));
}

#[test]
fn one_slice_may_be_both_inputs() {
    let both = blocks(&[[1, 0, 7, 0]]);
    assert_eq!(fit(&both, &both), Ok(Fit::Yes));
    assert_eq!(
        compare(&both, &both, &mut [0; 1024]),
        Ok(Comparison::Contained)
    );
}

#[test]
fn inputs_may_overlap() {
    let entries: Vec<[u16; 4]> = (1..=70).map(|n| [1, 0, n, 0]).collect();
    let both = blocks(&entries);
    let first = &both[..512];
    let mut out = [FILL; 1536];
    assert_eq!(compare(&both, first, &mut out), Ok(Comparison::Contained));
    assert_eq!(fit(&both, first), Ok(Fit::Yes));
    assert_eq!(fit(first, &both), Ok(Fit::No));
    let shown = Comparison::NotContained {
        entry: 64,
        entries: 63,
    };
    assert_eq!(compare(first, &both, &mut out), Ok(shown));
    assert_eq!(out[..512], *first);
}

#[test]
fn the_largest_inputs() {
    let entries: Vec<[u16; 4]> = (1..=2016).map(|n| [1, 0, n, 0]).collect();
    assert_eq!(read_description(&blocks(&entries[..1008])), Ok(1008));
    assert_eq!(read_specimen(&blocks(&entries)), Ok(2016));
    assert_eq!(
        read_description(&blocks(&entries)),
        refusal(Reason::Length, 1, 0)
    );
}

#[test]
fn refusals_of_inputs() {
    let mut d = blocks(&[]);
    assert_eq!(read_description(&d[..511]), refusal(Reason::Length, 1, 0));
    assert_eq!((d[0], d[508], d[510]), (1, 1, 2));
    d[510] = 3;
    assert_eq!(read_description(&d), refusal(Reason::Check, 1, 1));
    // The first check is right for the second.
    d[508] = 2;
    assert_eq!(read_description(&d), refusal(Reason::Check, 1, 1));
    // The second check is right for block number 2, and then the first.
    d[0] = 2;
    assert_eq!(read_description(&d), refusal(Reason::Check, 1, 1));
    d[510] = 4;
    assert_eq!(read_description(&d), refusal(Reason::Frame, 1, 1));
    let has = [1, 0, 7, 0];
    assert_eq!(
        read_description(&blocks(&[has, [7, 0, 1, 0]])),
        refusal(Reason::Form, 1, 2)
    );
    assert_eq!(
        read_specimen(&blocks(&[has, [2, 0, 1, 0]])),
        refusal(Reason::Form, 1, 2)
    );
    assert_eq!(
        read_specimen(&blocks(&[has, [1, 1, 7, 0]])),
        refusal(Reason::Owner, 1, 2)
    );
    let deep: Vec<[u16; 4]> = (0..34).map(|owner| [5, owner, 1, 0]).collect();
    assert_eq!(read_description(&blocks(&deep[..33])), Ok(33));
    assert_eq!(
        read_description(&blocks(&deep)),
        refusal(Reason::Depth, 1, 34)
    );
    assert_eq!(
        fit(&blocks(&[]), &blocks(&deep)),
        refusal(Reason::Depth, 2, 34)
    );
}

/// Links from 32,768 up lead to one item only.
#[test]
fn second_items() {
    let second = |place| refusal(Reason::SecondItem, 1, place);
    assert_eq!(read_specimen(&blocks(&[[7, 0, 32_767, 1]])), Ok(1));
    assert_eq!(read_specimen(&blocks(&[[7, 0, 32_768, 0]])), Ok(1));
    assert_eq!(read_specimen(&blocks(&[[7, 0, 32_768, 1]])), second(1));
    let twice = [[7, 0, 1, 3], [7, 1, 65_535, 0], [7, 1, 65_535, 0]];
    assert_eq!(read_specimen(&blocks(&twice[..2])), Ok(2));
    assert_eq!(read_specimen(&blocks(&twice)), second(3));
    let refused: Result<Fit, Refusal> = refusal(Reason::SecondItem, 1, 3);
    assert_eq!(fit(&blocks(&twice), &blocks(&[])), refused);
    assert_eq!(fit(&blocks(&twice), &[]), refused);
}

#[test]
fn descriptions_with_links_to_one_item() {
    let yes = (Comparison::Contained, vec![]);
    assert_eq!(compared(&[], &[[4, 0, 32_768, 1]]), yes);
    assert_eq!(compared(&[[3, 0, 32_768, 2]], &[[6, 0, 0, 0]]), yes);
    assert_eq!(
        compared(&[], &[[4, 0, 32_768, 0]]),
        shown(1, &[[7, 0, 32_768, 0]])
    );
    let mut out = [FILL; 512];
    let d = blocks(&[[5, 0, 1, 0], [4, 1, 32_768, 9]]);
    assert_eq!(normal_form(&d, &mut out), Ok(0));
    let d = blocks(&[[5, 0, 1, 0], [3, 1, 32_768, 2]]);
    assert_eq!(normal_form(&d, &mut out), Ok(1));
    assert_eq!(out[..], blocks(&[[4, 0, 1, 0]]));
}

/// Two entries that changed places: told by the second check, unless their word sums are equal.
#[test]
fn exchanged_entries() {
    let exchanged = |entries: &[[u16; 4]]| {
        let mut bytes = blocks(entries);
        let (one, other) = bytes[4..20].split_at_mut(8);
        one.swap_with_slice(other);
        bytes
    };
    let told = exchanged(&[[1, 0, 7, 0], [3, 0, 1, 2]]);
    assert_eq!(read_description(&told), refusal(Reason::Check, 1, 1));
    let equal = exchanged(&[[1, 0, 8, 0], [2, 0, 7, 0]]);
    assert_eq!(equal, blocks(&[[2, 0, 7, 0], [1, 0, 8, 0]]));
    assert_eq!(read_description(&equal), Ok(2));
}

#[test]
fn a_refused_call_leaves_the_output() {
    let (good, bad) = (blocks(&[]), blocks(&[[7, 0, 1, 0]]));
    let mut out = [FILL; 1024];
    assert_eq!(normal_form(&bad, &mut out), refusal(Reason::Form, 1, 1));
    assert_eq!(compare(&bad, &good, &mut out), refusal(Reason::Form, 1, 1));
    assert_eq!(compare(&good, &bad, &mut out), refusal(Reason::Form, 2, 1));
    assert_eq!(
        normal_form(&good, &mut out[..511]),
        refusal(Reason::Output, 0, 0)
    );
    assert_eq!(
        compare(&good, &good, &mut out[..1023]),
        refusal(Reason::Output, 0, 0)
    );
    assert_eq!(out, [FILL; 1024]);
}

/// Every call, on inputs that lead far down.
fn call_all() {
    let wide: Vec<[u16; 4]> = (1..=1008)
        .map(|n: u16| [3, 0, (u32::from(n) * 397 % 1009) as u16, 1])
        .collect();
    let wide = blocks(&wide);
    let chain = |kind| blocks(&(0..33).map(|owner| [kind, owner, 1, 0]).collect::<Vec<_>>());
    // Chains of 32 groups by a link that leads to one item only, below groups by another.
    let single: Vec<[u16; 4]> = (0..2016)
        .map(|before| match before % 33 {
            0 => [7, 0, 1, 0],
            _ => [7, before, 32_768, 0],
        })
        .collect();
    let single = blocks(&single);
    let mut out = vec![0; wide.len() + 512];
    assert_eq!(read_description(&wide), Ok(1008));
    assert_eq!(read_specimen(&chain(7)), Ok(33));
    assert_eq!(fit(&chain(7), &chain(5)), Ok(Fit::Yes));
    assert_eq!(read_specimen(&single), Ok(2016));
    assert_eq!(fit(&single, &chain(5)), Ok(Fit::Yes));
    assert_eq!(normal_form(&wide, &mut out), Ok(1008));
    assert_eq!(
        compare(&wide, &chain(5), &mut out),
        Ok(Comparison::Contained)
    );
}

fn on_a_small_stack(calls: fn()) {
    let thread = std::thread::Builder::new().stack_size(128 * 1024);
    thread.spawn(calls).unwrap().join().unwrap();
}

#[test]
fn a_stack_of_128_kib_has_room() {
    on_a_small_stack(call_all);
}
