//! Named descriptions: the dictionary, unfolding, and the calls that take a dictionary.

use super::*;
use goltximen::{unfold, Under};

/// "as described under this number", owned by this entry.
pub fn named(owner: u16, name: u16) -> [u16; 4] {
    [9, owner, name, 0]
}

/// The blocks of these descriptions, end to end.
pub fn laid(descriptions: &[&[[u16; 4]]]) -> Vec<u8> {
    descriptions.iter().flat_map(|d| blocks(d)).collect()
}

/// 'every' of link 1, each owned by the one before: the last has a depth of one less than there are.
fn chain(length: u16) -> Vec<[u16; 4]> {
    (0..length).map(|owner| [5, owner, 1, 0]).collect()
}

fn with(dictionary: &[u8]) -> Under<'_> {
    Under {
        dictionary,
        ..Under::default()
    }
}

/// What unfolding writes, with an output that is just long enough for a description of any size.
fn unfolded(dictionary: &[u8], d: &[[u16; 4]]) -> Result<Vec<u8>, Refusal> {
    let mut out = vec![FILL; 16 * 512];
    let entries = unfold(dictionary, &blocks(d), &mut out)?;
    let written = 512 * entries.div_ceil(63).max(1);
    assert!(out[written..].iter().all(|&byte| byte == FILL));
    out.truncate(written);
    Ok(out)
}

/// Every call that takes a dictionary refuses this one, whatever the inputs are, and leaves the output.
fn dictionary_refused(dictionary: &[u8], reason: Reason, input: u16, place: u16) {
    let with = with(dictionary);
    let (good, bad) = (blocks(&[]), blocks(&[[8, 0, 1, 0]]));
    for input_1 in [&good, &bad, &Vec::new()] {
        let mut out = [FILL; 1024];
        assert_eq!(
            unfold(dictionary, input_1, &mut out),
            refusal(reason, input, place)
        );
        assert_eq!(with.fit(input_1, &bad), refusal(reason, input, place));
        assert_eq!(
            with.normal_form(input_1, &mut out),
            refusal(reason, input, place)
        );
        assert_eq!(
            with.compare(input_1, &bad, &mut out[..1]),
            refusal(reason, input, place)
        );
        assert_eq!(
            with.narrowest(input_1, &bad, &mut out[..1]),
            refusal(reason, input, place)
        );
        assert_eq!(out, [FILL; 1024]);
    }
}

/// Every call that takes a dictionary refuses this description, as input 1 and as input 2.
fn description_refused(dictionary: &[u8], d: &[[u16; 4]], reason: Reason, place: u16) {
    let (with, d, good) = (with(dictionary), blocks(d), blocks(&[]));
    let mut out = [FILL; 1024];
    assert_eq!(unfold(dictionary, &d, &mut out), refusal(reason, 1, place));
    assert_eq!(with.fit(&good, &d), refusal(reason, 2, place));
    assert_eq!(with.normal_form(&d, &mut out), refusal(reason, 1, place));
    assert_eq!(
        with.compare(&d, &d, &mut out[..1]),
        refusal(reason, 1, place)
    );
    assert_eq!(
        with.compare(&good, &d, &mut out[..1]),
        refusal(reason, 2, place)
    );
    assert_eq!(out, [FILL; 1024]);
}

#[test]
fn contents_take_the_place_of_their_name() {
    let core: &[[u16; 4]] = &[[1, 0, 7, 0], [5, 0, 2, 0], [2, 2, 8, 0]];
    // Empty; the core; two of the core below an 'every'; a name of the empty one.
    let twice = [named(0, 1), [5, 0, 3, 0], named(2, 2), named(2, 2)];
    let dictionary = laid(&[&[], core, &twice, &[named(0, 1), named(0, 1)]]);
    assert_eq!(unfolded(&dictionary, &[]), Ok(blocks(&[])));
    assert_eq!(unfolded(&dictionary, core), Ok(blocks(core)));
    for empty in [1, 4] {
        let d = [named(0, empty), [5, 0, 1, 0], named(2, empty), [1, 2, 9, 0]];
        let plain = [[5, 0, 1, 0], [1, 1, 9, 0]];
        assert_eq!(unfolded(&dictionary, &d), Ok(blocks(&plain)));
    }
    let d = [[5, 0, 1, 0], named(1, 2), [1, 1, 9, 0], named(0, 2)];
    let plain = [
        [5, 0, 1, 0],
        [1, 1, 7, 0],
        [5, 1, 2, 0],
        [2, 3, 8, 0],
        [1, 1, 9, 0],
        [1, 0, 7, 0],
        [5, 0, 2, 0],
        [2, 7, 8, 0],
    ];
    assert_eq!(unfolded(&dictionary, &d), Ok(blocks(&plain)));
    let d = [[5, 0, 1, 0], named(1, 3)];
    let plain = [
        [5, 0, 1, 0],
        [5, 1, 3, 0],
        [1, 2, 7, 0],
        [5, 2, 2, 0],
        [2, 4, 8, 0],
        [1, 2, 7, 0],
        [5, 2, 2, 0],
        [2, 7, 8, 0],
    ];
    assert_eq!(unfolded(&dictionary, &d), Ok(blocks(&plain)));
}

/// Answers and written bytes are those for the unfolded descriptions, the entry that fails and the output's length among them.
#[test]
fn the_calls_answer_for_what_is_unfolded() {
    let sealed: Vec<[u16; 4]> = (1..=40).map(|n| [1, 0, n, 0]).collect();
    let dictionary = laid(&[&sealed, &[[2, 0, 9, 0]]]);
    let c = [named(0, 1), [5, 0, 1, 0], named(2, 1)];
    let d = [named(0, 1), named(0, 2), [1, 0, 99, 0]];
    let plain = [&c[..], &d].map(|entries| unfolded(&dictionary, entries).unwrap());
    assert_eq!(plain.each_ref().map(Vec::len), [1024, 512]);
    let (with, c, d) = (with(&dictionary), blocks(&c), blocks(&d));
    let mut outs = [vec![FILL; 1537], vec![FILL; 1537]];
    for length in [1024, 1535, 1536, 1537] {
        assert_eq!(
            with.compare(&c, &d, &mut outs[0][..length]),
            compare(&plain[0], &plain[1], &mut outs[1][..length])
        );
        assert_eq!(outs[0], outs[1]);
    }
    let shown = Comparison::NotContained {
        entry: 41,
        entries: 40,
    };
    assert_eq!(with.compare(&c, &d, &mut outs[0]), Ok(shown));
    for length in [512, 1023, 1024, 1025] {
        assert_eq!(
            with.normal_form(&c, &mut outs[0][..length]),
            normal_form(&plain[0], &mut outs[1][..length])
        );
        assert_eq!(outs[0], outs[1]);
    }
    let specimen = blocks(&sealed);
    assert_eq!(with.fit(&specimen, &c), Ok(Fit::Yes));
    assert_eq!(with.fit(&specimen, &d), Ok(Fit::No));
    // A specimen names nothing.
    assert_eq!(with.fit(&c, &d), refusal(Reason::Form, 1, 1));
}

/// 64 names of an empty description are two blocks as sent, and one is enough for what is written.
#[test]
fn outputs_by_what_is_unfolded() {
    let (dictionary, d) = (blocks(&[]), blocks(&[named(0, 1); 64]));
    let mut out = [FILL; 512];
    assert_eq!(d.len(), 1024);
    assert_eq!(
        unfold(&dictionary, &d, &mut out[..511]),
        refusal(Reason::Output, 0, 0)
    );
    assert_eq!(
        with(&dictionary).normal_form(&d, &mut out[..511]),
        refusal(Reason::Output, 0, 0)
    );
    assert_eq!(out, [FILL; 512]);
    assert_eq!(unfold(&dictionary, &d, &mut out), Ok(0));
    assert_eq!(out[..], blocks(&[]));
    assert_eq!(with(&dictionary).normal_form(&d, &mut out), Ok(0));
}

#[test]
fn refused_dictionaries() {
    let one = blocks(&[[1, 0, 7, 0]]);
    dictionary_refused(&one[..511], Reason::Length, 100, 0);
    dictionary_refused(&[&one[..], &[1]].concat(), Reason::Length, 100, 0);
    dictionary_refused(&one.repeat(65), Reason::TooMany, 100, 0);
    // All of it is one description, since no later block has the number 1.
    dictionary_refused(&[2; 65 * 512], Reason::Length, 101, 0);
    dictionary_refused(&[2; 512], Reason::Check, 101, 1);
    let long = vec![[1, 0, 7, 0]; 1009];
    dictionary_refused(&laid(&[&[], &long]), Reason::Length, 102, 0);
    dictionary_refused(&laid(&[&[], &[[7, 0, 1, 0]]]), Reason::Form, 102, 1);
    // It names itself, a later one, one that is not there, none.
    for name in [2, 3, 4, 0] {
        let dictionary = laid(&[&[], &[[1, 0, 7, 0], named(0, name)], &[]]);
        dictionary_refused(&dictionary, Reason::Name, 102, 2);
    }
    // Nothing else is wrong with the last of 64, nor with 64 of 16 blocks.
    let full = blocks(&long[..1008]);
    assert_eq!(unfold(&full.repeat(64), &one, &mut [0; 512]), Ok(1));
    let last = [&full.repeat(63)[..], &blocks(&[named(0, 64)])].concat();
    dictionary_refused(&last, Reason::Name, 164, 1);
}

#[test]
fn refused_names() {
    let dictionary = laid(&[&[[1, 0, 7, 0]], &[]]);
    for name in [0, 3, 257, 65_535] {
        description_refused(&dictionary, &[named(0, 1), named(0, name)], Reason::Name, 2);
        // After 4 and before 5.
        description_refused(&dictionary, &[named(5, name)], Reason::Name, 1);
        description_refused(&dictionary, &[[9, 0, name, 1]], Reason::Form, 1);
    }
    // Nothing is owned by a named entry.
    for name in [1, 2] {
        description_refused(
            &dictionary,
            &[named(0, name), [1, 1, 7, 0]],
            Reason::Owner,
            2,
        );
    }
    // A name stands at depth 32, and not at 33, even if it stands for nothing.
    let mut deep = chain(33);
    deep.push(named(32, 1));
    assert!(unfolded(&dictionary, &deep).is_ok());
    deep[33] = named(33, 2);
    description_refused(&dictionary, &deep, Reason::Depth, 34);
}

/// Without a dictionary an entry of kind 9 is refused as 13; the readers take none, and refuse it as 4.
#[test]
fn no_dictionary() {
    let d = blocks(&[[1, 0, 7, 0], named(0, 1)]);
    description_refused(&[], &[[1, 0, 7, 0], named(0, 1)], Reason::Name, 2);
    let mut out = [FILL; 1024];
    assert_eq!(normal_form(&d, &mut out), refusal(Reason::Name, 1, 2));
    assert_eq!(compare(&d, &d, &mut out), refusal(Reason::Name, 1, 2));
    assert_eq!(fit(&blocks(&[]), &d), refusal(Reason::Name, 2, 2));
    assert_eq!(read_description(&d), refusal(Reason::Form, 1, 2));
    assert_eq!(read_specimen(&d), refusal(Reason::Form, 1, 2));
}

/// 1,008 entries and depth 32 once unfolded, and one more.
#[test]
fn too_much_once_unfolded() {
    let sixteen = [[1, 0, 7, 0]; 16];
    let dictionary = laid(&[&sixteen, &chain(17), &[]]);
    let names = [named(0, 1); 63];
    assert_eq!(unfolded(&dictionary, &names).unwrap().len(), 16 * 512);
    let more = [&names[..], &[[1, 0, 7, 0]]].concat();
    description_refused(&dictionary, &more, Reason::Unfolded, 0);
    let mut deep = chain(16);
    deep.push(named(16, 2));
    assert_eq!(unfolded(&dictionary, &deep), Ok(blocks(&chain(33))));
    deep = chain(17);
    deep.push(named(17, 2));
    description_refused(&dictionary, &deep, Reason::Unfolded, 0);
    // After the other checks of that input, and in the dictionary too.
    deep.push([8, 0, 1, 0]);
    description_refused(&dictionary, &deep, Reason::Form, 19);
    deep.pop();
    let longer = [&dictionary[..], &blocks(&deep)].concat();
    dictionary_refused(&longer, Reason::Unfolded, 104, 0);
}

#[test]
fn the_list_before_the_dictionary() {
    let under = Under {
        pairs: &[7, 0, 7, 0],
        dictionary: &[1],
    };
    assert_eq!(under.fit(&[], &[]), refusal(Reason::Pairs, 0, 1));
    assert_eq!(
        under.normal_form(&[], &mut []),
        refusal(Reason::Pairs, 0, 1)
    );
    assert_eq!(
        under.compare(&[], &[], &mut []),
        refusal(Reason::Pairs, 0, 1)
    );
    // Both in one call.
    let dictionary = laid(&[&[[1, 0, 7, 0]]]);
    let under = Under {
        pairs: &[7, 0, 8, 0],
        dictionary: &dictionary,
    };
    let (c, d) = (blocks(&[named(0, 1)]), blocks(&[[2, 0, 8, 0]]));
    let mut out = [FILL; 1024];
    assert_eq!(under.compare(&c, &d, &mut out), Ok(Comparison::Contained));
}

/// Every call, with a dictionary and inputs that lead far down: a chain of empty names, each named 1,008 times by the next, and
/// below it the largest description by names of names.
fn call_all() {
    let mut dictionary = blocks(&[]);
    for name in 1..=60 {
        dictionary.extend(blocks(&[named(0, name); 1008]));
    }
    let sixteen: Vec<[u16; 4]> = (1..=16).map(|n| [3, 0, n, 1]).collect();
    dictionary.extend(blocks(&sixteen));
    dictionary.extend(blocks(&[named(0, 62); 9]));
    dictionary.extend(blocks(&[named(0, 63); 7]));
    let empty = blocks(&[named(0, 61); 1008]);
    let full = blocks(&[named(0, 64)]);
    let mut out = vec![0; 2 * 16 * 512];
    let with = with(&dictionary);
    assert_eq!(unfold(&dictionary, &empty, &mut out), Ok(0));
    assert_eq!(unfold(&dictionary, &full, &mut out), Ok(1008));
    assert_eq!(with.normal_form(&full, &mut out), Ok(16));
    assert_eq!(
        with.compare(&full, &full, &mut out),
        Ok(Comparison::Contained)
    );
    assert_eq!(with.fit(&blocks(&[]), &full), Ok(Fit::No));
}

#[test]
fn a_small_stack_has_room() {
    on_a_small_stack(call_all);
}
