//! The catalogue: one description against a list of services.

use super::named::{laid, named};
use super::*;
use goltximen::Under;

const HAS_7: [u16; 4] = [1, 0, 7, 0];
const HAS_8: [u16; 4] = [1, 0, 8, 0];
const LACKS_8: [u16; 4] = [2, 0, 8, 0];

/// The bytes that are filled, in an output longer than needed of which the rest stays.
fn filled(under: Under, supplier: &[u8], list: &[u8]) -> Result<Vec<u8>, Refusal> {
    let mut out = [FILL; 70];
    let count = under.catalogue(supplier, list, &mut out);
    let rest = &out[*count.as_ref().unwrap_or(&0)..];
    assert!(rest.iter().all(|&byte| byte == FILL));
    count.map(|count| out[..count].to_vec())
}

/// Both calls refuse the list of these services with this.
fn refused(supplier: &[u8], services: &[&[u8]], due: Result<Vec<u8>, Refusal>) {
    let under = Under::default();
    assert_eq!(filled(under, supplier, &services.concat()), due);
    let due = due.map(|_| Vec::new());
    assert_eq!(under.catalogue_of(supplier, services), due);
}

#[test]
fn a_byte_for_each_service() {
    let list = laid(&[&[HAS_7], &[HAS_8], &[], &[LACKS_8], &[[6, 0, 0, 0]]]);
    let supplier = blocks(&[HAS_7]);
    let none = Under::default();
    assert_eq!(filled(none, &supplier, &list), Ok(vec![1, 0, 1, 0, 0]));
    let under = Under {
        pairs: &[8, 0, 7, 0],
        ..none
    };
    assert_eq!(filled(under, &supplier, &list), Ok(vec![1, 0, 1, 1, 0]));
    let dictionary = laid(&[&[HAS_8], &[HAS_7]]);
    let with = Under {
        dictionary: &dictionary,
        ..none
    };
    let (supplier, list) = (
        blocks(&[named(0, 2)]),
        laid(&[&[named(0, 2)], &[named(0, 1)]]),
    );
    assert_eq!(filled(with, &supplier, &list), Ok(vec![1, 0]));
    assert_eq!(filled(none, &supplier, &list), refusal(Reason::Name, 1, 1));
}

/// Each byte is that of the single comparison; up to 64 services, and up to 1,008 entries in each.
#[test]
fn as_single_comparisons() {
    let names = |count: u16| (1..=count).map(|n| [1, 0, n, 0]).collect::<Vec<_>>();
    let supplier = blocks(&names(500));
    for count in [1, 2, 63, 64] {
        let services: Vec<Vec<u8>> = (1..=count).map(|n| blocks(&names(n * 15))).collect();
        let slices: Vec<&[u8]> = services.iter().map(Vec::as_slice).collect();
        let found = Under::default().catalogue_of(&supplier, &slices).unwrap();
        for (service, &contained) in services.iter().zip(&found) {
            let mut out = vec![0; supplier.len() + service.len()];
            let single = compare(&supplier, service, &mut out).unwrap();
            assert_eq!(single == Comparison::Contained, contained);
        }
        let bytes = filled(Under::default(), &supplier, &services.concat());
        assert_eq!(bytes, Ok(found.into_iter().map(u8::from).collect()));
    }
}

#[test]
fn lists_that_are_refused() {
    let good = blocks(&[HAS_7]);
    refused(&good, &[], refusal(Reason::Length, 2, 0));
    let too_many = [&good[..]; 65];
    refused(&good, &too_many, refusal(Reason::TooMany, 2, 0));
    refused(&[], &too_many, refusal(Reason::Length, 1, 0));
    let part = [&good[..], &good[..511]].concat();
    assert_eq!(
        filled(Under::default(), &good, &part),
        refusal(Reason::Length, 2, 0)
    );
}

/// Services are inputs 2 to 65, and each is checked in full before the next.
#[test]
fn services_that_are_refused() {
    let (good, bad) = (blocks(&[HAS_7]), blocks(&[HAS_7, [8, 0, 1, 0]]));
    let long = blocks(&[HAS_7; 1009]);
    let mut wrong = good.clone();
    wrong[510] ^= 1;
    for before in [0, 1, 30, 63] {
        let input = 2 + before as u16;
        for (service, reason, place) in [
            (&bad, Reason::Form, 2),
            (&long, Reason::Length, 0),
            (&wrong, Reason::Check, 1),
        ] {
            let mut services = vec![&good[..]; before];
            services.push(service);
            refused(&good, &services, refusal(reason, input, place));
            services.resize(64, &wrong);
            refused(&good, &services, refusal(reason, input, place));
        }
    }
    refused(&bad, &[&bad, &good], refusal(Reason::Form, 1, 2));
}

/// A later block with another number than 1 belongs to the service before it; the slices are refused as they are alone.
#[test]
fn slices_that_are_not_one_service() {
    let (full, second) = (block(1, &[HAS_7; 63]), block(2, &[HAS_7]));
    let good = blocks(&[HAS_7]);
    let under = Under::default();
    let of = |services: &[&[u8]]| under.catalogue_of(&good, services);
    assert_eq!(of(&[&[&full[..], &second].concat()]), Ok(vec![true]));
    let joined = [&full[..], &second].concat();
    assert_eq!(filled(under, &good, &joined), Ok(vec![1]));
    assert_eq!(of(&[&full, &second]), refusal(Reason::Frame, 3, 1));
    assert_eq!(of(&[&second, &full]), refusal(Reason::Frame, 2, 1));
    let two = [&full[..], &good].concat();
    assert_eq!(filled(under, &good, &two), Ok(vec![1, 1]));
    assert_eq!(of(&[&good, &two]), refusal(Reason::Frame, 3, 2));
    assert_eq!(of(&[&good, &[], &good]), refusal(Reason::Length, 3, 0));
    assert_eq!(
        of(&[&good, &good[..511], &good[511..]]),
        refusal(Reason::Length, 3, 0)
    );
    // What is refused before: the pairs, the supplier, an earlier service, and more than 64.
    let bad = blocks(&[[8, 0, 1, 0]]);
    assert_eq!(of(&[&bad, &[]]), refusal(Reason::Form, 2, 1));
    assert_eq!(
        under.catalogue_of(&bad, &[&good, &[]]),
        refusal(Reason::Form, 1, 1)
    );
    assert_eq!(of(&[&[][..]; 65]), refusal(Reason::TooMany, 2, 0));
    let wrong = Under {
        pairs: &[1],
        ..under
    };
    assert_eq!(
        wrong.catalogue_of(&bad, &[&[]]),
        refusal(Reason::Pairs, 0, 0)
    );
}

/// 7 where there are fewer bytes than services, after all else; a refused call leaves the output.
#[test]
fn the_output() {
    let (good, bad) = (blocks(&[HAS_7]), blocks(&[[8, 0, 1, 0]]));
    let list = good.repeat(3);
    let under = Under::default();
    for length in [0, 1, 2] {
        let mut out = vec![FILL; length];
        let answer = under.catalogue(&good, &list, &mut out);
        assert_eq!(answer, refusal(Reason::Output, 0, 0));
        let answer = under.catalogue(&good, &[&list[..], &bad].concat(), &mut out);
        assert_eq!(answer, refusal(Reason::Form, 5, 1));
        assert_eq!(out, vec![FILL; length]);
    }
    let mut out = [FILL; 3];
    assert_eq!(under.catalogue(&good, &list, &mut out), Ok(3));
    assert_eq!(out, [1; 3]);
}

/// The lists of services at the end of docs/FORMAT.md.
#[test]
fn as_the_format_says() {
    let (under, good, bad) = (Under::default(), blocks(&[HAS_7]), [8, 0, 1, 0]);
    let list_refused = |list: &[u8], reason, input, place| {
        let due: Result<Vec<u8>, Refusal> = refusal(reason, input, place);
        assert_eq!(filled(under, &good, list), due);
    };
    list_refused(&[], Reason::Length, 2, 0);
    list_refused(&[&good[..], &[0]].concat(), Reason::Length, 2, 0);
    list_refused(&blocks(&[bad]).repeat(65), Reason::TooMany, 2, 0);
    list_refused(
        &laid(&[&[HAS_7], &[HAS_8, bad], &[bad]]),
        Reason::Form,
        3,
        2,
    );
    list_refused(&laid(&[&[HAS_7], &[HAS_7; 1009]]), Reason::Length, 3, 0);
    list_refused(&block(2, &[HAS_7]), Reason::Frame, 2, 1);
    let after_full = |number| [block(1, &[HAS_7; 63]), block(number, &[HAS_8])].concat();
    assert_eq!(filled(under, &good, &after_full(1)), Ok(vec![1, 0]));
    assert_eq!(filled(under, &good, &after_full(2)), Ok(vec![0]));
    list_refused(&after_full(3), Reason::Frame, 2, 2);
    let list = laid(&[&[HAS_7], &[HAS_8], &[]]);
    let answer = under.catalogue(&good, &list, &mut [FILL; 2]);
    assert_eq!(answer, refusal(Reason::Output, 0, 0));
}

/// The supplier may be part of the list, and the list the dictionary.
#[test]
fn inputs_may_be_the_same() {
    let list = laid(&[&[HAS_8], &[HAS_7]]);
    let with = Under {
        dictionary: &list,
        ..Under::default()
    };
    assert_eq!(filled(with, &list[512..], &list), Ok(vec![0, 1]));
}

/// 64 services that lead far down, with a dictionary and pairs.
fn call_it() {
    let wide: Vec<[u16; 4]> = (1..=1008).map(|n| [3, 0, n, 1]).collect();
    let chain: Vec<[u16; 4]> = (0..33).map(|owner| [5, owner, 1, 0]).collect();
    let dictionary = laid(&[&wide, &chain]);
    let under = Under {
        pairs: &[7, 0, 8, 0],
        dictionary: &dictionary,
    };
    let list = laid(&[&[named(0, 1)], &[named(0, 2)]]).repeat(32);
    let found = filled(under, &blocks(&[named(0, 1)]), &list);
    assert_eq!(found, Ok(vec![1; 64]));
}

#[test]
fn a_small_stack_has_room() {
    on_a_small_stack(call_it);
}
