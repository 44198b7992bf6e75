//! All services in one call.

use crate::background::Background;
use crate::blocks::Entry;
use crate::compare::first_that_fails;
use crate::list::cut;
use crate::refusal::{Refusal, LENGTH};
use crate::rules::normal_place;
use crate::tree::top_place;

/// The input number of the supplier's description.
const SUPPLIER: u16 = 1;
/// The input number of the list of services as a whole: at input 2, place 0
/// (L6).
const LIST: u16 = 2;

/// Compares one description with each of a list of services, fills one byte for
/// each service, and answers the number of bytes filled. Later bytes stay.
///
/// A byte for each service, as the single comparison answers (L3) (L4).
///
/// 7 last, for fewer bytes than services (L7): no specimen is written, so no
/// other length counts.
pub fn catalogue(
    pairs: &[u8],
    dict: &[u8],
    c: &[u8],
    list: &[u8],
    out: &mut [u8],
) -> Result<usize, Refusal> {
    let Background { pairs, dictionary } = Background::read(pairs, dict)?;
    let c_entries = dictionary.read_description(c, SUPPLIER)?;
    let services = read_services(list, |service, input| {
        dictionary.read_description(service, input)
    })?;
    let Some(answers) = out.get_mut(..services.len()) else {
        return Err(Refusal::output_too_short());
    };
    // The normal form of C (C2).
    let n = normal_place(top_place(&c_entries), &pairs);
    for (answer, service) in answers.iter_mut().zip(&services) {
        // Every entry holds: contained (C5).
        let contained = first_that_fails(&n, service, &pairs).is_none();
        *answer = u8::from(contained);
    }
    Ok(services.len())
}

/// The services of an accepted list, each as it is read by itself.
///
/// 1 for a list of length 0 or no multiple of 512 (L6), then 8, both before the
/// services' own (L6) checks. Then each service in full, 14 included, before
/// the next is looked at: the n-th service is input 1 + n (L5).
pub(crate) fn read_services(
    list: &[u8],
    read: impl Fn(&[u8], u16) -> Result<Vec<Entry>, Refusal>,
) -> Result<Vec<Vec<Entry>>, Refusal> {
    if list.is_empty() {
        return Err(Refusal::at(LENGTH, LIST, 0));
    }
    let mut services = Vec::new();
    // Position 1 is input 2, which is also that of the list.
    for (input, service) in (LIST..).zip(cut(list, LIST)?) {
        services.push(read(service, input)?);
    }
    Ok(services)
}
