//! One description against a list of services: the supplier is read, slotted and settled once, and each service is judged while its
//! bytes are warm.

use super::compare::{enter_all, first_failing};
use super::list::{Parts, MOST};
use super::names::{Names, ROOM};
use super::pairs::Pairs;
use super::read::{refusal, Described};
use super::slots::Slots;
use super::{size, Refusal, Size, TOO_SHORT};

/// The input number of the list, and of its first service.
const LIST: u16 = 2;

/// Fills a byte for each service, 1 where C is contained in it and otherwise 0, and answers their number.
pub fn catalogue(
    pairs: &[u8],
    dictionary: &[u8],
    c: &[u8],
    list: &[u8],
    out: &mut [u8],
) -> Result<usize, Refusal> {
    let pairs = Pairs::read(pairs)?;
    let Some(names) = Names::read(dictionary)? else {
        return under(pairs.as_ref(), None, Described::Sent(c), list, out);
    };
    let mut rooms = [[0; ROOM]; 2];
    let [room, other] = &mut rooms;
    let c = Described::Unfolded(names.unfolded(c, 1, room)?);
    under(pairs.as_ref(), Some((&names, other)), c, list, out)
}

/// A dictionary, and the room for services that are unfolded.
type Naming<'a> = (&'a Names<'a>, &'a mut [u8; ROOM]);

fn under(
    pairs: Option<&Pairs>,
    naming: Option<Naming>,
    c: Described,
    list: &[u8],
    out: &mut [u8],
) -> Result<usize, Refusal> {
    match size(c.bytes().len()) {
        Size::Small => sized::<64>(pairs, naming, c, list, out),
        Size::Middle => sized::<256>(pairs, naming, c, list, out),
        Size::Large => sized::<1024>(pairs, naming, c, list, out),
    }
}

fn sized<const N: usize>(
    pairs: Option<&Pairs>,
    mut naming: Option<Naming>,
    c: Described,
    list: &[u8],
    out: &mut [u8],
) -> Result<usize, Refusal> {
    let mut slots = Slots::<N>::new();
    enter_all(&mut slots, pairs, c)?;
    let services = Parts::of(list, LIST)?;
    if services.is_empty() {
        return Err(refusal(1, LIST, 0));
    }
    let mut bytes = [0; MOST];
    let mut count = 0;
    for (input, service) in (LIST..).zip(services) {
        let service = service.as_flattened();
        let service = match &mut naming {
            None => Described::Sent(service),
            Some((names, room)) => Described::Unfolded(names.unfolded(service, input, room)?),
        };
        let failing = judged(pairs, &slots, service, input)?;
        bytes[count] = u8::from(failing == 0);
        count += 1;
    }
    let out = out.get_mut(..count).ok_or(TOO_SHORT)?;
    out.copy_from_slice(&bytes[..count]);
    Ok(count)
}

/// The first entry of a service that fails, or 0.
fn judged<const N: usize>(
    pairs: Option<&Pairs>,
    slots: &Slots<N>,
    service: Described,
    input: u16,
) -> Result<usize, Refusal> {
    match size(service.bytes().len()) {
        Size::Small => first_failing::<N, 64>(pairs, slots, service, input),
        Size::Middle => first_failing::<N, 256>(pairs, slots, service, input),
        Size::Large => first_failing::<N, 1024>(pairs, slots, service, input),
    }
}
