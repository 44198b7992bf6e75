//! A list of services ranked: each is read once and slotted once, and all are judged by the slots of one. A row of the table is one
//! number of 64 bits, and so is what stands above a service.

use super::compare::{look, top};
use super::list::{Parts, MOST};
use super::pairs::Pairs;
use super::read::{entries_of, read_service, refusal, Block};
use super::slots::Slots;
use super::{size, Refusal, Size, TOO_SHORT};

/// The input number of the list, and of its first service.
const LIST: u16 = 2;

/// The services of a list, each accepted.
struct Services<'a> {
    all: [&'a [Block]; MOST],
    count: usize,
}

/// Writes for n services which is contained in which, n rows of n bytes, the direct superiors of each, n rows of n bytes, and the
/// class of each, n bytes; and answers how many bytes these are.
pub fn hierarchy(pairs: &[u8], list: &[u8], out: &mut [u8]) -> Result<usize, Refusal> {
    let pairs = Pairs::read(pairs)?;
    let services = Services::read(list)?;
    let n = services.count;
    let length = 2 * n * n + n;
    let out = out.get_mut(..length).ok_or(TOO_SHORT)?;
    let mut up = [0; MOST];
    let mut states = [0; 1024];
    for (row, service) in up.iter_mut().zip(&services.all[..n]) {
        *row = services.row(pairs.as_ref(), service, &mut states);
    }
    write(&up[..n], out);
    Ok(length)
}

impl<'a> Services<'a> {
    fn read(list: &'a [u8]) -> Result<Services<'a>, Refusal> {
        let parts = Parts::of(list, LIST)?;
        if parts.is_empty() {
            return Err(refusal(1, LIST, 0));
        }
        let mut services = Services {
            all: [&[]; MOST],
            count: 0,
        };
        for (input, service) in (LIST..).zip(parts) {
            read_service(service.as_flattened(), input)?;
            services.all[services.count] = service;
            services.count += 1;
        }
        Ok(services)
    }

    /// The services that contain this one, the first in the lowest bit.
    fn row(&self, pairs: Option<&Pairs>, service: &[Block], states: &mut [u16; 1024]) -> u64 {
        match size(service.as_flattened().len()) {
            Size::Small => self.sized::<64>(pairs, service, states),
            Size::Middle => self.sized::<256>(pairs, service, states),
            Size::Large => self.sized::<1024>(pairs, service, states),
        }
    }

    fn sized<const N: usize>(
        &self,
        pairs: Option<&Pairs>,
        service: &[Block],
        states: &mut [u16; 1024],
    ) -> u64 {
        let mut slots = Slots::<N>::new();
        let mut number = 0;
        for block in service {
            for entry in entries_of(block) {
                number += 1;
                slots.enter(number, entry);
            }
        }
        if let Some(pairs) = pairs {
            slots.restrict(pairs);
        }
        slots.settle();
        states[0] = top(&slots);
        let mut row = 0;
        for (bit, other) in self.all[..self.count].iter().enumerate() {
            row |= u64::from(all_hold(pairs, &slots, other, states)) << bit;
        }
        row
    }
}

/// Whether all entries of a service hold. What stands at each 'every' entry is its state; an entry's owner has its own before.
fn all_hold<const N: usize>(
    pairs: Option<&Pairs>,
    slots: &Slots<N>,
    service: &[Block],
    states: &mut [u16; 1024],
) -> bool {
    let mut number = 0;
    for block in service {
        for entry in entries_of(block) {
            number += 1;
            let (holds, below) = look(pairs, slots, states[entry.owner() % 1024], entry);
            states[number % 1024] = below;
            if !holds {
                return false;
            }
        }
    }
    true
}

/// The table, the superiors and the classes.
fn write(up: &[u64], out: &mut [u8]) {
    let n = up.len();
    let mut down = [0u64; MOST];
    for (c, row) in up.iter().enumerate() {
        for (d, column) in down.iter_mut().enumerate() {
            *column |= (row >> d & 1) << c;
        }
    }
    let mut strict = [0u64; MOST];
    for ((strict, up), down) in strict.iter_mut().zip(up).zip(&down) {
        *strict = up & !down;
    }
    let (table, rest) = out.split_at_mut(n * n);
    let (superiors, classes) = rest.split_at_mut(n * n);
    for (bytes, row) in table.chunks_exact_mut(n).zip(up) {
        spread(*row, bytes);
    }
    for (bytes, row) in superiors.chunks_exact_mut(n).zip(&strict) {
        spread(row & !beyond(*row, &strict), bytes);
    }
    for ((class, up), down) in classes.iter_mut().zip(up).zip(&down) {
        *class = 1 + (up & down).trailing_zeros() as u8;
    }
}

/// What stands strictly above one of these.
fn beyond(row: u64, strict: &[u64; MOST]) -> u64 {
    let (mut left, mut beyond) = (row, 0);
    while left != 0 {
        beyond |= strict[left.trailing_zeros() as usize];
        left &= left - 1;
    }
    beyond
}

/// A byte for each bit.
fn spread(row: u64, bytes: &mut [u8]) {
    for (bit, byte) in bytes.iter_mut().enumerate() {
        *byte = (row >> bit & 1) as u8;
    }
}
