//! Vectors of the statements on the drafting desk.

use reference::notation::{entries, entry};
use reference::{decode, Call, Entry};

use super::properties;
use crate::vectors::Vector;
use crate::{BLOCK, MOST_DESCRIPTION};

/// Writes out to a whole block.
const WRITE: Call = Call::Write(BLOCK);

/// All of them, in the order of the statements.
pub fn all() -> Vec<Vector> {
    [
        added(),
        wrong_entries(),
        full(),
        taken_off(),
        stands(),
        gone_back(),
        dropped(),
        written(),
    ]
    .concat()
}

/// Calls on an empty desk, with an output of two blocks.
fn desk(calls: &[&[Call]]) -> Vector {
    Vector::desk(&calls.concat(), 2 * BLOCK)
}

/// The entries of this text are added one after the other.
fn adds(text: &str) -> Vec<Call> {
    entries(text).into_iter().map(Call::Add).collect()
}

/// So many properties are added.
fn many(count: usize) -> Vec<Call> {
    decode(&properties(count))
        .into_iter()
        .map(Call::Add)
        .collect()
}

/// Entries are added at the end, as a description would have them.
pub fn added() -> Vec<Vector> {
    let deep: Vec<Call> = (0..33)
        .map(|owner| Call::Add(entry(5, owner, 1, 0)))
        .collect();
    vec![
        desk(&[&[WRITE]]),
        desk(&[
            &adds("1,7; 2,8; 3,1,2; 4,32768,65535; 5,1 [6; 5,2]"),
            &[WRITE],
        ]),
        desk(&[
            &deep,
            &[
                WRITE,
                Call::Add(entry(1, 33, 7, 0)),
                Call::Add(entry(5, 33, 1, 0)),
                WRITE,
            ],
        ]),
        Vector::desk(&[], 0),
    ]
}

/// An entry that no description would have there is not added; the place is the number that it would have.
pub fn wrong_entries() -> Vec<Vector> {
    let then = |wrong: Entry| desk(&[&adds("1,7; 5,1"), &[Call::Add(wrong), WRITE]]);
    vec![
        then(entry(0, 0, 7, 0)),
        then(entry(7, 0, 1, 0)),
        then(entry(8, 0, 1, 0)),
        then(entry(9, 0, 1, 0)),
        then(entry(10, 0, 1, 0)),
        then(entry(1, 0, 0, 0)),
        then(entry(1, 0, 7, 1)),
        then(entry(6, 0, 1, 0)),
        then(Entry {
            zero: 1,
            ..entry(1, 0, 7, 0)
        }),
        then(entry(1, 1, 7, 0)),
        then(entry(1, 3, 7, 0)),
        then(entry(1, 65_535, 7, 0)),
        then(entry(1, 1, 0, 0)),
        then(entry(1, 2, 7, 0)),
    ]
}

/// 1,008 entries are the most; to these none is added, right or wrong.
pub fn full() -> Vec<Vector> {
    let wrong = Call::Add(entry(0, 9, 0, 0));
    let right = Call::Add(entry(1, 0, 1, 0));
    let most = many(MOST_DESCRIPTION);
    vec![
        Vector::desk(
            &[
                &most[..],
                &[Call::Write(16 * BLOCK - 1), Call::Write(16 * BLOCK)],
            ]
            .concat(),
            16 * BLOCK,
        ),
        desk(&[&most, &[right, wrong, Call::TakeOff, wrong, right, right]]),
    ]
}

/// The last entry is taken off, if there is one.
pub fn taken_off() -> Vec<Vector> {
    let off = Call::TakeOff;
    vec![
        desk(&[&[off, WRITE]]),
        desk(&[&adds("1,7"), &[off, off, WRITE]]),
        desk(&[
            &adds("1,7; 5,1 [1,8]"),
            &[off, off, Call::Add(entry(1, 2, 8, 0)), WRITE],
        ]),
        desk(&[&[off], &adds("1,7"), &[WRITE]]),
    ]
}

/// Four stands by their numbers; one that is named again is replaced, also where four stand.
pub fn stands() -> Vec<Vector> {
    let names =
        |stands: &[u16]| -> Vec<Call> { stands.iter().map(|&stand| Call::Name(stand)).collect() };
    vec![
        desk(&[&names(&[0]), &[Call::GoBack(0)]]),
        desk(&[&names(&[1, 65_535, 300, 2, 3, 0])]),
        desk(&[
            &names(&[1, 2, 3, 4]),
            &adds("1,7"),
            &names(&[5, 3]),
            &[Call::TakeOff, Call::GoBack(3), WRITE],
        ]),
        desk(&[
            &names(&[1, 2, 3, 4]),
            &[Call::GoBack(5), Call::Drop(2)],
            &names(&[5, 6]),
        ]),
        desk(&[&names(&[1, 1, 1, 1, 1, 2, 3, 4, 5, 1])]),
    ]
}

/// Going back yields what was held when the number was last given, and the stand stays.
pub fn gone_back() -> Vec<Vector> {
    let (name, back) = (Call::Name(3), Call::GoBack(3));
    let add = |name| Call::Add(entry(1, 0, name, 0));
    vec![
        desk(&[
            &adds("1,7; 5,1"),
            &[
                name,
                Call::TakeOff,
                Call::Add(entry(2, 0, 8, 0)),
                back,
                WRITE,
            ],
        ]),
        desk(&[&[name, add(9), name, back, WRITE]]),
        desk(&[&adds("1,7"), &[back, WRITE]]),
        desk(&[
            &[name],
            &adds("1,7; 5,1 [1,8]"),
            &[
                back,
                back,
                WRITE,
                Call::Add(entry(1, 2, 8, 0)),
                add(8),
                WRITE,
            ],
        ]),
        desk(&[
            &adds("1,7"),
            &[
                name,
                add(8),
                Call::Name(4),
                back,
                add(9),
                Call::GoBack(4),
                WRITE,
                back,
                WRITE,
            ],
        ]),
        desk(&[
            &many(70),
            &[name, Call::TakeOff, Call::GoBack(3), Call::Write(2 * BLOCK)],
        ]),
    ]
}

/// A stand that is dropped is known no more; the others are, and what is held stays.
pub fn dropped() -> Vec<Vector> {
    let each = || -> Vec<Call> {
        (1..=4)
            .flat_map(|n| [Call::Add(entry(1, 0, 10 + n, 0)), Call::Name(n)])
            .collect()
    };
    let back = |stand| [Call::GoBack(stand), WRITE];
    vec![
        desk(&[&[Call::Drop(1)]]),
        desk(&[&[Call::Drop(0), WRITE]]),
        desk(&[&each(), &[Call::Drop(1), Call::Drop(1)], &back(1), &back(2)]),
        desk(&[&each(), &[Call::Drop(2)], &back(1)]),
        desk(&[&each(), &[Call::Drop(2)], &back(3)]),
        desk(&[&each(), &[Call::Drop(1), Call::Drop(3)], &back(4)]),
        desk(&[
            &each(),
            &[Call::Drop(2), Call::GoBack(1), Call::Name(9), Call::Name(8)],
            &back(9),
        ]),
        desk(&[
            &each(),
            &(1..=4).map(Call::Drop).collect::<Vec<_>>(),
            &back(4),
        ]),
    ]
}

/// Whole blocks from the start of the output; later bytes stay, and the desk does.
pub fn written() -> Vec<Vector> {
    let write = |length| [Call::Write(length)];
    vec![
        desk(&[
            &write(0),
            &write(BLOCK - 1),
            &write(BLOCK),
            &write(BLOCK + 1),
        ]),
        desk(&[&many(63), &write(BLOCK - 1), &write(BLOCK)]),
        desk(&[
            &many(64),
            &write(BLOCK),
            &write(2 * BLOCK - 1),
            &write(2 * BLOCK),
        ]),
        // Of what was written before the second block stays.
        desk(&[&many(64), &write(2 * BLOCK), &[Call::TakeOff, WRITE]]),
        desk(&[
            &adds("1,7"),
            &write(1),
            &[Call::Add(entry(1, 0, 8, 0)), WRITE],
        ]),
    ]
}
