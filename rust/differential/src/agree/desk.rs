//! The drafting desk, call by call, against the reference; and which bytes are a desk's, by drafting again what they hold.

use goltximen::{Desk, Reason, Under, DESK_BYTES};
use reference::{decode, encode, Call, Entry};

use super::{in_form, refused, Answer, Case, Difference};
use crate::{length_of, BLOCK_ENTRIES, MOST_DESCRIPTION};

/// The bytes of the counters of a desk, and of one of its five areas.
const COUNTERS: usize = 20;
const AREA: usize = 8 * MOST_DESCRIPTION;
/// The most stands.
const MOST_STANDS: usize = 4;
/// Each byte of an output before a call.
const FILL: u8 = 0xa5;

/// What the bytes of a desk hold: its description, and its stands.
type Held = (Vec<Entry>, Vec<(u16, Vec<Entry>)>);

/// A desk on both sides, and the numbers that its calls have named.
#[derive(Clone, Debug)]
pub struct Drafting {
    /// The library's.
    pub ours: Desk,
    plain: reference::Desk,
    numbers: Vec<u16>,
}

impl Drafting {
    /// The empty desk, and these bytes past it.
    pub fn with_past(past: &[u8]) -> Drafting {
        let bytes = [&[0; DESK_BYTES][..], past].concat();
        Drafting {
            ours: Desk::from_bytes(&bytes),
            plain: reference::Desk::default(),
            numbers: Vec::new(),
        }
    }

    /// Adds entries that are right, on both sides.
    ///
    /// # Errors
    ///
    /// The difference.
    pub fn add_all(&mut self, entries: &[Entry]) -> Result<(), Difference> {
        for (number, &entry) in (1..).zip(entries) {
            let both = (self.ours.add(bytes_of(entry)), self.plain.add(entry));
            let bytes = self.ours.bytes().to_vec();
            let case = Case {
                call: "desk",
                under: Under::default(),
                inputs: &[&bytes],
            };
            let added = both.0.is_ok() && both.1.is_ok();
            case.ensure(added, &format!("entry {number} is not added: {both:?}"))?;
        }
        Ok(())
    }

    /// How many entries the description has.
    pub fn entries(&self) -> usize {
        word(self.ours.bytes(), 0).into()
    }

    /// One call on both sides. The answers have to be the same, and what the bytes then hold what the reference holds; a refused call
    /// has to leave every byte, and none may touch those past the desk.
    ///
    /// # Errors
    ///
    /// The difference.
    pub fn call(&mut self, call: Call) -> Result<Answer, Difference> {
        let before = self.ours.clone();
        let case = Case {
            call: "desk",
            under: Under::default(),
            inputs: &[before.bytes()],
        };
        let (proved, plain) = match call {
            Call::Add(entry) => (self.ours.add(bytes_of(entry)), self.plain.add(entry)),
            Call::TakeOff => (self.ours.take_off(), self.plain.take_off()),
            Call::Name(stand) => (self.ours.name(stand), self.plain.name(stand)),
            Call::GoBack(stand) => (self.ours.go_back(stand), self.plain.go_back(stand)),
            Call::Drop(stand) => (self.ours.drop_stand(stand), self.plain.drop_stand(stand)),
            Call::Write(length) => return self.write(case, length),
        };
        if let Call::Name(stand) = call {
            self.numbers.push(stand);
        }
        let answer = case.same(proved.map(usize::from).map_err(in_form), plain)?;
        let bytes = self.ours.bytes();
        let stays = answer.is_ok() || bytes == before.bytes();
        case.ensure(stays, &format!("{call:?} is refused and alters bytes"))?;
        let past = bytes[DESK_BYTES..] == before.bytes()[DESK_BYTES..];
        case.ensure(past, &format!("{call:?} alters bytes past the desk"))?;
        case.ensure(self.holds(), &format!("{call:?} leaves something else"))?;
        Ok(answer.map_or_else(refused, Answer::Count))
    }

    fn write(&self, case: Case, length: usize) -> Result<Answer, Difference> {
        let [mut ours, mut other] = [vec![FILL; length], vec![FILL; length]];
        let proved = self.ours.write_out(&mut ours);
        let plain = self.plain.write_out(&mut other);
        let answer = case.same(proved.map(usize::from).map_err(in_form), plain)?;
        case.ensure(ours == other, "other bytes are written")?;
        let whole = |entries: usize| {
            let written = &ours[..length_of(entries)];
            goltximen::read_description(written).map(usize::from) == Ok(entries)
                && decode(written) == held(self.ours.bytes()).0
        };
        case.ensure(answer.map_or(true, whole), "what is written is not read")?;
        Ok(answer.map_or_else(refused, Answer::Count))
    }

    /// Whether the bytes hold what the reference holds: the description, and each stand that is known.
    fn holds(&self) -> bool {
        let (draft, stands) = held(self.ours.bytes());
        let known = |number: &u16| stands.iter().find(|(known, _)| known == number);
        let same = |number: &u16| match (known(number), back(&self.plain, *number)) {
            (Some((_, entries)), Some(kept)) => kept == encode(entries),
            (found, kept) => found.is_none() && kept.is_none(),
        };
        written(&self.plain) == encode(&draft)
            && self.numbers.iter().all(same)
            && stands
                .iter()
                .all(|(number, _)| self.numbers.contains(number))
            && is_given(self.ours.bytes())
    }
}

/// Every call on these bytes: refused as 20, input 1, place 0, with no byte altered, exactly where the bytes are no desk's.
///
/// # Errors
///
/// The difference.
pub fn desk_bytes(bytes: &[u8]) -> Result<Answer, Difference> {
    let case = Case {
        call: "desk",
        under: Under::default(),
        inputs: &[bytes],
    };
    let given = is_given(bytes);
    let mut out = vec![FILL; length_of(MOST_DESCRIPTION)];
    let calls: [&dyn Fn(&mut Desk) -> Result<u16, goltximen::Refusal>; 5] = [
        &|desk| desk.add([1, 0, 0, 0, 7, 0, 0, 0]),
        &|desk| desk.take_off(),
        &|desk| desk.name(7),
        &|desk| desk.go_back(7),
        &|desk| desk.drop_stand(7),
    ];
    let twenty = Err(goltximen::Refusal {
        reason: Reason::Desk,
        input: 1,
        place: 0,
    });
    let due = |answer| match given {
        true => !matches!(
            answer,
            Err(goltximen::Refusal {
                reason: Reason::Desk,
                ..
            })
        ),
        false => answer == twenty,
    };
    for (number, call) in calls.iter().enumerate() {
        let mut desk = Desk::from_bytes(bytes);
        let answer = call(&mut desk);
        case.ensure(due(answer), &format!("call {number}: {answer:?}"))?;
        case.ensure(given || desk.bytes() == bytes, "20 alters bytes")?;
    }
    let answer = Desk::from_bytes(bytes).write_out(&mut out);
    case.ensure(due(answer), &format!("writing out: {answer:?}"))?;
    let stays = given || out.iter().all(|&byte| byte == FILL);
    case.ensure(stays, "20 alters the output")?;
    Ok(answer.map_or_else(
        |refusal| refused(in_form(refusal)),
        |entries| Answer::Count(entries.into()),
    ))
}

/// Whether some list of calls gives these bytes: what they hold is drafted again by the reference, stand by stand.
pub fn is_given(bytes: &[u8]) -> bool {
    let counts = |at: usize| usize::from(word(bytes, at));
    if bytes.len() < DESK_BYTES || counts(0) > MOST_DESCRIPTION || counts(1) > MOST_STANDS {
        return false;
    }
    let free = counts(1)..MOST_STANDS;
    if free
        .into_iter()
        .any(|at| counts(2 + at) != 0 || counts(6 + at) != 0)
    {
        return false;
    }
    if (0..counts(1)).any(|at| counts(6 + at) > MOST_DESCRIPTION) {
        return false;
    }
    let (draft, stands) = held(bytes);
    let mut known = Vec::new();
    for (number, entries) in &stands {
        if *number == 0 || known.contains(number) || !is_drafted(entries) {
            return false;
        }
        known.push(*number);
    }
    is_drafted(&draft)
}

/// Whether the reference adds these entries one after the other. Of many it reads them as a description, which is the same and sooner done.
fn is_drafted(entries: &[Entry]) -> bool {
    if entries.len() > BLOCK_ENTRIES {
        return reference::read_description(&encode(entries)).is_ok();
    }
    let mut desk = reference::Desk::default();
    entries.iter().all(|&entry| desk.add(entry).is_ok())
}

/// What the bytes of a desk hold whose counters are in their limits.
fn held(bytes: &[u8]) -> Held {
    let area = |at: usize, count: u16| {
        let from = COUNTERS + AREA * at;
        let rows = bytes[from..from + 8 * usize::from(count)].chunks_exact(8);
        rows.map(entry_of).collect::<Vec<_>>()
    };
    let stands = (0..usize::from(word(bytes, 1)))
        .map(|at| (word(bytes, 2 + at), area(at + 1, word(bytes, 6 + at))));
    (area(0, word(bytes, 0)), stands.collect())
}

/// A word, by its number from 0; past the end it is 0.
fn word(bytes: &[u8], number: usize) -> u16 {
    let byte = |at: usize| bytes.get(at).copied().unwrap_or(0);
    u16::from_le_bytes([byte(2 * number), byte(2 * number + 1)])
}

/// The entry of 8 bytes.
pub fn entry_of(row: &[u8]) -> Entry {
    Entry {
        kind: row[0],
        zero: row[1],
        owner: word(row, 1),
        name: word(row, 2),
        number: word(row, 3),
    }
}

/// The 8 bytes of an entry.
pub fn bytes_of(entry: Entry) -> [u8; 8] {
    let [o, n, m] = [entry.owner, entry.name, entry.number].map(u16::to_le_bytes);
    [entry.kind, entry.zero, o[0], o[1], n[0], n[1], m[0], m[1]]
}

/// The blocks of what the reference's desk holds.
fn written(desk: &reference::Desk) -> Vec<u8> {
    let mut out = vec![0; length_of(MOST_DESCRIPTION)];
    let entries = desk.write_out(&mut out).unwrap_or(0);
    out.truncate(length_of(entries));
    out
}

/// The blocks of what it holds once it has gone back to a stand, if that is known.
fn back(desk: &reference::Desk, stand: u16) -> Option<Vec<u8>> {
    let mut desk = desk.clone();
    desk.go_back(stand).ok().map(|_| written(&desk))
}
