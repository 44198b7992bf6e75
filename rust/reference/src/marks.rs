//! Marked entries, and the description that is left when it is cut down to
//! them.

use crate::blocks::Entry;

/// The fewest entries of kinds other than 5, with their owners, that keep a
/// promise: from the last entry to the first, each is left out if the
/// description that is left still keeps it.
///
/// The whole description keeps the promise. Leaving out more never mends what
/// leaving out less has broken, so none that stays can be left out at the end.
pub(crate) fn fewest(entries: &[Entry], keeps: impl Fn(&[Entry]) -> bool) -> Vec<bool> {
    let mut marks: Vec<bool> = entries.iter().map(|entry| entry.kind != 5).collect();
    for index in (0..marks.len()).rev() {
        let mut fewer = marks.clone();
        if let Some(mark) = fewer.get_mut(index) {
            *mark = false;
        }
        if fewer != marks && keeps(&cut_down(entries, &with_owners(entries, &fewer))) {
            marks = fewer;
        }
    }
    with_owners(entries, &marks)
}

/// The marks, and one for each entry that owns a marked one, however far down.
///
/// Owners are earlier, so going from the last to the first meets each owner
/// after all that it owns.
pub(crate) fn with_owners(entries: &[Entry], marks: &[bool]) -> Vec<bool> {
    let mut all = marks.to_vec();
    for (index, entry) in entries.iter().enumerate().rev() {
        let owner = usize::from(entry.owner).checked_sub(1);
        if all.get(index) == Some(&true) {
            if let Some(mark) = owner.and_then(|owner| all.get_mut(owner)) {
                *mark = true;
            }
        }
    }
    all
}

/// The marked entries in their order, with new numbers; the owners of marked
/// entries are marked.
pub(crate) fn cut_down(entries: &[Entry], marks: &[bool]) -> Vec<Entry> {
    let mut left: Vec<Entry> = Vec::new();
    // The new numbers of 0, the top, and then of each entry. One that is left
    // out owns nothing that is left, so its number is never asked for.
    let mut numbers = vec![0];
    for (entry, &mark) in entries.iter().zip(marks) {
        if mark {
            let owner = numbers.get(usize::from(entry.owner)).copied().unwrap_or(0);
            left.push(Entry { owner, ..*entry });
        }
        numbers.push(u16::try_from(left.len()).unwrap_or(u16::MAX));
    }
    left
}

/// Writes the marks as bytes of 0 and 1 over as many bytes.
pub(crate) fn write_marks(marks: &[bool], answers: &mut [u8]) {
    for (answer, &mark) in answers.iter_mut().zip(marks) {
        *answer = u8::from(mark);
    }
}
