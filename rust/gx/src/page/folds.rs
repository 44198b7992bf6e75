//! Which lines of a long list are folded behind one.

/// A list with more lines than this has those without a mark folded in runs.
const LONG: usize = 24;
/// The most lines of a run.
const MOST: usize = 50;
/// As few lines are not folded.
const FEW: usize = 3;

/// A part of a list.
#[derive(Clone, Copy, Debug, PartialEq, Eq)]
pub(super) enum Part<'a> {
    /// Lines that are shown.
    Shown(&'a [usize]),
    /// Lines behind one.
    Folded(&'a [usize]),
}

/// The parts of a list; marked lines are shown.
pub(super) fn parts(list: &[usize], marked: impl Fn(usize) -> bool) -> Vec<Part<'_>> {
    if list.len() <= LONG {
        return vec![Part::Shown(list)];
    }
    let mut parts = Vec::new();
    let mut rest = list;
    while let Some(&first) = rest.first() {
        let mark = marked(first);
        let alike = rest.iter().take_while(|&&line| marked(line) == mark);
        let (part, later) = rest.split_at(alike.count().min(MOST));
        parts.push(match mark || part.len() <= FEW {
            true => Part::Shown(part),
            false => Part::Folded(part),
        });
        rest = later;
    }
    parts
}

#[cfg(test)]
mod tests {
    use super::*;

    #[test]
    fn marked_lines_are_shown_and_none_is_lost() {
        let list: Vec<usize> = (1..=120).collect();
        let parts = parts(&list, |line| line == 70);
        assert_eq!(
            parts,
            [
                Part::Folded(&list[..50]),
                Part::Folded(&list[50..69]),
                Part::Shown(&list[69..70]),
                Part::Folded(&list[70..])
            ]
        );
    }

    #[test]
    fn a_short_list_is_shown() {
        let list: Vec<usize> = (1..=24).collect();
        assert_eq!(parts(&list, |_| false), [Part::Shown(&list)]);
    }
}
