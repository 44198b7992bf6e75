//! Whether the library accepts an input; a refusal in words.

use std::path::Path;

use super::{named, Input};
use crate::blocks::encode;
use crate::delivered::Delivered;
use crate::dictionary::{self, Dictionary, Naming};
use crate::entry::{Named, Sort};
use crate::library;
use crate::names::Names;
use crate::pairs::List;
use crate::refused;
use crate::trouble::{Refused, Trouble};

/// The input, if the library accepts it where a description may name these.
///
/// # Errors
///
/// The refusal.
pub fn accepted(
    path: &Path,
    draft: Input,
    input: u16,
    naming: Naming<'_>,
) -> Result<Input, Trouble> {
    let Err(refusal) = read(&draft, naming) else {
        return Ok(draft);
    };
    let place = usize::from(refusal.place);
    let of_entry = refusal.reason.number() >= 4;
    let at = draft.positions.get(place.wrapping_sub(1)).copied();
    Err(Trouble::from(Refused {
        file: named(path),
        why: refused::why(refusal, draft.sort, &draft.bytes, naming),
        shown: refused::shown(refusal, &draft.bytes, &draft.names, naming),
        refusal: library::Refusal { input, ..refusal },
        at: at.filter(|_| of_entry),
        outside: refused::outside(refusal, &draft.entries),
    }))
}

/// Asks the library whether an input is accepted: a reader, or for a description that may name others the unfolding.
fn read(draft: &Input, naming: Naming<'_>) -> Result<(), library::Refusal> {
    let unfolded = match (draft.sort, naming) {
        (Sort::Specimen, _) | (_, Naming::Nothing) => {
            return library::read(draft.sort, &draft.bytes).map(|_| ())
        }
        (_, Naming::Sheet) => return library::read_sheet(&draft.bytes).map(|_| ()),
        (_, Naming::Any) => library::unfold(&dictionary::any(), &draft.bytes),
        (_, Naming::All(of) | Naming::Before(of, _)) => library::unfold(&of.bytes, &draft.bytes),
    };
    unfolded.map(|_| ())
}

/// The blocks of a description in the stored form, the call's input of this number, if the library accepts it.
///
/// # Errors
///
/// The refusal.
pub fn unstored(path: &Path, bytes: &[u8], input: u16, names: &Names) -> Result<Vec<u8>, Trouble> {
    library::from_stored(bytes).map_err(|refusal| {
        Trouble::from(Refused {
            shown: refused::shown_stored(refusal, bytes, names),
            ..Refused::new(
                named(path),
                library::Refusal { input, ..refusal },
                refused::why_stored(refusal, bytes),
            )
        })
    })
}

/// The record, if the library accepts it under this list. No call reads a record alone: it is looked at before the description, so one
/// without entries tells.
///
/// # Errors
///
/// The refusal.
pub fn accepted_record(
    path: &Path,
    draft: Delivered,
    under: library::Under<'_>,
) -> Result<Delivered, Trouble> {
    let Err(refusal) = library::fit_all(under, draft.items, &draft.bytes, &encode(&[])) else {
        return Ok(draft);
    };
    let place = usize::from(refusal.place);
    let of_entry = refusal.reason.number() >= 4;
    let at = draft.positions.get(place.wrapping_sub(1)).copied();
    Err(Trouble::from(Refused {
        shown: refused::shown_record(refusal, &draft),
        at: at.filter(|_| of_entry),
        ..Refused::new(named(path), refusal, refused::why_record(refusal, &draft))
    }))
}

/// The dictionary, if the library accepts it.
///
/// # Errors
///
/// The refusal.
pub fn accepted_dictionary(path: &Path, draft: Dictionary) -> Result<Dictionary, Trouble> {
    let Err(refusal) = library::read_dictionary(&draft.bytes) else {
        return Ok(draft);
    };
    let number = Named(refusal.input.saturating_sub(100));
    let index = usize::from(number.0).wrapping_sub(1);
    let place = usize::from(refusal.place);
    let of_entry = place > 0 && refusal.reason.number() >= 4;
    let part = draft.parts.get(index);
    let at = part.and_then(|part| match of_entry {
        true => part.positions.get(place - 1).copied(),
        false => part.at,
    });
    Err(Trouble::from(Refused {
        shown: refused::shown_dictionary(refusal, &draft, number),
        at,
        ..Refused::new(
            named(path),
            refusal,
            refused::why_dictionary(refusal, &draft, number),
        )
    }))
}

/// The list, if the library accepts it.
///
/// # Errors
///
/// The refusal.
pub fn accepted_list(path: &Path, draft: List) -> Result<List, Trouble> {
    let Err(refusal) = library::read_list(draft.under()) else {
        return Ok(draft);
    };
    let place = usize::from(refusal.place);
    Err(Trouble::from(Refused {
        shown: refused::shown_pairs(refusal, &draft),
        at: draft.positions.get(place.wrapping_sub(1)).copied(),
        ..Refused::new(named(path), refusal, refused::why_list(refusal, &draft))
    }))
}

/// The list of services, if the library does not refuse it as a whole.
///
/// # Errors
///
/// The refusal.
pub fn accepted_services(path: &Path, list: &[u8]) -> Result<(), Trouble> {
    library::read_services(list).map_err(|refusal| {
        Trouble::from(Refused::new(
            named(path),
            refusal,
            refused::why_services(refusal, list),
        ))
    })
}

/// The specimen, if it keeps the list.
///
/// # Errors
///
/// The refusal.
pub fn keeping(path: &Path, specimen: Input, list: &List) -> Result<Input, Trouble> {
    let Err(refusal) = library::keeps(list.under(), &specimen.bytes) else {
        return Ok(specimen);
    };
    let place = usize::from(refusal.place);
    Err(Trouble::from(Refused {
        shown: refused::shown(refusal, &specimen.bytes, &specimen.names, Naming::Nothing),
        at: specimen.positions.get(place.wrapping_sub(1)).copied(),
        ..Refused::new(
            named(path),
            refusal,
            refused::why_not_kept(place, &specimen.entries, list, &specimen.names),
        )
    }))
}
