//! All entries of the service's description that fail.
//!
//! Which these are is one answer of the library. Each is then compared by itself, with its owners alone, for a specimen that shows it.

use super::{failure, Failure};
use crate::background::Background;
use crate::blocks::encode;
use crate::input::Input;
use crate::library::{self, Compared, Under};
use crate::tree::alone;

/// The entries of the service's description that fail, by their numbers, each explained; none where one of them by itself does not
/// fail, which the library is proved not to answer.
///
/// # Errors
///
/// The library's refusal, which accepted descriptions and lists do not meet.
pub fn all_failing(
    background: &Background,
    supplier: &Input,
    service: &Input,
) -> Result<Option<Vec<Failure>>, library::Refusal> {
    let Background { list, .. } = background;
    // Both are unfolded.
    let under = Under {
        dictionary: &[],
        ..background.under()
    };
    let marks = library::failing(under.pairs, &supplier.entries, &service.entries)?;
    let unfolded = encode(&supplier.entries);
    let normal = library::entries(&library::normal(under, &unfolded)?);
    let marked = (1..).zip(marks).filter(|(_, fails)| *fails);
    let explained = marked.map(|(entry, _)| {
        let asked = encode(&alone(&service.entries, entry));
        let specimen = match library::compare(under, &unfolded, &asked)? {
            Compared::Contained => return Ok(None),
            Compared::NotContained { specimen, .. } => library::entries(&specimen),
        };
        Ok(Some(failure(
            list, supplier, service, entry, &normal, specimen,
        )))
    });
    explained.collect()
}
