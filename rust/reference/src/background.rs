//! What a call takes before its inputs.

use crate::dictionary::Dictionary;
use crate::pairs::Pairs;
use crate::refusal::Refusal;

/// What the answers of a call are relative to.
pub(crate) struct Background {
    pub(crate) pairs: Pairs,
    pub(crate) dictionary: Dictionary,
}

impl Background {
    /// Reads the list of excluding pairs, before all else (R25), and then the
    /// dictionary, the dictionary before the inputs (R25).
    pub(crate) fn read(pairs: &[u8], dict: &[u8]) -> Result<Background, Refusal> {
        let pairs = Pairs::read(pairs)?;
        let dictionary = Dictionary::read(dict)?;
        Ok(Background { pairs, dictionary })
    }
}
