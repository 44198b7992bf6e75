//! The proved library against the reference, which is a plain version by other hands.
//!
//! Drawn descriptions and specimens are handed to both. Answers, places and every byte of the outputs have to be the
//! same. What the specification says of an answer is looked at as well, without the reference: a specimen has to show
//! its 'not contained', a normal form has to be its own normal form, two descriptions have to have one normal form
//! exactly if each is contained in the other, and 'contained' has to be true in small records. Records and specimens
//! keep the rule that links from 32,768 up never lead to two items, and the list of properties that exclude each
//! other which a call is given. A call with a dictionary has to give what the call without one gives for the unfolded
//! descriptions, the catalogue and the hierarchy what single comparisons give, and a field sheet what its profile says of
//! a description. A drafting desk has to hold what the reference's desk holds after the same calls. The entries that earn a yes have
//! to be those that single comparisons leave, one after the other. The narrowest description of two has to contain both, in normal form
//! and in either order, and to be contained in all that contain both.
//!
//! | Module | Subject |
//! |---|---|
//! | [`chance`] | drawn numbers, the same for the same seed |
//! | [`draw`] | accepted descriptions and specimens of many shapes, with links on both sides of 32,768 |
//! | [`derived`] | descriptions made from others: weaker, in another order, wrong by one entry |
//! | [`excluding`] | lists of properties that exclude each other, right and wrong, and what is made for them |
//! | [`naming`] | dictionaries, right, wrong and hostile, and descriptions that name what is in them |
//! | [`catalogue`] | lists of services |
//! | [`doubles`] | descriptions made from others with the same meaning, and whether they have one normal form |
//! | [`damage`] | bytes with one fault or several |
//! | [`exchange`] | two entries of one block exchanged, and whether the checks tell |
//! | [`agree`] | the calls on both sides, compared, under a list and without, with a dictionary and without |
//! | [`small`] | small records, to look for an item by trying all |
//! | [`rounds`] | rounds of cases, and how often each answer came |
//! | [`vectors`] | calls with their bytes, and the line that the reference gives for each |
//! | [`named`] | vectors of the cases that are proved, of each clause, and of the literature's examples |
//! | [`drawn`] | drawn vectors, so many of each sort of answer |

#![forbid(unsafe_code)]
#![deny(missing_docs)]

pub mod agree;
pub mod catalogue;
pub mod chance;
pub mod damage;
pub mod derived;
pub mod doubles;
pub mod draw;
pub mod drawn;
pub mod exchange;
pub mod excluding;
pub mod named;
pub mod naming;
pub mod rounds;
pub mod small;
pub mod vectors;

/// The bytes of one block.
pub const BLOCK: usize = 512;
/// The entries of one block.
pub const BLOCK_ENTRIES: usize = 63;
/// The most entries of a description.
pub const MOST_DESCRIPTION: usize = 1008;
/// The most entries of a specimen.
pub const MOST_SPECIMEN: usize = 2016;
/// The most depth of an entry.
pub const MOST_DEPTH: usize = 32;

/// The bytes of the blocks that hold so many entries.
pub fn length_of(entries: usize) -> usize {
    BLOCK * entries.div_ceil(BLOCK_ENTRIES).max(1)
}

/// The low two bytes of a number. Entry numbers here are at most 2,016.
pub(crate) fn word(number: usize) -> u16 {
    (number & 0xffff) as u16
}
