//! The calls in plain, safe Rust, written for speed: one thread, no heap. Those that take a list of properties that exclude each
//! other, or a dictionary, do without it where it is empty.
//!
//! Each call is compiled for three sizes of its tables, so that a small input doesn't pay for clearing large ones.

mod catalogue;
mod compare;
pub mod desk;
mod earning;
mod entry;
mod failing;
mod first_tellers;
mod fit;
mod hierarchy;
mod items;
mod list;
mod missing;
mod names;
mod narrowest;
mod normal;
mod order;
mod pairs;
mod queue;
mod read;
mod rows;
mod seen;
mod single;
mod slots;
mod specimen;
mod stored;
mod unfold;

pub use catalogue::catalogue;
pub use compare::{compare, compare_with, Comparison};
pub use earning::earning;
pub use failing::failing;
pub use first_tellers::first_tellers;
pub use fit::{fit, fit_with};
pub use hierarchy::hierarchy;
pub use items::fit_all;
pub use missing::{missing, Lack};
pub use names::unfold;
pub use narrowest::narrowest;
pub use normal::{normal_form, normal_with};
pub use read::{read_description, read_sheet, read_specimen};
pub use stored::{from_stored, to_stored};

/// The bytes of a block.
const BLOCK: usize = 512;

/// What a refused call answers.
#[derive(Clone, Copy, Debug, PartialEq, Eq)]
pub struct Refusal {
    /// The number in the table of refusals, 1 to 20.
    pub number: u8,
    /// The input, 1 or 2; 0 for numbers 7 and 11, 1 + n for the n-th service of a list, 100 for the dictionary and 100 + n for its
    /// n-th description.
    pub input: u16,
    /// The block, entry or pair; 0 for numbers 1, 7, 8, 14, 16 to 18 and 20, of a total's 10, and for a list of a wrong length.
    pub place: u16,
}

/// The output is too short.
const TOO_SHORT: Refusal = Refusal {
    number: 7,
    input: 0,
    place: 0,
};

/// The tables' size that is enough for inputs of this many bytes: 1 block, 4, or more.
enum Size {
    Small,
    Middle,
    Large,
}

fn size(bytes: usize) -> Size {
    if bytes <= BLOCK {
        Size::Small
    } else if bytes <= 4 * BLOCK {
        Size::Middle
    } else {
        Size::Large
    }
}
