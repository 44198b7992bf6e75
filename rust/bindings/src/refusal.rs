//! What a refused call answers.

use std::error::Error;
use std::fmt;

/// Why an input or an output is refused: a number of the table of refusals.
///
/// Each call says which of them it answers.
#[derive(Clone, Copy, Debug, PartialEq, Eq, Hash)]
#[repr(u8)]
pub enum Reason {
    /// 1: the input's length is 0, no multiple of 512, or over the limit; a dictionary may have length 0, and like a list of services
    /// has no limit but 8.
    Length = 1,
    /// 2: a block's first or second check is wrong.
    Check = 2,
    /// 3: a block's number or its used count is wrong, or a byte of its unused entries is not zero.
    Frame = 3,
    /// 4: an entry's kind is not allowed, its byte 1 is not zero, or its name or number is outside the table. Kind 9 is allowed in
    /// the descriptions of calls that take a dictionary, also of length 0, and there its name is left to 13.
    Form = 4,
    /// 5: an entry's owner is neither 0, the top, nor an earlier entry that may own: one of kind 5 in a description, of kind
    /// 7 in a specimen.
    Owner = 5,
    /// 6: an entry's depth is over 32.
    Depth = 6,
    /// 7: the output is too short.
    Output = 7,
    /// 8: a dictionary has more than 64 descriptions, or a list more than 64 services.
    TooMany = 8,
    /// 9: a group of a specimen brings its owner a second item by a link that leads to one item only, one from 32,768 up; or a
    /// delivered record links an item by one to another than an earlier entry did.
    SecondItem = 9,
    /// 10: the total of items of a record is 0 or over 256, or an item's number is 0 or above the total.
    Item = 10,
    /// 11: the length of a list of pairs is no multiple of 4 or over 64 pairs, or a pair has a 0 or two equal numbers.
    Pairs = 11,
    /// 12: a specimen or a record has an item with both properties of a pair of the list.
    BothOfAPair = 12,
    /// 13: the name of an entry of kind 9 is 0, above the dictionary's count, or in the dictionary not that of an earlier
    /// description.
    Name = 13,
    /// 14: a description, in the dictionary or not, has more than 1,008 entries or a depth over 32 once it is unfolded.
    Unfolded = 14,
    /// 15: the nearest earlier entry of lesser depth of a stored entry is no 'every' one less deep, or there is none.
    Order = 15,
    /// 16: an entry is added to a desk that holds 1,008 entries.
    DeskFull = 16,
    /// 17: an entry is taken off a desk that holds none.
    DeskEmpty = 17,
    /// 18: a stand's number is 0 or not known, or it would be the fifth.
    Stand = 18,
    /// 19: an entry is outside the field-sheet profile.
    Sheet = 19,
    /// 20: a desk is one that no list of calls gives, or its memory is below its fixed size.
    Desk = 20,
}

/// All reasons, by their numbers.
const ALL: [Reason; 20] = [
    Reason::Length,
    Reason::Check,
    Reason::Frame,
    Reason::Form,
    Reason::Owner,
    Reason::Depth,
    Reason::Output,
    Reason::TooMany,
    Reason::SecondItem,
    Reason::Item,
    Reason::Pairs,
    Reason::BothOfAPair,
    Reason::Name,
    Reason::Unfolded,
    Reason::Order,
    Reason::DeskFull,
    Reason::DeskEmpty,
    Reason::Stand,
    Reason::Sheet,
    Reason::Desk,
];

impl Reason {
    /// The reason with a number of the table. The library answers no other number than 1 to 20.
    pub(crate) fn from_number(number: u8) -> Reason {
        let index = usize::from(number).wrapping_sub(1);
        ALL.get(index).copied().unwrap_or(Reason::Output)
    }

    /// The number in the table of refusals, 1 to 20.
    pub fn number(self) -> u8 {
        self as u8
    }
}

/// A refusal: why, of which input, and at which place.
#[derive(Clone, Copy, Debug, PartialEq, Eq, Hash)]
pub struct Refusal {
    /// Why.
    pub reason: Reason,
    /// The input, 1 or 2 in the order of the call's arguments; 0 where the output is too short or the list of pairs is refused;
    /// 1 + n for the n-th service of a list, which is input 2 as a whole; 100 for a dictionary, and 100 + n for its n-th
    /// description.
    pub input: u16,
    /// The block or the entry, counted from 1 in that input, or the pair in the list; 0 where the reason has no place.
    pub place: u16,
}

impl fmt::Display for Refusal {
    fn fmt(&self, f: &mut fmt::Formatter<'_>) -> fmt::Result {
        let number = self.reason.number();
        write!(
            f,
            "refused {number} input {} place {}",
            self.input, self.place
        )
    }
}

impl Error for Refusal {}
