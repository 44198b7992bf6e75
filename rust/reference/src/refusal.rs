//! Refusals.

/// What a refused call returns.
///
/// Places count by position, and inputs as the call lists them (R22) (R23).
/// Input 0 is the list's, for number 11, which counts pairs; for a dictionary
/// input 100, the n-th description is input 100 + n (D2); and for a service
/// in a list 1 + n for a service (L5).
#[derive(Clone, Copy, Debug, PartialEq, Eq)]
pub struct Refusal {
    /// The number in the table of refusals, 1 to 19 (R1 to R14, and those of
    /// calls to come).
    pub number: u8,
    /// The input that is refused: 1 or 2; 0 for numbers 7 and 11; 2 for a list
    /// of services and 2 to 65 for the services in it; 100 for the dictionary
    /// and 101 to 164 for its descriptions.
    pub input: u16,
    /// The block, entry or pair that decides, or 0 for numbers 1, 7, 8, 14 and
    /// 16 to 18, for a wrong total of items and for a list of pairs of a wrong
    /// length.
    pub place: u32,
}

/// The length is 0, no multiple of 512, or too much (R1).
pub(crate) const LENGTH: u8 = 1;
/// A check is not its sum (R2), the first or the second
pub(crate) const CHECK: u8 = 2;
/// The frame is wrong (R3); the frame's own such bytes became the second
/// check
pub(crate) const FRAME: u8 = 3;
/// Kind, byte 1, name or number is not in the table (R4).
pub(crate) const ENTRY: u8 = 4;
/// The owner is not earlier, or may not own (R5).
pub(crate) const OWNER: u8 = 5;
/// Depth above 32 (R6).
pub(crate) const DEPTH: u8 = 6;
/// The output is too short (R7).
pub(crate) const OUTPUT: u8 = 7;
/// More than 64 services (R8), and likewise of a dictionary, a list of
/// descriptions (D1)
pub(crate) const TOO_MANY: u8 = 8;
/// A group that brings its owner a second item by a single link (R9).
pub(crate) const SECOND_ITEM: u8 = 9;
/// The total of a delivered record is 0 or above 256, or an entry of it names
/// an item 0 or above the total.
pub(crate) const ITEM: u8 = 10;
/// The length, or a wrong pair (R11).
pub(crate) const PAIRS: u8 = 11;
/// An item has both properties of a pair (R12).
pub(crate) const BOTH_OF_A_PAIR: u8 = 12;
/// A name that may not be given (R13).
pub(crate) const NAME: u8 = 13;
/// Too large once unfolded (R14).
pub(crate) const UNFOLDED: u8 = 14;
/// An entry of the stored form with a depth that no owner gives it.
pub(crate) const WALK: u8 = 15;
/// Adding to a desk of 1,008 entries.
pub(crate) const FULL: u8 = 16;
/// Taking off from a desk of none.
pub(crate) const NONE_LEFT: u8 = 17;
/// A stand of number 0, one that the desk doesn't have, or a fifth.
pub(crate) const STAND: u8 = 18;
/// An entry that no field sheet has.
pub(crate) const PROFILE: u8 = 19;

impl Refusal {
    /// The refusal with this number at this place of this input.
    pub(crate) fn at(number: u8, input: u16, place: usize) -> Refusal {
        let place = u32::try_from(place).unwrap_or(u32::MAX);
        Refusal {
            number,
            input,
            place,
        }
    }

    /// The output is too short (R7): input 0, place 0.
    pub(crate) fn output_too_short() -> Refusal {
        Refusal::at(OUTPUT, 0, 0)
    }
}
