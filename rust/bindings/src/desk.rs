//! A drafting desk: a description that is drafted entry by entry, and stands to return to.

use crate::{ffi, packed, Refusal};

/// The bytes of a desk, `GX_DESK_BYTES` of the C header: ten words, and five areas of 1,008 entries of 8 bytes.
pub const DESK_BYTES: usize = 40_340;

/// A desk, which owns its bytes. It holds one description of at most 1,008 entries, and up to four named stands, each a number from 1 to
/// 65,535 and a description that was held once.
///
/// A new desk is empty. Each call but [`write_out`](Desk::write_out) returns how many entries are left; a refused call alters no byte. All
/// refusals but that of a short output are of input 1. [`bytes`](Desk::bytes) are what to keep of a desk from one day to the next, and
/// [`from_bytes`](Desk::from_bytes) takes any: where no list of calls gives what they hold, each call is refused as
/// [`Reason::Desk`](crate::Reason::Desk), which comes before all other refusals.
///
/// A draft over two days:
///
/// ```
/// use goltximen::{read_description, Desk, Reason};
///
/// // An entry is its kind, a zero byte, owner, name and number: "has property 7", "at least 2 by link 1".
/// let has_7 = [1, 0, 0, 0, 7, 0, 0, 0];
/// let two_by_1 = [3, 0, 0, 0, 1, 0, 2, 0];
///
/// // The first day: two entries, and what stands in the evening is named 1.
/// let mut desk = Desk::new();
/// assert_eq!(desk.add(has_7), Ok(1));
/// assert_eq!(desk.add(two_by_1), Ok(2));
/// assert_eq!(desk.name(1), Ok(2));
/// let kept: Vec<u8> = desk.bytes().to_vec();
///
/// // The second day: another try, which is given up for what stood in the evening.
/// let mut desk = Desk::from_bytes(&kept);
/// assert_eq!(desk.take_off(), Ok(1));
/// assert_eq!(desk.add([2, 0, 0, 0, 8, 0, 0, 0]), Ok(2));
/// assert_eq!(desk.name(2), Ok(2));
/// assert_eq!(desk.go_back(1), Ok(2));
/// assert_eq!(desk.drop_stand(2), Ok(2));
///
/// // It is written out as a description, which reading accepts.
/// let mut out = [0u8; 512];
/// assert_eq!(desk.write_out(&mut out), Ok(2));
/// assert_eq!(read_description(&out), Ok(2));
/// assert_eq!(out[4..20], [has_7, two_by_1].concat());
///
/// // Stand 2 is gone, and an entry that no description may have is refused at the number that it would have.
/// assert_eq!(desk.go_back(2).unwrap_err().reason, Reason::Stand);
/// let refusal = desk.add([9, 0, 0, 0, 1, 0, 0, 0]).unwrap_err();
/// assert_eq!((refusal.reason, refusal.input, refusal.place), (Reason::Form, 1, 3));
/// ```
#[derive(Clone, Debug, PartialEq, Eq, Hash)]
pub struct Desk {
    bytes: Vec<u8>,
}

impl Default for Desk {
    fn default() -> Desk {
        Desk::new()
    }
}

impl Desk {
    /// The empty desk.
    pub fn new() -> Desk {
        Desk {
            bytes: vec![0; DESK_BYTES],
        }
    }

    /// A desk of these bytes, whatever they are.
    pub fn from_bytes(bytes: &[u8]) -> Desk {
        Desk {
            bytes: bytes.to_vec(),
        }
    }

    /// The bytes of the desk. Those of entries that are no longer held are no part of it, and may hold anything.
    pub fn bytes(&self) -> &[u8] {
        &self.bytes
    }

    /// Adds an entry at the end: its 8 bytes, which are its kind, a zero byte, and owner, name and number of two bytes, low byte first.
    ///
    /// # Errors
    ///
    /// [`Reason::DeskFull`](crate::Reason::DeskFull) for a desk of 1,008 entries; then, at the number that the entry would have, what reading
    /// a description refuses it for.
    pub fn add(&mut self, entry: [u8; 8]) -> Result<u16, Refusal> {
        packed::count(ffi::desk_add(&mut self.bytes, u64::from_le_bytes(entry)))
    }

    /// Takes off the last entry.
    ///
    /// # Errors
    ///
    /// [`Reason::DeskEmpty`](crate::Reason::DeskEmpty) where there is none.
    pub fn take_off(&mut self) -> Result<u16, Refusal> {
        packed::count(ffi::desk_take_off(&mut self.bytes))
    }

    /// Keeps the description under a number. One that is used again replaces its stand.
    ///
    /// # Errors
    ///
    /// [`Reason::Stand`](crate::Reason::Stand) for 0, and for a number that would be the fifth.
    pub fn name(&mut self, stand: u16) -> Result<u16, Refusal> {
        packed::count(ffi::desk_name(&mut self.bytes, stand))
    }

    /// Goes back to what is kept under a number; the stand stays.
    ///
    /// # Errors
    ///
    /// [`Reason::Stand`](crate::Reason::Stand) for a number that is not known.
    pub fn go_back(&mut self, stand: u16) -> Result<u16, Refusal> {
        packed::count(ffi::desk_go_back(&mut self.bytes, stand))
    }

    /// Drops the stand of a number; the description stays.
    ///
    /// # Errors
    ///
    /// [`Reason::Stand`](crate::Reason::Stand) for a number that is not known.
    pub fn drop_stand(&mut self, stand: u16) -> Result<u16, Refusal> {
        packed::count(ffi::desk_drop(&mut self.bytes, stand))
    }

    /// Writes the description in blocks from the start of an output, and returns how many entries these are. Later bytes of the output stay.
    ///
    /// # Errors
    ///
    /// [`Reason::Output`](crate::Reason::Output), of input 0, where the output is shorter than these blocks. The output is then unchanged.
    pub fn write_out(&self, out: &mut [u8]) -> Result<u16, Refusal> {
        packed::count(ffi::desk_write(&self.bytes, out))
    }
}
