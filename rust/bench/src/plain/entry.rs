//! An entry as one number of 64 bits: its eight bytes, low byte first.

pub const HAS: u16 = 1;
pub const LACKS: u16 = 2;
pub const AT_LEAST: u16 = 3;
pub const AT_MOST: u16 = 4;
pub const EVERY: u16 = 5;
pub const NOTHING: u16 = 6;
pub const GROUP: u16 = 7;
pub const NAMED: u16 = 9;

/// The kinds that take a number, as bits: 3, 4 and 7.
const NUMBERED: u16 = 1 << AT_LEAST | 1 << AT_MOST | 1 << GROUP;

#[derive(Clone, Copy)]
pub struct Entry(pub u64);

impl Entry {
    pub fn new(kind: u16, owner: u16, name: u16, number: u16) -> Entry {
        Entry(
            u64::from(kind)
                | u64::from(owner) << 16
                | u64::from(name) << 32
                | u64::from(number) << 48,
        )
    }

    /// The kind and the byte after it, which is zero in what is accepted.
    #[inline]
    pub fn kind(self) -> u16 {
        self.0 as u16
    }

    #[inline]
    pub fn owner(self) -> usize {
        usize::from((self.0 >> 16) as u16)
    }

    #[inline]
    pub fn name(self) -> u16 {
        (self.0 >> 32) as u16
    }

    #[inline]
    pub fn number(self) -> u16 {
        (self.0 >> 48) as u16
    }

    /// Whether this stands for a description of the dictionary, if there is one of that name.
    #[inline]
    pub fn is_named(self) -> bool {
        (self.kind() == NAMED) & (self.number() == 0)
    }

    /// The same with another owner.
    #[inline]
    pub fn owned_by(self, owner: u16) -> Entry {
        Entry(self.0 & !0xffff_0000 | u64::from(owner) << 16)
    }

    /// Whether the kind is one of these (as bits), and name and number are inside the table.
    #[inline]
    pub fn form_is_right(self, kinds: u16) -> bool {
        let kind = self.kind();
        let bit = u16::from(kind < 8) << (kind & 7);
        let name_right = (self.name() == 0) == (kind == NOTHING);
        let number_right = (self.number() == 0) | (NUMBERED & bit != 0);
        (kinds & bit != 0) & name_right & number_right
    }
}
