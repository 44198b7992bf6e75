//! Drawn numbers, the same for the same seed.

/// A generator of numbers, known as splitmix64.
#[derive(Clone, Debug)]
pub struct Chance(u64);

impl Chance {
    /// The generator with this seed.
    pub fn from_seed(seed: u64) -> Chance {
        Chance(seed)
    }

    /// The next number of 64 bits.
    pub fn number(&mut self) -> u64 {
        self.0 = self.0.wrapping_add(0x9E37_79B9_7F4A_7C15);
        let mut z = self.0;
        z = (z ^ (z >> 30)).wrapping_mul(0xBF58_476D_1CE4_E5B9);
        z = (z ^ (z >> 27)).wrapping_mul(0x94D0_49BB_1331_11EB);
        z ^ (z >> 31)
    }

    /// A number below the limit; 0 if the limit is 0.
    pub fn below(&mut self, limit: usize) -> usize {
        let limit = limit.max(1) as u64;
        (self.number() % limit) as usize
    }

    /// Any two bytes.
    pub fn word(&mut self) -> u16 {
        crate::word(self.below(0x1_0000))
    }

    /// A number from 0 to this.
    pub fn up_to(&mut self, most: u16) -> u16 {
        crate::word(self.below(usize::from(most) + 1))
    }

    /// A number from 1 to this, or 1.
    pub fn from_1_to(&mut self, most: u16) -> u16 {
        1 + self.up_to(most.saturating_sub(1))
    }

    /// Yes once in so many times.
    pub fn once_in(&mut self, times: usize) -> bool {
        self.below(times) == 0
    }

    /// Yes so many times of 16.
    pub fn of_16(&mut self, times: usize) -> bool {
        self.below(16) < times
    }

    /// One of these; there is at least one.
    pub fn one_of<T: Copy, const N: usize>(&mut self, list: [T; N]) -> T {
        list[self.below(N)]
    }

    /// One of these, if there is one.
    pub fn any<T: Copy>(&mut self, list: &[T]) -> Option<T> {
        list.get(self.below(list.len())).copied()
    }

    /// So many drawn bytes.
    pub fn noise(&mut self, length: usize) -> Vec<u8> {
        let mut bytes = Vec::with_capacity(length + 8);
        while bytes.len() < length {
            bytes.extend(self.number().to_le_bytes());
        }
        bytes.truncate(length);
        bytes
    }
}
