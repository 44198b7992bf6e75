//! Owners and names that a specimen's entries have had so far.

/// The cells of the hash table for each entry.
const SPARE: usize = 2;

/// The owners and names of fewer than N entries; N is a power of two.
pub struct Seen<const N: usize> {
    /// Owner and name in one number, by its hash. No name is 0, so 0 is free.
    cells: [[u32; SPARE]; N],
}

impl<const N: usize> Seen<N> {
    #[cold]
    pub fn new() -> Seen<N> {
        Seen {
            cells: [[0; SPARE]; N],
        }
    }

    /// The number of an owner and a name, and the cell where it stands or would stand.
    #[inline]
    fn cell(&self, owner: usize, name: u16) -> (u32, usize) {
        let key = (owner as u32) << 16 | u32::from(name);
        let cells = self.cells.as_flattened();
        let bits = (SPARE * N).trailing_zeros();
        let mut cell = (key.wrapping_mul(0x9e37_79b1) >> (32 - bits)) as usize;
        while cells[cell] != 0 && cells[cell] != key {
            cell = (cell + 1) % (SPARE * N);
        }
        (key, cell)
    }

    #[inline]
    pub fn contains(&self, owner: usize, name: u16) -> bool {
        let (_, cell) = self.cell(owner, name);
        self.cells.as_flattened()[cell] != 0
    }

    /// Takes in an owner and a name, and answers whether they were there.
    #[inline]
    pub fn insert(&mut self, owner: usize, name: u16) -> bool {
        let (key, cell) = self.cell(owner, name);
        std::mem::replace(&mut self.cells.as_flattened_mut()[cell], key) != 0
    }
}
