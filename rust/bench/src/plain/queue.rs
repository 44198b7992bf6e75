//! Places that wait to be written.

/// A place, and the entry that will own what is written for it.
#[derive(Clone, Copy, Default)]
pub struct Waiting {
    pub place: u16,
    pub owner: u16,
    /// How far on the path to the failing entry, where a specimen is written.
    pub step: u16,
}

/// A queue for one use of each cell: first in, first out. Twice N cells are enough for a description's places and a path's.
pub struct Queue<const N: usize> {
    cells: [[Waiting; 2]; N],
    head: usize,
    tail: usize,
}

impl<const N: usize> Queue<N> {
    pub fn new() -> Queue<N> {
        Queue {
            cells: [[Waiting::default(); 2]; N],
            head: 0,
            tail: 0,
        }
    }

    #[inline]
    pub fn push(&mut self, waiting: Waiting) {
        self.cells.as_flattened_mut()[self.tail] = waiting;
        self.tail += 1;
    }

    #[inline]
    pub fn pop(&mut self) -> Option<Waiting> {
        if self.head == self.tail {
            return None;
        }
        self.head += 1;
        Some(self.cells.as_flattened()[self.head - 1])
    }
}
