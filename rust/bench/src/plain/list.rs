//! Lists of descriptions laid end to end.

use super::read::{refusal, Block};
use super::{Refusal, BLOCK};

/// The most descriptions of a list.
pub const MOST: usize = 64;

/// The descriptions of a list that are left, as blocks.
pub struct Parts<'a> {
    left: &'a [Block],
}

impl<'a> Parts<'a> {
    /// The descriptions of a list, which has whole blocks and not too many descriptions.
    pub fn of(list: &'a [u8], input: u16) -> Result<Parts<'a>, Refusal> {
        let (left, rest) = list.as_chunks::<BLOCK>();
        if !rest.is_empty() {
            return Err(refusal(1, input, 0));
        }
        let later = left.iter().skip(1).filter(|block| begins(block));
        // One more than there can be is enough to know.
        if later.take(MOST).count() == MOST {
            return Err(refusal(8, input, 0));
        }
        Ok(Parts { left })
    }

    pub fn is_empty(&self) -> bool {
        self.left.is_empty()
    }
}

impl<'a> Iterator for Parts<'a> {
    type Item = &'a [Block];

    fn next(&mut self) -> Option<&'a [Block]> {
        let (_, later) = self.left.split_first()?;
        let length = later.iter().position(begins).unwrap_or(later.len());
        let (part, left) = self.left.split_at(length + 1);
        self.left = left;
        Some(part)
    }
}

/// Whether a block that is not the first begins a description.
fn begins(block: &Block) -> bool {
    block[..2] == [1, 0]
}
