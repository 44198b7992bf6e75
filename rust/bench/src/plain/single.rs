//! Links that lead to one item only, and the groups by them that a specimen has so far.

use super::entry::{Entry, GROUP};
use super::seen::Seen;

/// The links from here up lead to one item only.
pub const FIRST_SINGLE: u16 = 32_768;

/// Whether an entry is a group by such a link: kind and the highest bit of the name tell, by one comparison.
#[inline]
pub fn is_single_group(entry: Entry) -> bool {
    let name = u64::from(FIRST_SINGLE) << 32;
    entry.0 & (name | 0xffff) == name | u64::from(GROUP)
}

/// Takes in a group by such a link, and answers whether it brings its owner a second item.
#[inline]
pub fn is_second<const N: usize>(led: &mut Seen<N>, entry: Entry) -> bool {
    led.insert(entry.owner(), entry.name()) | (entry.number() > 0)
}
