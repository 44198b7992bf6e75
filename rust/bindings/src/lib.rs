//! Soil sample descriptions: what fits them, their normal form, and whether one holds another.
//!
//! This crate calls the proved library. Build that first, by `make lib` in the repository's folder.
//!
//! A description and a specimen are bytes in blocks of 512: the block's number, how many of its 63 entries are used, the
//! entries of 8 bytes, the second check, which is the sum of all words of two bytes before it, each times its number, and the
//! first check, which is the sum of all words before it. Any bytes may be handed over; those that break a rule are refused. No
//! call panics or keeps anything, and only [`Under::catalogue_of`] and [`Desk`] allocate. `docs/FORMAT.md` has each byte and each refusal.
//!
//! Links from 32,768 up lead to one item only. Every promise here is about records that keep this rule: in them no item has two
//! items by such a link.
//!
//! [`Under`] has the same calls under a list of properties that exclude each other, such as clay and sand. What they promise is
//! about records that keep the list as well. It also has the dictionary whose descriptions may be named by others, and [`unfold()`]
//! puts them in where they are named. [`fit()`], [`normal_form`] and [`compare`] are the calls with no list and no dictionary.
//! [`Under::catalogue`] compares one description with a list of up to 64, and [`hierarchy()`] ranks such a list from special to general.
//! [`earning()`] marks the entries of a description that earn a yes, and [`failing()`] all those of a service that fail.
//! [`missing()`] marks the entries of a service that a description lacks for one.
//! [`Desk`] is a description that is drafted entry by entry, with stands to return to.
//! [`Under::fit_all`] judges the items of a delivered record, which may be shared, by links that may go round.
//!
//! [`to_stored`] writes a description in the shorter stored form, and [`from_stored`] reads it back.
//!
//! `k` entries take `512 * k.div_ceil(63).max(1)` bytes, `GX_BYTES(k)` of the C header: a call that writes `k` entries writes
//! just those bytes, from the start of the output.
//!
//! A thread with 128 KiB of stack has room for each call but the narrowest, which wants 160 KiB;
//! `include/goltximen.h` has what was measured.
//!
//! ```
//! use goltximen::{compare, Comparison};
//!
//! // A description of one block: block number 1, one entry used, "has property 7", and the checks. Byte 4 begins word 3 and
//! // byte 8 word 5.
//! let mut has_7 = [0u8; 512];
//! (has_7[0], has_7[2], has_7[4], has_7[8]) = (1, 1, 1, 7);
//! has_7[508] = 1 + 2 * 1 + 3 * 1 + 5 * 7;
//! has_7[510] = 1 + 1 + 1 + 7 + has_7[508];
//!
//! // The empty description, which every item fits.
//! let mut empty = [0u8; 512];
//! (empty[0], empty[508], empty[510]) = (1, 1, 2);
//!
//! let mut out = [0u8; 1024];
//! assert_eq!(compare(&has_7, &empty, &mut out), Ok(Comparison::Contained));
//! ```

#![deny(missing_docs)]
#![deny(unsafe_code)]

mod catalogue;
mod desk;
mod earning;
mod failing;
#[allow(unsafe_code)]
mod ffi;
mod hierarchy;
mod items;
mod missing;
mod packed;
mod refusal;
mod stored;
mod under;
mod unfold;

/// The version of the library.
pub const VERSION: &str = env!("CARGO_PKG_VERSION");

pub use desk::{Desk, DESK_BYTES};
pub use earning::earning;
pub use failing::failing;
pub use hierarchy::{hierarchy, hierarchy_bytes, Hierarchy};
pub use items::MOST_ITEMS;
pub use missing::{missing, Lack};
pub use refusal::{Reason, Refusal};
pub use stored::{from_stored, stored_bytes, to_stored};
pub use under::Under;
pub use unfold::unfold;

/// The fit answer.
#[derive(Clone, Copy, Debug, PartialEq, Eq, Hash)]
pub enum Fit {
    /// The top item of the specimen fits the description.
    Yes,
    /// It does not.
    No,
}

/// The fit answer, with the additions of items that it took.
#[derive(Clone, Copy, Debug, PartialEq, Eq, Hash)]
pub struct CountedFit {
    /// The answer.
    pub fit: Fit,
    /// The additions in making the table of totals: one for each group of the specimen.
    pub table: u16,
    /// The additions in the walk over entries: none.
    pub walk: u16,
}

/// The answer of the comparison.
#[derive(Clone, Copy, Debug, PartialEq, Eq, Hash)]
pub enum Comparison {
    /// In every finite record that keeps the rule that links from 32,768 up never lead to two items, each item that fits the
    /// first description fits the second.
    Contained,
    /// Some item of some such record fits the first and not the second. The output begins with the blocks of a specimen whose
    /// top item is one.
    NotContained {
        /// The number of the first entry of the second description that fails, counted from 1.
        entry: u16,
        /// The number of entries of the specimen.
        entries: u16,
    },
}

/// Reads a description, 1 to 16 blocks of entries of kinds 1 to 6, and returns its number of entries.
///
/// ```
/// use goltximen::{read_description, Reason, Refusal};
///
/// let mut d = [0u8; 512];
/// (d[0], d[508], d[510]) = (1, 1, 2);
/// assert_eq!(read_description(&d), Ok(0));
///
/// d[510] = 3;
/// let refusal = Refusal { reason: Reason::Check, input: 1, place: 1 };
/// assert_eq!(read_description(&d), Err(refusal));
/// assert_eq!(refusal.to_string(), "refused 2 input 1 place 1");
///
/// // The same for the second check, with the first that is right for it.
/// (d[508], d[510]) = (2, 3);
/// assert_eq!(read_description(&d), Err(refusal));
/// ```
///
/// # Errors
///
/// The refusal by the first number of the table that applies.
pub fn read_description(d: &[u8]) -> Result<u16, Refusal> {
    packed::count(ffi::read_description(d))
}

/// Reads a specimen, 1 to 32 blocks of entries of kinds 1 and 7, and returns its number of entries.
///
/// ```
/// use goltximen::{read_specimen, Reason};
///
/// // One block with one entry: the top item has property 7.
/// let mut s = [0u8; 512];
/// (s[0], s[2], s[4], s[8]) = (1, 1, 1, 7);
/// s[508] = 1 + 2 * 1 + 3 * 1 + 5 * 7;
/// s[510] = 1 + 1 + 1 + 7 + s[508];
/// assert_eq!(read_specimen(&s), Ok(1));
/// assert_eq!(read_specimen(&[]).unwrap_err().reason, Reason::Length);
///
/// // A group of two items by link 32,768, which leads to one item only. Byte 9 is the high byte of the name, and byte 10 is
/// // one less than the items: the low byte of word 6.
/// (s[4], s[8], s[9], s[10]) = (7, 0, 128, 1);
/// let second = 1 + 2 * 1 + 3 * 7 + 5 * 32_768 + 6 * 1;
/// let first = 1 + 1 + 7 + 32_768 + 1 + second;
/// s[508..510].copy_from_slice(&(second as u16).to_le_bytes());
/// s[510..512].copy_from_slice(&(first as u16).to_le_bytes());
/// let refusal = read_specimen(&s).unwrap_err();
/// assert_eq!(refusal.reason, Reason::SecondItem);
/// assert_eq!(refusal.to_string(), "refused 9 input 1 place 1");
/// ```
///
/// # Errors
///
/// The refusal by the first number of the table that applies.
pub fn read_specimen(s: &[u8]) -> Result<u16, Refusal> {
    packed::count(ffi::read_specimen(s))
}

/// Reads a field sheet, a description of a small profile, and returns its number of entries: kinds 1, 3, 4 and 5 only, with
/// numbers of at most 99, at most 3 links deep. What is accepted is accepted by [`read_description`] too, with the same number.
///
/// ```
/// use goltximen::{read_description, read_sheet, Reason};
///
/// // One block with one entry: "has property 7".
/// let mut d = [0u8; 512];
/// (d[0], d[2], d[4], d[8]) = (1, 1, 1, 7);
/// d[508] = 1 + 2 * 1 + 3 * 1 + 5 * 7;
/// d[510] = 1 + 1 + 1 + 7 + d[508];
/// assert_eq!(read_sheet(&d), Ok(1));
///
/// // "lacks property 7" is a description, and of no field sheet.
/// d[4] = 2;
/// d[508] = 1 + 2 * 1 + 3 * 2 + 5 * 7;
/// d[510] = 1 + 1 + 2 + 7 + d[508];
/// assert_eq!(read_description(&d), Ok(1));
/// let refusal = read_sheet(&d).unwrap_err();
/// assert_eq!(refusal.reason, Reason::Sheet);
/// assert_eq!(refusal.to_string(), "refused 19 input 1 place 1");
/// ```
///
/// # Errors
///
/// The refusal by the first number of the table that applies: at one entry [`Reason::Sheet`] after all others. Any other refusal is
/// that of [`read_description`].
pub fn read_sheet(d: &[u8]) -> Result<u16, Refusal> {
    packed::count(ffi::read_sheet(d))
}

/// Whether the top item of a specimen, input 1, fits a description, input 2.
///
/// ```
/// use goltximen::{fit, Fit};
///
/// // "has property 7", which is a specimen and a description.
/// let mut has_7 = [0u8; 512];
/// (has_7[0], has_7[2], has_7[4], has_7[8]) = (1, 1, 1, 7);
/// has_7[508] = 1 + 2 * 1 + 3 * 1 + 5 * 7;
/// has_7[510] = 1 + 1 + 1 + 7 + has_7[508];
///
/// // "lacks property 7".
/// let mut lacks_7 = has_7;
/// lacks_7[4] = 2;
/// lacks_7[508] = 1 + 2 * 1 + 3 * 2 + 5 * 7;
/// lacks_7[510] = 1 + 1 + 2 + 7 + lacks_7[508];
///
/// assert_eq!(fit(&has_7, &has_7), Ok(Fit::Yes));
/// assert_eq!(fit(&has_7, &lacks_7), Ok(Fit::No));
/// ```
///
/// # Errors
///
/// The refusal of the specimen, and if it is accepted, of the description.
pub fn fit(specimen: &[u8], description: &[u8]) -> Result<Fit, Refusal> {
    packed::fit(ffi::fit(specimen, description))
}

/// The same, with the additions of items that it took. The totals of the specimen's groups are worked out before the walk over
/// entries, in a table that adds each group once; the walk adds none.
///
/// ```
/// use goltximen::{fit_counted, CountedFit, Fit};
///
/// // A group of one item by link 7, and "at least 1 by link 7".
/// let mut group = [0u8; 512];
/// (group[0], group[2], group[4], group[8]) = (1, 1, 7, 7);
/// group[508] = 1 + 2 * 1 + 3 * 7 + 5 * 7;
/// group[510] = 1 + 1 + 7 + 7 + group[508];
/// let mut one = [0u8; 512];
/// (one[0], one[2], one[4], one[8], one[10]) = (1, 1, 3, 7, 1);
/// one[508] = 1 + 2 * 1 + 3 * 3 + 5 * 7 + 6 * 1;
/// one[510] = 1 + 1 + 3 + 7 + 1 + one[508];
///
/// let counted = CountedFit { fit: Fit::Yes, table: 1, walk: 0 };
/// assert_eq!(fit_counted(&group, &one), Ok(counted));
/// ```
///
/// # Errors
///
/// As for [`fit`].
pub fn fit_counted(specimen: &[u8], description: &[u8]) -> Result<CountedFit, Refusal> {
    let counted = ffi::fit_counted(specimen, description);
    let fields = packed::fields(counted)?;
    Ok(CountedFit {
        fit: packed::fit(counted)?,
        table: fields.second,
        walk: fields.first,
    })
}

/// Writes the normal form of a description in blocks from the start of the output, and returns its number of entries. Later
/// bytes of the output stay.
///
/// ```
/// use goltximen::normal_form;
///
/// // "at least 0 by link 3" says nothing, so the normal form is empty.
/// let mut d = [0u8; 512];
/// (d[0], d[2], d[4], d[8]) = (1, 1, 3, 3);
/// d[508] = 1 + 2 * 1 + 3 * 3 + 5 * 3;
/// d[510] = 1 + 1 + 3 + 3 + d[508];
///
/// let mut out = [9u8; 513];
/// assert_eq!(normal_form(&d, &mut out), Ok(0));
/// assert_eq!((out[0], out[2], out[508], out[510], out[512]), (1, 0, 1, 2, 9));
/// ```
///
/// # Errors
///
/// The refusal of the description; if it is accepted, [`Reason::Output`] where the output is shorter than the description.
/// The output is then unchanged.
pub fn normal_form(description: &[u8], out: &mut [u8]) -> Result<u16, Refusal> {
    packed::count(ffi::normal(description, out))
}

/// Compares two descriptions: whether in every finite record that keeps the rule that links from 32,768 up never lead to two
/// items, each item that fits `c`, input 1, fits `d`, input 2.
///
/// Where one does not, the blocks of a specimen that shows it are written from the start of the output. Later bytes stay.
/// Where the answer is [`Comparison::Contained`] the output is unchanged.
///
/// ```
/// use goltximen::{compare, fit, Comparison, Fit};
///
/// // "has property 7", and "has property 8".
/// let mut c = [0u8; 512];
/// (c[0], c[2], c[4], c[8]) = (1, 1, 1, 7);
/// c[508] = 1 + 2 * 1 + 3 * 1 + 5 * 7;
/// c[510] = 1 + 1 + 1 + 7 + c[508];
/// let mut d = c;
/// d[8] = 8;
/// d[508] = 1 + 2 * 1 + 3 * 1 + 5 * 8;
/// d[510] = 1 + 1 + 1 + 8 + d[508];
///
/// let mut out = [0u8; 1024];
/// let shown = Comparison::NotContained { entry: 1, entries: 1 };
/// assert_eq!(compare(&c, &d, &mut out), Ok(shown));
/// assert_eq!(fit(&out[..512], &c), Ok(Fit::Yes));
/// assert_eq!(fit(&out[..512], &d), Ok(Fit::No));
/// ```
///
/// # Errors
///
/// The refusal of `c`; if it is accepted, that of `d`; then [`Reason::Output`] where the output is shorter than both together.
/// The output is then unchanged.
pub fn compare(c: &[u8], d: &[u8], out: &mut [u8]) -> Result<Comparison, Refusal> {
    packed::comparison(ffi::compare(c, d, out))
}
