//! The calls under a list of properties that exclude each other, with a dictionary of named descriptions. The catalogue and
//! the delivered items, which are such calls too, have modules of their own.

use crate::{ffi, packed, Comparison, Fit, Refusal};

/// What the answers of a call are relative to: a list of pairs of properties that exclude each other, and a dictionary.
///
/// A pair is four bytes, two properties of two bytes each, low byte first; a list has 0 to 64 pairs. Which of the two stands
/// first says nothing; a pair may stand there twice, and a property in several pairs. Records keep the list: no item has both
/// properties of a pair. What the calls promise is about every finite record that keeps the list and the rule that links from
/// 32,768 up never lead to two items. So a place of a description with both properties of a pair is impossible, and one with
/// the one of them lacks the other.
///
/// A dictionary is up to 64 descriptions laid end to end: the first block, and each later one numbered 1, begins one. In it and in
/// the descriptions of a call, an entry of kind 9 with name n and number 0 stands for its n-th description, put in at that place; a
/// description of the dictionary may name only earlier ones. All answers and written bytes, entry numbers and the lengths of
/// outputs among them, are those for the descriptions that [`unfold`](crate::unfold()) writes. The dictionary is checked after the
/// list and before the inputs, as input 100 and its n-th description as 100 + n, whether it is named or not. Of length 0 it has no
/// descriptions, and each entry of kind 9 is refused as 13.
///
/// The default has no pairs and no dictionary: its calls are [`fit()`](crate::fit()), [`normal_form`](crate::normal_form()) and
/// [`compare`](crate::compare()).
///
/// ```
/// use goltximen::{compare, Comparison, Reason, Refusal, Under};
///
/// // "has clay", which is property 7, and "lacks sand", which is property 8.
/// let mut clay = [0u8; 512];
/// (clay[0], clay[2], clay[4], clay[8]) = (1, 1, 1, 7);
/// (clay[508], clay[510]) = (41, 51);
/// let mut no_sand = [0u8; 512];
/// (no_sand[0], no_sand[2], no_sand[4], no_sand[8]) = (1, 1, 2, 8);
/// (no_sand[508], no_sand[510]) = (49, 61);
///
/// // An item may have both, unless they exclude each other.
/// let mut out = [0u8; 1024];
/// let shown = Comparison::NotContained { entry: 1, entries: 2 };
/// assert_eq!(compare(&clay, &no_sand, &mut out), Ok(shown));
/// let under = Under { pairs: &[7, 0, 8, 0], ..Under::default() };
/// assert_eq!(under.compare(&clay, &no_sand, &mut out), Ok(Comparison::Contained));
///
/// // No property excludes itself: the second pair is refused, before anything else is looked at.
/// let wrong = Under { pairs: &[7, 0, 8, 0, 9, 0, 9, 0], ..Under::default() };
/// let refusal = Refusal { reason: Reason::Pairs, input: 0, place: 2 };
/// assert_eq!(wrong.compare(&[], &[], &mut []), Err(refusal));
///
/// // "as described under number 1": with a dictionary of that one description it has clay, and lacks sand.
/// let mut named = [0u8; 512];
/// (named[0], named[2], named[4], named[8]) = (1, 1, 9, 1);
/// (named[508], named[510]) = (35, 47);
/// let with = Under { dictionary: &clay, ..under };
/// assert_eq!(with.compare(&named, &no_sand, &mut out), Ok(Comparison::Contained));
/// let refusal = Refusal { reason: Reason::Name, input: 1, place: 1 };
/// assert_eq!(under.compare(&named, &no_sand, &mut out), Err(refusal));
/// ```
#[derive(Clone, Copy, Debug, Default, PartialEq, Eq, Hash)]
pub struct Under<'a> {
    /// The list of pairs.
    pub pairs: &'a [u8],
    /// The dictionary.
    pub dictionary: &'a [u8],
}

impl Under<'_> {
    /// Whether the top item of a specimen, input 1, fits a description, input 2. What fits is as without a list. A specimen has no
    /// entries of kind 9.
    ///
    /// ```
    /// use goltximen::{fit, Fit, Under};
    ///
    /// // The top item has properties 7 and 8.
    /// let mut both = [0u8; 512];
    /// (both[0], both[2], both[4], both[8], both[12], both[16]) = (1, 2, 1, 7, 1, 8);
    /// both[508] = 1 + 2 * 2 + 3 * 1 + 5 * 7 + 7 * 1 + 9 * 8;
    /// both[510] = 1 + 2 + 1 + 7 + 1 + 8 + both[508];
    ///
    /// assert_eq!(fit(&both, &both), Ok(Fit::Yes));
    /// let under = Under { pairs: &[8, 0, 7, 0], ..Under::default() };
    /// let refusal = under.fit(&both, &both).unwrap_err();
    /// assert_eq!(refusal.to_string(), "refused 12 input 1 place 2");
    /// ```
    ///
    /// # Errors
    ///
    /// The refusal of the list, of the dictionary, of the specimen, and of the description, the first that applies.
    /// [`Reason::BothOfAPair`](crate::Reason::BothOfAPair) comes after the specimen's other refusals.
    pub fn fit(&self, specimen: &[u8], description: &[u8]) -> Result<Fit, Refusal> {
        packed::fit(ffi::fit_with(
            self.pairs,
            self.dictionary,
            specimen,
            description,
        ))
    }

    /// Writes the normal form of a description in blocks from the start of the output, and returns its number of entries. Later
    /// bytes of the output stay.
    ///
    /// ```
    /// use goltximen::Under;
    ///
    /// // "has property 7, lacks property 8": the lack says nothing where 7 excludes 8.
    /// let mut d = [0u8; 512];
    /// (d[0], d[2], d[4], d[8], d[12], d[16]) = (1, 2, 1, 7, 2, 8);
    /// d[508] = 1 + 2 * 2 + 3 * 1 + 5 * 7 + 7 * 2 + 9 * 8;
    /// d[510] = 1 + 2 + 1 + 7 + 2 + 8 + d[508];
    ///
    /// let mut out = [9u8; 513];
    /// let under = Under { pairs: &[7, 0, 8, 0], ..Under::default() };
    /// assert_eq!(under.normal_form(&d, &mut out), Ok(1));
    /// assert_eq!((out[2], out[4], out[8], out[12], out[512]), (1, 1, 7, 0, 9));
    /// ```
    ///
    /// # Errors
    ///
    /// The refusal of the list, of the dictionary, and of the description, the first that applies; then
    /// [`Reason::Output`](crate::Reason::Output) where the output is shorter than the unfolded description. The output is then
    /// unchanged.
    pub fn normal_form(&self, description: &[u8], out: &mut [u8]) -> Result<u16, Refusal> {
        packed::count(ffi::normal_with(
            self.pairs,
            self.dictionary,
            description,
            out,
        ))
    }

    /// Compares two descriptions: whether in every finite record that keeps the list and the rule that links from 32,768 up never
    /// lead to two items, each item that fits `c`, input 1, fits `d`, input 2. The entry that fails is counted in `d` unfolded.
    ///
    /// Where one does not, the blocks of a specimen that shows it are written from the start of the output: it keeps the list and
    /// the rule, and [`Under::fit`] under the same list says yes to it for `c` and no for `d`. Later bytes stay. Where the answer
    /// is [`Comparison::Contained`] the output is unchanged.
    ///
    /// # Errors
    ///
    /// The refusal of the list, of the dictionary, of `c`, and of `d`, the first that applies; then
    /// [`Reason::Output`](crate::Reason::Output) where the output is shorter than both together, unfolded. The output is then
    /// unchanged.
    pub fn compare(&self, c: &[u8], d: &[u8], out: &mut [u8]) -> Result<Comparison, Refusal> {
        packed::comparison(ffi::compare_with(self.pairs, self.dictionary, c, d, out))
    }

    /// Writes the narrowest description that contains both `a`, input 1, and `b`, input 2, in blocks from the start of the output, and
    /// returns its number of entries. Later bytes of the output stay.
    ///
    /// It contains both, as [`Under::compare`] says, and an accepted description contains it exactly if it contains both. It is in
    /// normal form, and either order of the two gives the same bytes. Both together have at most 16 blocks once unfolded.
    ///
    /// ```
    /// use goltximen::{Comparison, Under};
    ///
    /// // "has property 7, has property 8", and "has property 7".
    /// let mut a = [0u8; 512];
    /// (a[0], a[2], a[4], a[8], a[12], a[16]) = (1, 2, 1, 7, 1, 8);
    /// (a[508], a[510]) = (122, 142);
    /// let mut b = [0u8; 512];
    /// (b[0], b[2], b[4], b[8]) = (1, 1, 1, 7);
    /// (b[508], b[510]) = (41, 51);
    ///
    /// // Both have property 7, and nothing else.
    /// let mut out = [9u8; 1024];
    /// let under = Under::default();
    /// assert_eq!(under.narrowest(&a, &b, &mut out), Ok(1));
    /// assert_eq!((&out[..512], out[512]), (&b[..], 9));
    ///
    /// let narrowest = out[..512].to_vec();
    /// assert_eq!(under.compare(&a, &narrowest, &mut out), Ok(Comparison::Contained));
    /// ```
    ///
    /// # Errors
    ///
    /// The refusal of the list, of the dictionary, of `a`, and of `b`, the first that applies; then
    /// [`Reason::Length`](crate::Reason::Length) of input 2, at place 0, where both together have more than 16 blocks once unfolded; then
    /// [`Reason::Output`](crate::Reason::Output) where the output is shorter than both together, once unfolded, or than the result, or the
    /// result has more than 1,008 entries. Without a list an output as long as both is always long enough; one of 8,192 bytes always is. The
    /// output is then unchanged.
    pub fn narrowest(&self, a: &[u8], b: &[u8], out: &mut [u8]) -> Result<u16, Refusal> {
        packed::count(ffi::narrowest(self.pairs, self.dictionary, a, b, out))
    }
}
