//! A borrowed row set: a body that has been accepted, with its tag and span.

use crate::ffi::Coded;
use crate::{Positions, Refusal};
use std::fmt;

/// What [`RowSet::ranks`] writes for a position that is not in the set.
pub const NO_RANK: u32 = u32::MAX;

/// The tag of a segmented body, the only one with a directory.
const SEGMENTED: u8 = 9;

/// A set of 1 to 65,535 positions below a span, read from the bytes of a body without unpacking them.
///
/// A position is a row number less the start of the coverage that the body was planned for. An *ordinal* counts the
/// positions of the set from 0 in rising order.
///
/// The bytes may come from anywhere: [`RowSet::new`] accepts them or refuses them, and what it has accepted every other
/// call answers.
///
/// **Costs.** The library keeps nothing between calls, so each call that reads the body checks all of it again: `rank`
/// and `select` take time in proportion to the body, not to its logarithm. For many positions use [`ranks`](Self::ranks),
/// and for many ordinals [`iter`](Self::iter) or [`walk`](Self::walk), which check the body once a call.
///
/// ```
/// use pelisafu::RowSet;
///
/// // Positions 3, 4 and 5 of 10, as a list of two-byte numbers.
/// let set = RowSet::new(3, 10, &[3, 0, 4, 0, 5, 0])?;
/// assert_eq!(set.len(), 3);
/// assert!(set.contains(4));
/// assert_eq!(set.rank(5), Some(2));
/// assert_eq!(set.rank(6), None);
/// assert_eq!(set.select(0), Some(3));
/// assert_eq!(set.iter().collect::<Vec<u32>>(), [3, 4, 5]);
/// # Ok::<(), pelisafu::Refusal>(())
/// ```
#[derive(Clone, Copy)]
pub struct RowSet<'a> {
    coded: Coded<'a>,
    count: u16,
}

impl<'a> RowSet<'a> {
    /// Checks a body of any tag and span.
    ///
    /// # Errors
    /// [`Refusal::Body`] where tag, span and body are not those of a row set.
    pub fn new(tag: u8, span: u32, body: &'a [u8]) -> Result<Self, Refusal> {
        let coded = Coded { tag, span, body };
        Ok(Self { coded, count: coded.validate()? })
    }

    /// The set of a body that the library has written itself, with the count of rows that it was written from.
    pub(crate) fn planned(tag: u8, span: u32, body: &'a [u8], count: u16) -> Self {
        Self { coded: Coded { tag, span, body }, count }
    }

    /// The number of the body's layout, 1 to 9.
    pub fn tag(&self) -> u8 {
        self.coded.tag
    }

    /// The number that every position is below.
    pub fn span(&self) -> u32 {
        self.coded.span
    }

    /// The bytes.
    pub fn body(&self) -> &'a [u8] {
        self.coded.body
    }

    /// How many positions are in the set: 1 to 65,535. Known since the body was accepted.
    pub fn len(&self) -> usize {
        self.count.into()
    }

    /// Whether the set is empty. It never is: no body stands for the empty set.
    pub fn is_empty(&self) -> bool {
        self.count == 0
    }

    /// The ordinal of a position, where it is in the set.
    pub fn rank(&self, position: u32) -> Option<u16> {
        accepted(self.coded.rank(position))
    }

    /// Whether a position is in the set.
    pub fn contains(&self, position: u32) -> bool {
        self.rank(position).is_some()
    }

    /// The position of an ordinal; none where the ordinal is the number of positions or more.
    pub fn select(&self, ordinal: u16) -> Option<u32> {
        accepted(self.coded.select(ordinal))
    }

    /// The smallest position.
    pub fn first(&self) -> u32 {
        self.select(0).expect("a set has a first position")
    }

    /// The largest position.
    pub fn last(&self) -> u32 {
        self.select(self.count - 1).expect("a set has a last position")
    }

    /// The ordinals of many positions, in any order, at the front of `out`; [`NO_RANK`] for one that is not in the set.
    /// Answers how many, which is how many were asked. The body is checked once.
    ///
    /// ```
    /// use pelisafu::{NO_RANK, RowSet};
    ///
    /// let set = RowSet::new(7, 10, &[9, 0, 0, 0, 4, 0])?; // all but 4
    /// let mut out = [0; 3];
    /// assert_eq!(set.ranks(&[9, 4, 3], &mut out)?, 3);
    /// assert_eq!(out, [8, NO_RANK, 3]);
    /// # Ok::<(), pelisafu::Refusal>(())
    /// ```
    ///
    /// # Errors
    /// [`Refusal::Output`] where `out` is shorter than `positions`; it is then as it was.
    pub fn ranks(&self, positions: &[u32], out: &mut [u32]) -> Result<usize, Refusal> {
        self.coded.ranks(positions, out)
    }

    /// Fills the front of `out` with the positions of the ordinals `from`, `from + 1` and on, as many as fit or remain, and
    /// answers how many. The body is checked once.
    ///
    /// ```
    /// # use pelisafu::RowSet;
    /// let set = RowSet::new(1, 5, &[])?; // 0 to 4
    /// let mut out = [0; 4];
    /// assert_eq!(set.walk(2, &mut out), 3);
    /// assert_eq!(out, [2, 3, 4, 0]);
    /// # Ok::<(), pelisafu::Refusal>(())
    /// ```
    pub fn walk(&self, from: u16, out: &mut [u32]) -> usize {
        accepted(self.coded.walk(from, out))
    }

    /// The positions in rising order.
    pub fn iter(&self) -> Positions<'a> {
        self.iter_from(0)
    }

    /// The positions from an ordinal on; none where it is the number of positions or more.
    ///
    /// ```
    /// # use pelisafu::RowSet;
    /// let set = RowSet::new(3, 10, &[3, 0, 4, 0, 9, 0])?;
    /// assert_eq!(set.iter_from(1).collect::<Vec<u32>>(), [4, 9]);
    /// assert_eq!(set.iter_from(3).len(), 0);
    /// # Ok::<(), pelisafu::Refusal>(())
    /// ```
    pub fn iter_from(&self, ordinal: u16) -> Positions<'a> {
        Positions::new(*self, ordinal)
    }

    /// The directory of a segmented body (tag 9); empty for every other tag.
    pub fn segments(&self) -> Vec<Segment> {
        let Coded { tag: SEGMENTED, body: &[_, _, low, high, ..], .. } = self.coded else {
            return Vec::new();
        };
        let mut table = vec![Segment::default(); u16::from_le_bytes([low, high]).into()];
        let written = accepted(self.coded.segments(&mut table));
        table.truncate(written);
        table
    }

    /// The i-th entry of the directory of a segmented body (tag 9), counted from 0; none past the last one, and none for
    /// every other tag.
    ///
    /// ```
    /// use pelisafu::Planner;
    ///
    /// let rows: Vec<u64> = (0..12).map(|i| 100_000 + 100 * i).collect();
    /// let plan = Planner::new(0..200_000).plan(&rows)?;
    /// let set = plan.as_row_set();
    /// let entry = set.segment(0).expect("the body is segmented");
    /// assert_eq!((entry.start, entry.span, entry.count, entry.tag), (100_000, 1_101, 12, 3));
    /// assert_eq!(set.segment(1), None);
    /// # Ok::<(), pelisafu::Refusal>(())
    /// ```
    pub fn segment(&self, i: usize) -> Option<Segment> {
        accepted(self.coded.segment(i))
    }
}

/// The answer of a call on a body that has been accepted. The bytes are borrowed, so they are still the same.
pub(crate) fn accepted<T>(answer: Result<T, Refusal>) -> T {
    answer.unwrap_or_else(|refusal| panic!("a body that was accepted is refused: {refusal}"))
}

impl fmt::Debug for RowSet<'_> {
    fn fmt(&self, f: &mut fmt::Formatter<'_>) -> fmt::Result {
        f.debug_struct("RowSet")
            .field("tag", &self.tag())
            .field("span", &self.span())
            .field("len", &self.len())
            .field("bytes", &self.body().len())
            .finish()
    }
}

impl<'a> IntoIterator for RowSet<'a> {
    type Item = u32;
    type IntoIter = Positions<'a>;

    fn into_iter(self) -> Positions<'a> {
        self.iter()
    }
}

impl<'a> IntoIterator for &RowSet<'a> {
    type Item = u32;
    type IntoIter = Positions<'a>;

    fn into_iter(self) -> Positions<'a> {
        self.iter()
    }
}

/// An entry of a segmented body's directory.
#[derive(Clone, Copy, Debug, Default, PartialEq, Eq, Hash)]
#[repr(C)]
pub struct Segment {
    /// The segment's first position.
    pub start: u32,
    /// How many positions it stretches over.
    pub span: u16,
    /// How many of them are in the set.
    pub count: u16,
    /// The ordinal of its first position.
    pub ordinal: u16,
    /// Where its payload begins in the body.
    pub offset: u16,
    /// The bytes of its payload.
    pub length: u16,
    /// The payload's layout: 1, 3, 4, 6 or 7.
    pub tag: u8,
}
