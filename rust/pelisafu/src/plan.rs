//! Planning: rows to the shortest body.

use crate::ffi::{self, Planned};
use crate::{Gatherer, Refusal, RowSet};
use std::fmt;
use std::ops::Range;

/// A body is at most this long, and a row set has at most this many rows.
const MOST: usize = 65_535;

/// Words of workspace for each seed.
const WORDS: usize = 24;

/// Without seeds given, rows fall in windows of this many row numbers.
const WINDOW: u64 = 4096;

/// Plans rows into the shortest body. Owns the workspace and the output, which grow to what the rows need and serve again
/// for the next plan.
///
/// ```
/// use pelisafu::Planner;
///
/// let mut planner = Planner::new(1_000..1_010);
/// let plan = planner.limit(100).plan(&[1_003, 1_004, 1_005, 1_006])?;
/// assert_eq!((plan.tag(), plan.body()), (8, &[3, 0, 0, 0, 4, 0, 4, 0][..]));
/// assert_eq!(plan.as_row_set().iter().collect::<Vec<u32>>(), [3, 4, 5, 6]);
///
/// let next = planner.coverage(0..5).plan(&[0, 1, 2, 3, 4])?;
/// assert_eq!((next.tag(), next.body().len()), (1, 0));
/// # Ok::<(), pelisafu::Refusal>(())
/// ```
#[derive(Clone)]
pub struct Planner {
    coverage: Range<u64>,
    limit: usize,
    seeds: Vec<u16>,
    work: Vec<u32>,
    out: Vec<u8>,
}

impl Planner {
    /// A planner for the rows of a coverage, without seeds and with the largest limit, 65,535 bytes.
    pub fn new(coverage: Range<u64>) -> Self {
        Self { coverage, limit: MOST, seeds: Vec::new(), work: Vec::new(), out: Vec::new() }
    }

    /// The row numbers among which the rows lie: 1 to 4,294,967,295 of them.
    pub fn coverage(&mut self, coverage: Range<u64>) -> &mut Self {
        self.coverage = coverage;
        self
    }

    /// The most bytes that a body may have. Above 65,535 it makes no difference.
    pub fn limit(&mut self, bytes: usize) -> &mut Self {
        self.limit = bytes;
        self
    }

    /// Where to cut the rows before merging: for each seed the number of rows up to its end. No ends are the same as
    /// [`no_seeds`](Self::no_seeds). They hold for every plan until others are given.
    pub fn seeds(&mut self, ends: &[u16]) -> &mut Self {
        self.seeds.clear();
        self.seeds.extend_from_slice(ends);
        self
    }

    /// The seeds that a gatherer has come to.
    pub fn gathered(&mut self, gatherer: &Gatherer) -> &mut Self {
        self.seeds(gatherer.ends())
    }

    /// No seeds: the rows are cut where they pass from one window of 4,096 row numbers to another.
    pub fn no_seeds(&mut self) -> &mut Self {
        self.seeds(&[])
    }

    /// Plans rows, which are absolute numbers and rise strictly.
    ///
    /// # Errors
    /// [`Refusal::Coverage`], [`Refusal::RowCount`], [`Refusal::Order`], [`Refusal::SeedEnds`] and [`Refusal::Limit`], tested
    /// in this order.
    pub fn plan(&mut self, rows: &[u64]) -> Result<Plan, Refusal> {
        let Self { coverage: Range { start, end }, limit, ref seeds, .. } = *self;
        let seed_count = if seeds.is_empty() { windows(rows) } else { seeds.len() };
        grow(&mut self.work, WORDS * seed_count.min(MOST));
        grow(&mut self.out, longest(rows.len(), limit));
        let told = ffi::plan_rows((start, end), rows, seeds, limit, &mut self.work, &mut self.out)?;
        Ok(Plan::new(told, (end - start) as u32, rows.len(), &self.out))
    }
}

/// Without the stores, which can hold a million words.
impl fmt::Debug for Planner {
    fn fmt(&self, f: &mut fmt::Formatter<'_>) -> fmt::Result {
        f.debug_struct("Planner")
            .field("coverage", &self.coverage)
            .field("limit", &self.limit)
            .field("seeds", &self.seeds)
            .finish_non_exhaustive()
    }
}

/// Plans ordinals below a row count: rows of the coverage `0..row_count`, without seeds.
///
/// ```
/// let plan = pelisafu::plan_ordinals(10, &[0, 1, 2, 3, 5, 6, 7, 8, 9], 65_535)?;
/// assert_eq!((plan.tag(), plan.body()), (7, &[9, 0, 0, 0, 4, 0][..]));
/// # Ok::<(), pelisafu::Refusal>(())
/// ```
///
/// # Errors
/// As [`Planner::plan`], without those of seeds.
pub fn plan_ordinals(row_count: u16, ordinals: &[u16], limit: usize) -> Result<Plan, Refusal> {
    let mut work = [0; ORDINAL_WORDS];
    let mut out = vec![0; longest(ordinals.len(), limit)];
    let told = ffi::plan_ordinals(row_count, ordinals, limit, &mut work, &mut out)?;
    Ok(Plan::new(told, row_count.into(), ordinals.len(), &out))
}

/// Ordinals fall in at most 16 windows.
pub(crate) const ORDINAL_WORDS: usize = WORDS * 16;

/// How many windows rising rows fall in.
fn windows(rows: &[u64]) -> usize {
    rows.chunk_by(|a, b| a / WINDOW == b / WINDOW).count()
}

/// The most bytes that a body of so many rows can have under a limit: no body is longer than a list of four-byte numbers.
pub(crate) fn longest(rows: usize, limit: usize) -> usize {
    rows.saturating_mul(4).min(limit).min(MOST)
}

fn grow<T: Clone + Default>(store: &mut Vec<T>, length: usize) {
    if store.len() < length {
        store.resize(length, T::default());
    }
}

/// A planned body, with what planning found.
///
/// To store a set, keep [`tag`](Self::tag), [`span`](Self::span) and [`body`](Self::body): [`RowSet::new`] takes them back.
#[derive(Clone, Debug, PartialEq, Eq)]
pub struct Plan {
    tag: u8,
    span: u32,
    count: u16,
    body: Vec<u8>,
    segments: u16,
    offers: u32,
}

impl Plan {
    pub(crate) fn new(told: Planned, span: u32, rows: usize, out: &[u8]) -> Self {
        let Planned { tag, length, segments, offers } = told;
        let count = u16::try_from(rows).expect("a plan has at most 65,535 rows");
        Self { tag, span, count, body: out[..length.into()].to_vec(), segments, offers }
    }

    /// The number of the body's layout, 1 to 9.
    pub fn tag(&self) -> u8 {
        self.tag
    }

    /// The length of the coverage.
    pub fn span(&self) -> u32 {
        self.span
    }

    /// How many rows were planned.
    pub(crate) fn count(&self) -> u16 {
        self.count
    }

    /// The bytes, at most 65,535.
    pub fn body(&self) -> &[u8] {
        &self.body
    }

    /// The bytes, taken out of the plan.
    pub fn into_body(self) -> Vec<u8> {
        self.body
    }

    /// How many segments were left after merging, also where the body is not a segmented one.
    pub fn segments(&self) -> u16 {
        self.segments
    }

    /// How many offers to join two segments were made while merging.
    pub fn offers(&self) -> u32 {
        self.offers
    }

    /// The set, for reading. What was planned is not checked again here.
    pub fn as_row_set(&self) -> RowSet<'_> {
        RowSet::planned(self.tag, self.span, &self.body, self.count)
    }
}

#[cfg(test)]
mod tests {
    use super::*;

    #[test]
    fn windows_are_of_row_numbers() {
        assert_eq!(windows(&[]), 0);
        assert_eq!(windows(&[4095]), 1);
        assert_eq!(windows(&[4095, 4096]), 2);
        assert_eq!(windows(&[0, 4096, 8192, 8193]), 3);
    }

    #[test]
    fn the_output_is_no_longer_than_needed() {
        assert_eq!(longest(3, 65_535), 12);
        assert_eq!(longest(3, 5), 5);
        assert_eq!(longest(65_535, usize::MAX), 65_535);
        assert_eq!(longest(usize::MAX, usize::MAX), 65_535);
    }
}
