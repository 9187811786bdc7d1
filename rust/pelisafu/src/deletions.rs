//! The deleted rows of a block, as ordinals among its rows.

use crate::Refusal;
use crate::ffi::deletions::{Struck, plan_deletions as call};
use crate::plan::{ORDINAL_WORDS, Plan, longest};
use crate::row_set::accepted;
use crate::window::Window;
use std::fmt;
use std::iter::FusedIterator;

/// What a block keeps of its deletions: nothing, or a body with its tag and the count that is stated beside it.
#[derive(Clone, Copy, Debug, Default, PartialEq, Eq)]
pub enum Section<'a> {
    /// No row is deleted.
    #[default]
    Empty,
    /// One row or more is.
    Coded {
        /// How many rows are deleted, as the block states it.
        count: u16,
        /// The number of the body's layout.
        tag: u8,
        /// The bytes.
        body: &'a [u8],
    },
}

/// The deleted rows of a block: ordinals below its row count.
///
/// The ordinal of a row is its place among all rows of the block, deleted or not. Its rank among the deletions is another number,
/// and no call gives it. As with a [`RowSet`](crate::RowSet), each call checks the body again; for many ordinals use
/// [`iter`](Self::iter) or [`walk`](Self::walk).
///
/// ```
/// use pelisafu::{Deletions, Section};
///
/// let section = Section::Coded { count: 3, tag: 3, body: &[3, 0, 4, 0, 5, 0] };
/// let deletions = Deletions::new(10, 1_000, section)?;
/// assert!(deletions.contains(4));
/// assert!(!deletions.contains(0));
/// assert_eq!(deletions.iter().collect::<Vec<u16>>(), [3, 4, 5]);
///
/// let none = Deletions::new(10, 1_000, Section::Empty)?;
/// assert!(none.is_empty() && !none.contains(4));
/// # Ok::<(), pelisafu::Refusal>(())
/// ```
#[derive(Clone, Copy)]
pub struct Deletions<'a> {
    struck: Struck<'a>,
    count: u16,
}

impl<'a> Deletions<'a> {
    /// Checks the section of a block with so many rows, where a block may have at most `block_limit`.
    ///
    /// # Errors
    /// [`Refusal::Block`], [`Refusal::Body`] and [`Refusal::Count`], tested in this order. Of an empty section the row count
    /// alone is tested, by the first.
    pub fn new(row_count: u16, block_limit: usize, section: Section<'a>) -> Result<Self, Refusal> {
        let struck = Struck { rows: row_count, limit: block_limit, section };
        Ok(Self { struck, count: struck.check()? })
    }

    /// How many rows the block has, the deleted ones included.
    pub fn row_count(&self) -> u16 {
        self.struck.rows
    }

    /// The most rows that a block may have, as it was given.
    pub fn block_limit(&self) -> usize {
        self.struck.limit
    }

    /// What the block keeps.
    pub fn section(&self) -> Section<'a> {
        self.struck.section
    }

    /// How many rows are deleted. Known since the section was accepted.
    pub fn len(&self) -> usize {
        self.count.into()
    }

    /// Whether no row is deleted.
    pub fn is_empty(&self) -> bool {
        self.len() == 0
    }

    /// Whether the row of an ordinal is deleted.
    pub fn contains(&self, ordinal: u16) -> bool {
        accepted(self.struck.contains(ordinal))
    }

    /// Fills the front of `out` with deleted ordinals in rising order, all but the first `from`, as many as fit or remain, and
    /// answers how many.
    pub fn walk(&self, from: u16, out: &mut [u16]) -> usize {
        accepted(self.struck.walk(from, out))
    }

    /// The deleted ordinals in rising order.
    pub fn iter(&self) -> DeletedOrdinals<'a> {
        DeletedOrdinals { deletions: *self, window: Window::new(0, self.len()) }
    }
}

impl fmt::Debug for Deletions<'_> {
    fn fmt(&self, f: &mut fmt::Formatter<'_>) -> fmt::Result {
        f.debug_struct("Deletions")
            .field("row_count", &self.row_count())
            .field("block_limit", &self.block_limit())
            .field("len", &self.len())
            .finish_non_exhaustive()
    }
}

impl<'a> IntoIterator for Deletions<'a> {
    type Item = u16;
    type IntoIter = DeletedOrdinals<'a>;

    fn into_iter(self) -> DeletedOrdinals<'a> {
        self.iter()
    }
}

impl<'a> IntoIterator for &Deletions<'a> {
    type Item = u16;
    type IntoIter = DeletedOrdinals<'a>;

    fn into_iter(self) -> DeletedOrdinals<'a> {
        self.iter()
    }
}

/// The deleted ordinals of a block in rising order, from [`Deletions::iter`]. Fetches as [`Positions`](crate::Positions) does.
#[derive(Clone, Debug)]
pub struct DeletedOrdinals<'a> {
    deletions: Deletions<'a>,
    window: Window<u16>,
}

/// Fills the whole of `out`; the window never asks for more than remains.
fn fill(deletions: Deletions<'_>, from: u16, out: &mut [u16]) {
    let written = deletions.walk(from, out);
    assert_eq!(written, out.len(), "a walk gives as many ordinals as fit or remain");
}

impl Iterator for DeletedOrdinals<'_> {
    type Item = u16;

    fn next(&mut self) -> Option<u16> {
        let deletions = self.deletions;
        self.window.next(|from, out| fill(deletions, from, out))
    }

    fn nth(&mut self, n: usize) -> Option<u16> {
        self.window.skip_front(n);
        self.next()
    }

    fn size_hint(&self) -> (usize, Option<usize>) {
        (self.window.len(), Some(self.window.len()))
    }
}

impl DoubleEndedIterator for DeletedOrdinals<'_> {
    fn next_back(&mut self) -> Option<u16> {
        let deletions = self.deletions;
        self.window.next_back(|from, out| fill(deletions, from, out))
    }
}

impl ExactSizeIterator for DeletedOrdinals<'_> {}

impl FusedIterator for DeletedOrdinals<'_> {}

/// Deletions as planned: what a block is to keep of them.
#[derive(Clone, Debug, PartialEq, Eq)]
pub struct DeletionPlan {
    rows: u16,
    limit: usize,
    count: u16,
    plan: Option<Plan>,
}

impl DeletionPlan {
    /// The section to keep.
    pub fn section(&self) -> Section<'_> {
        self.plan.as_ref().map_or(Section::Empty, |plan| Section::Coded {
            count: self.count,
            tag: plan.tag(),
            body: plan.body(),
        })
    }

    /// The plan of the body, where there are deletions.
    pub fn plan(&self) -> Option<&Plan> {
        self.plan.as_ref()
    }

    /// The deletions, for reading. What was planned is not checked again here.
    pub fn as_deletions(&self) -> Deletions<'_> {
        let struck = Struck { rows: self.rows, limit: self.limit, section: self.section() };
        Deletions { struck, count: self.count }
    }
}

/// Plans the deletions of a block with so many rows, where a block may have at most `block_limit`: ordinals below the row
/// count that rise strictly, or none.
///
/// ```
/// use pelisafu::{Section, plan_deletions};
///
/// let planned = plan_deletions(10, 1_000, &[3, 4, 5])?;
/// let body = &[3, 0, 4, 0, 5, 0];
/// assert_eq!(planned.section(), Section::Coded { count: 3, tag: 3, body });
/// assert_eq!(plan_deletions(10, 1_000, &[])?.section(), Section::Empty);
/// # Ok::<(), pelisafu::Refusal>(())
/// ```
///
/// # Errors
/// [`Refusal::Block`], [`Refusal::RowCount`] and [`Refusal::Order`], tested in this order.
pub fn plan_deletions(
    row_count: u16,
    block_limit: usize,
    ordinals: &[u16],
) -> Result<DeletionPlan, Refusal> {
    let mut work = [0; ORDINAL_WORDS];
    let mut out = vec![0; longest(ordinals.len(), usize::MAX)];
    let told = call(row_count, block_limit, ordinals, &mut work, &mut out)?;
    let plan = told.map(|told| Plan::new(told, row_count.into(), ordinals.len(), &out));
    let count = plan.as_ref().map_or(0, Plan::count);
    Ok(DeletionPlan { rows: row_count, limit: block_limit, count, plan })
}
