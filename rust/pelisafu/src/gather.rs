//! Seeds for planning, gathered while rows arrive.

use crate::Refusal;
use crate::ffi::Record;
use std::fmt;

/// More rows than this no row set has, nor a table more entries.
const MOST: usize = 65_535;

/// Cuts rows into seeds as they arrive, singly or by pages, for a [`Planner`](crate::Planner).
///
/// A page whose last row is less than 65,535 above its first is one seed; another page is taken row by row. A single row joins
/// the last seed where it lies in the same window of 4,096 row numbers as that seed's first row. Only the seeds' ends are
/// kept, in a table that grows as needed; the rows themselves stay with the caller.
///
/// ```
/// use pelisafu::{Gatherer, Planner};
///
/// let mut gatherer = Gatherer::new();
/// gatherer.add_page(&[100, 101, 102, 103])?;
/// gatherer.add_row(5_000)?;
/// gatherer.add_row(5_001)?;
/// assert_eq!(gatherer.ends(), [4, 6]);
///
/// let rows = [100, 101, 102, 103, 5_000, 5_001];
/// let plan = Planner::new(0..10_000).gathered(&gatherer).plan(&rows)?;
/// assert_eq!(plan.as_row_set().len(), gatherer.rows());
/// # Ok::<(), pelisafu::Refusal>(())
/// ```
#[derive(Clone, Default)]
pub struct Gatherer {
    record: Record,
    table: Vec<u16>,
}

impl Gatherer {
    /// No rows yet.
    pub fn new() -> Self {
        Self::default()
    }

    /// Adds one row.
    ///
    /// # Errors
    /// [`Refusal::Order`] where it is not above the last row, [`Refusal::RowCount`] where there are 65,535 already. The
    /// gatherer is then as it was.
    pub fn add_row(&mut self, row: u64) -> Result<(), Refusal> {
        self.add(|record, table| record.with_row(table, row))
    }

    /// Adds a page of rows. An empty page changes nothing.
    ///
    /// # Errors
    /// [`Refusal::Order`] where the rows do not rise strictly from above the last row, [`Refusal::RowCount`] where the total
    /// would pass 65,535. The gatherer is then as it was.
    pub fn add_page(&mut self, rows: &[u64]) -> Result<(), Refusal> {
        self.add(|record, table| record.with_page(table, rows))
    }

    /// A call that lacks room has changed nothing, so it is made again with more. A table of 65,535 entries lacks none.
    fn add(
        &mut self,
        call: impl Fn(Record, &mut [u16]) -> Result<Record, Refusal>,
    ) -> Result<(), Refusal> {
        let mut told = call(self.record, &mut self.table);
        while told == Err(Refusal::Table) && self.table.len() < MOST {
            self.table.resize((2 * self.table.len()).clamp(16, MOST), 0);
            told = call(self.record, &mut self.table);
        }
        self.record = told?;
        Ok(())
    }

    /// For each seed the number of rows up to its end.
    pub fn ends(&self) -> &[u16] {
        &self.table[..self.record.entries]
    }

    /// How many rows have been added.
    pub fn rows(&self) -> usize {
        self.record.rows
    }

    /// The last row that was added.
    pub fn last_row(&self) -> Option<u64> {
        (self.record.rows > 0).then_some(self.record.last)
    }

    /// Forgets all rows and keeps the table's room.
    pub fn clear(&mut self) {
        self.record = Record::default();
    }
}

impl fmt::Debug for Gatherer {
    fn fmt(&self, f: &mut fmt::Formatter<'_>) -> fmt::Result {
        f.debug_struct("Gatherer")
            .field("rows", &self.rows())
            .field("last_row", &self.last_row())
            .field("ends", &self.ends())
            .finish()
    }
}
