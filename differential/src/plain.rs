//! Document 01 written anew as the plainest program: no queue, no cleverness, no regard for
//! time. It shares no line with the original, and both must answer alike.

pub(crate) mod bodies;
pub(crate) mod costs;
pub(crate) mod listing;
pub(crate) mod merging;
pub(crate) mod planning;
pub(crate) mod reading;

/// The tags of bodies.
pub(crate) const DENSE: u8 = 1;
pub(crate) const LIST32: u8 = 2;
pub(crate) const LIST16: u8 = 3;
pub(crate) const RUNS16: u8 = 4;
pub(crate) const RUNS32: u8 = 5;
pub(crate) const BITMAP: u8 = 6;
pub(crate) const MISSING: u8 = 7;
pub(crate) const TRIMMED_MISSING: u8 = 8;
pub(crate) const SEGMENTED: u8 = 9;
