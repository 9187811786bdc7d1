//! A child of the original's module: only a child may read what is private there.

#[cfg(pelisafu)]
use super::{IdentitySetRef, SEGMENTED, read16};
use super::{IdentitySetPlan, IdentitySetSeeds};
use crate::id::RowID;
use std::collections::pushes;

/// What merging came to: where each segment ends, counted in rows, and the offers made.
pub(crate) struct Merged {
    pub(crate) segment_ends: Vec<usize>,
    pub(crate) offers: u64,
}

pub(crate) fn merge(start: u64, span: u32, rows: &[RowID], seeds: &IdentitySetSeeds) -> Merged {
    let before = pushes();
    let plan = IdentitySetPlan::new(rows, start, span, seeds.as_slice());
    Merged {
        segment_ends: plan.segments.iter().map(|s| s.seed.end).collect(),
        offers: pushes() - before,
    }
}

/// Where each seed ends, counted in rows: what Pelisafu keeps of a seed.
pub(crate) fn seed_ends(seeds: &IdentitySetSeeds) -> Vec<usize> {
    seeds.seeds.iter().map(|seed| seed.end).collect()
}

/// Drops all seeds and keeps their memory.
#[cfg(pelisafu)]
pub(crate) fn forget(seeds: &mut IdentitySetSeeds) {
    seeds.seeds.clear();
}

/// What the original reads in each entry of a directory: start, span, count, ordinal, offset, length and tag.
#[cfg(pelisafu)]
pub(crate) fn entries(set: IdentitySetRef) -> Vec<crate::pelisafu::calls::Entry> {
    let entry = |i| {
        let (start, ordinal, local) = set.segment(i);
        let offset = local.body.as_ptr() as usize - set.body.as_ptr() as usize;
        let (span, length) = (local.span as u16, local.body.len() as u16);
        (start, span, local.count, ordinal, offset as u16, length, local.codec)
    };
    let count = if set.codec == SEGMENTED { read16(set.body, 2) } else { 0 };
    (0..usize::from(count)).map(entry).collect()
}
