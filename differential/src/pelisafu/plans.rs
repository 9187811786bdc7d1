//! The planning calls of the static library, as include/pelisafu.h declares them, each behind a safe one.

use super::memory::{Lent, LentMut};

/// What planning answers. In a refusal all but the number is 0.
#[derive(Clone, Copy, Debug, Default, PartialEq, Eq)]
#[repr(C)]
pub(crate) struct Planned {
    pub(crate) number: u8,
    pub(crate) tag: u8,
    pub(crate) length: u16,
    pub(crate) segments: u16,
    pub(crate) offers: u32,
}

unsafe extern "C" {
    fn pelisafu_plan_rows(
        start: u64,
        end: u64,
        rows: *const u64,
        rows_length: usize,
        seeds: *const u16,
        seeds_length: usize,
        limit: usize,
        work: *mut u32,
        work_length: usize,
        out: *mut u8,
        out_length: usize,
    ) -> Planned;
    fn pelisafu_plan_ordinals(
        row_count: u16,
        ordinals: *const u16,
        ordinals_length: usize,
        limit: usize,
        work: *mut u32,
        work_length: usize,
        out: *mut u8,
        out_length: usize,
    ) -> Planned;
}

/// A limit, a workspace and an output.
pub(crate) struct Means<'a> {
    pub(crate) limit: usize,
    pub(crate) work: &'a mut [u32],
    pub(crate) out: &'a mut [u8],
}

// SAFETY, for both calls: as in `calls`.
#[inline]
pub(crate) fn plan_rows(
    (start, end): (u64, u64),
    rows: &[u64],
    seeds: &[u16],
    means: Means,
) -> Planned {
    let (row_count, seed_count) = (rows.len(), seeds.len());
    let (words, room) = (means.work.len(), means.out.len());
    let (rows, seeds) = (Lent::new(rows), Lent::new(seeds));
    let (mut work, mut out) = (LentMut::new(means.work), LentMut::new(means.out));
    unsafe {
        pelisafu_plan_rows(
            start,
            end,
            rows.pointer(),
            row_count,
            seeds.pointer(),
            seed_count,
            means.limit,
            work.pointer(),
            words,
            out.pointer(),
            room,
        )
    }
}

#[inline]
pub(crate) fn plan_ordinals(row_count: u16, ordinals: &[u16], means: Means) -> Planned {
    let (count, words, room) = (ordinals.len(), means.work.len(), means.out.len());
    let ordinals = Lent::new(ordinals);
    let (mut work, mut out) = (LentMut::new(means.work), LentMut::new(means.out));
    unsafe {
        pelisafu_plan_ordinals(
            row_count,
            ordinals.pointer(),
            count,
            means.limit,
            work.pointer(),
            words,
            out.pointer(),
            room,
        )
    }
}
