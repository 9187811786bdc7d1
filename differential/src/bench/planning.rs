//! Pelisafu's planning and gathering beside the original's, on the same rows and seeds. Pelisafu
//! writes into memory that is lent; the original allocates its own, as it does for its callers.

use super::clock::Pair;
use super::direct::{
    count_by_value, count_lent, gather, gather_by_value, gather_singly, gather_singly_by_value,
};
use super::meter::{Measured, Meter};
use super::subject::Subject;
use crate::case::Case;
use crate::index::original::{Seeds, encode, encode_ordinals, row_ids};
use crate::pelisafu::plans::{Means, Planned, plan_ordinals, plan_rows};
use std::hint::black_box;

/// Rows to a page, where rows come in pages.
pub(super) const PAGE: usize = 64;

/// A workspace and an output that are large enough for all.
pub(super) struct Memory {
    work: Vec<u32>,
    out: Vec<u8>,
}

impl Memory {
    pub(super) fn new() -> Self {
        Self { work: vec![1; 24 * 65_535], out: vec![1; 65_535] }
    }

    pub(super) fn lent(&mut self) -> Means<'_> {
        Means { limit: usize::MAX, work: &mut self.work, out: &mut self.out }
    }
}

pub(super) fn planned(plan: Planned) -> Planned {
    assert_eq!(plan.number, 0, "inputs that are not refused");
    plan
}

/// One plan, with the seeds that the case's own gathering gives.
pub(super) fn plan(case: &Case, meter: Meter) -> Pair {
    let (rows, seeds) = (row_ids(&case.rows), Seeds::gathered(case));
    let table: Vec<u16> = seeds.ends().iter().map(|end| *end as u16).collect();
    let (coverage, mut memory) = ((case.start, case.end), Memory::new());
    meter.pair(
        || planned(plan_rows(coverage, black_box(&case.rows), black_box(&table), memory.lent())),
        || encode(black_box(case), black_box(&rows), &seeds),
    )
}

pub(super) fn without_seeds(subject: &Subject, meter: Meter) -> Option<Measured> {
    Some((plan(&subject.case, meter), subject.rows()))
}

pub(super) fn with_pages(subject: &Subject, meter: Meter) -> Option<Measured> {
    in_pages_of(PAGE, subject, meter)
}

pub(super) fn with_small_pages(subject: &Subject, meter: Meter) -> Option<Measured> {
    in_pages_of(16, subject, meter)
}

pub(super) fn with_pages_of_one(subject: &Subject, meter: Meter) -> Option<Measured> {
    in_pages_of(1, subject, meter)
}

fn in_pages_of(size: usize, subject: &Subject, meter: Meter) -> Option<Measured> {
    let case = subject.case.clone().in_pages_of(size);
    Some((plan(&case, meter), subject.rows()))
}

pub(super) fn of_ordinals(subject: &Subject, meter: Meter) -> Option<Measured> {
    let (row_count, ordinals) = subject.ordinals()?;
    let mut memory = Memory::new();
    let times = meter.pair(
        || planned(plan_ordinals(row_count, black_box(&ordinals), memory.lent())),
        || encode_ordinals(row_count, black_box(&ordinals)),
    );
    Some((times, subject.rows()))
}

/// Pages into a table that is lent, and into a vector of the original's that grows.
pub(super) fn gathering(subject: &Subject, meter: Meter) -> Option<Measured> {
    gathering_pages_of(PAGE, subject, meter)
}

pub(super) fn gathering_small(subject: &Subject, meter: Meter) -> Option<Measured> {
    gathering_pages_of(16, subject, meter)
}

pub(super) fn gathering_by_value(subject: &Subject, meter: Meter) -> Option<Measured> {
    let (mut table, rows) = (vec![1; subject.rows()], &subject.row_ids);
    let times = meter.pair(
        || gather_by_value(black_box(&subject.case.rows), PAGE, black_box(&mut table)),
        || Seeds::in_pages(black_box(rows), PAGE),
    );
    Some((times, subject.rows()))
}

pub(super) fn gathering_singly_by_value(subject: &Subject, meter: Meter) -> Option<Measured> {
    singly(subject, meter, gather_singly_by_value)
}

pub(super) fn counting_by_value(subject: &Subject, meter: Meter) -> Option<Measured> {
    singly(subject, meter, count_by_value)
}

fn gathering_pages_of(size: usize, subject: &Subject, meter: Meter) -> Option<Measured> {
    let (mut table, rows) = (vec![1; subject.rows()], &subject.row_ids);
    let times = meter.pair(
        || gather(black_box(&subject.case.rows), size, black_box(&mut table)),
        || Seeds::in_pages(black_box(rows), size),
    );
    Some((times, subject.rows()))
}

pub(super) fn gathering_singly(subject: &Subject, meter: Meter) -> Option<Measured> {
    singly(subject, meter, gather_singly)
}

pub(super) fn counting_lent(subject: &Subject, meter: Meter) -> Option<Measured> {
    singly(subject, meter, count_lent)
}

/// Row by row, by any of the calls.
#[inline]
fn singly(
    subject: &Subject,
    meter: Meter,
    gather: impl Fn(&[u64], &mut [u16]) -> usize,
) -> Option<Measured> {
    let (mut table, rows) = (vec![1; subject.rows()], &subject.row_ids);
    let times = meter.pair(
        || gather(black_box(&subject.case.rows), black_box(&mut table)),
        || Seeds::singly(black_box(rows)),
    );
    Some((times, subject.rows()))
}

/// The same with a vector of the original's that has grown before, which its interface has no
/// call for.
pub(super) fn gathering_grown(subject: &Subject, meter: Meter) -> Option<Measured> {
    let (mut table, rows) = (vec![1; subject.rows()], &subject.row_ids);
    let mut seeds = Seeds::in_pages(rows, PAGE);
    let times = meter.pair(
        || gather(black_box(&subject.case.rows), PAGE, black_box(&mut table)),
        || seeds.in_pages_again(black_box(rows), PAGE),
    );
    Some((times, subject.rows()))
}
