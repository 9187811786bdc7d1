//! Pelisafu's deletion sections beside the original's, for the row sets that are ordinals of one
//! block.

use super::direct::{Section, plan_deletions};
use super::meter::{Measured, Meter};
use super::planning::{Memory, planned};
use super::subject::Subject;
use crate::index::deletions::{Deleted, encode};
use crate::lwc::set_block_limit;
use std::hint::black_box;

const BLOCK_LIMIT: usize = 65_535;

/// Questions asked in turn: each of them checks the whole section, so they are few.
const SINGLE: usize = 64;

/// A planned section.
struct Stored {
    row_count: u16,
    ordinals: Vec<u16>,
    tag: u8,
    body: Vec<u8>,
}

impl Stored {
    fn new(subject: &Subject) -> Option<Self> {
        set_block_limit(BLOCK_LIMIT);
        let (row_count, ordinals) = subject.ordinals()?;
        let set = encode(row_count, &ordinals).expect("deletions of one block have a section");
        let (tag, body) = (set.codec()?, set.body().to_vec());
        Some(Self { row_count, ordinals, tag, body })
    }

    fn count(&self) -> u16 {
        self.ordinals.len() as u16
    }

    #[inline]
    fn ours(&self) -> Section<'_> {
        let (row_count, tag, body) = (self.row_count, self.tag, &self.body);
        black_box(Section { row_count, block_limit: BLOCK_LIMIT, count: self.count(), tag, body })
    }

    #[inline]
    fn validated(&self) -> Deleted<'_> {
        let Section { row_count, count, tag, body, .. } = self.ours();
        Deleted::new(row_count, count, tag, body).expect("a planned section is accepted")
    }
}

pub(super) fn plan(subject: &Subject, meter: Meter) -> Option<Measured> {
    let Stored { row_count, ordinals, .. } = Stored::new(subject)?;
    let mut memory = Memory::new();
    let times = meter.pair(
        || planned(plan_deletions(row_count, black_box(&ordinals), memory.lent())),
        || encode(row_count, black_box(&ordinals)),
    );
    Some((times, ordinals.len()))
}

pub(super) fn check(subject: &Subject, meter: Meter) -> Option<Measured> {
    let stored = Stored::new(subject)?;
    Some((meter.pair(|| stored.ours().check(), || stored.validated().count()), 1))
}

pub(super) fn contains(subject: &Subject, meter: Meter) -> Option<Measured> {
    let stored = Stored::new(subject)?;
    let asked: Vec<u16> = subject.questions.present[..SINGLE].iter().map(|n| *n as u16).collect();
    let times = meter.pair(
        || {
            for ordinal in &asked {
                black_box(stored.ours().contains(*ordinal));
            }
        },
        || {
            for ordinal in &asked {
                black_box(stored.validated().contains(*ordinal));
            }
        },
    );
    Some((times, SINGLE))
}

pub(super) fn walk(subject: &Subject, meter: Meter) -> Option<Measured> {
    let stored = Stored::new(subject)?;
    let (mut ours, mut theirs) = (vec![0; stored.ordinals.len()], vec![0; stored.ordinals.len()]);
    let times = meter.pair(
        || black_box(stored.ours().walk(&mut ours)),
        || {
            let Section { row_count, tag, body, .. } = stored.ours();
            let set = Deleted::admitted(row_count, tag, body);
            for (place, ordinal) in theirs.iter_mut().zip(set.ordinals()) {
                *place = ordinal;
            }
            black_box(&theirs).len()
        },
    );
    assert!(ours == theirs, "both sides walk the same deletions");
    Some((times, stored.ordinals.len()))
}
