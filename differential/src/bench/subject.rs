//! An input with all that measuring needs of it, made before the clock runs.

use super::direct::Set;
use super::inputs::Input;
use crate::case::Case;
use crate::id::RowID;
use crate::index::original::{self, Accepted, row_ids};
use crate::random::Random;
use std::hint::black_box;

/// How many questions are asked in turn, so that no branch learns an answer by heart.
pub(super) const QUESTIONS: usize = 4_096;

pub(super) struct Subject {
    pub(super) key: &'static str,
    pub(super) name: &'static str,
    pub(super) tag: u8,
    pub(super) case: Case,
    /// The rows once more, as the original takes them.
    pub(super) row_ids: Vec<RowID>,
    pub(super) body: Vec<u8>,
    pub(super) segments: usize,
    pub(super) questions: Questions,
}

impl Subject {
    /// Fails where the planner takes another tag than the input was made for.
    pub(super) fn new(input: Input) -> Result<Self, String> {
        let Input { key, name, tag, case } = input;
        let plan = original::plan(&case).map_err(|no| format!("{name}: {no:?}"))?;
        if plan.tag != tag {
            return Err(format!("{name}: tag {}, not {tag}", plan.tag));
        }
        let (row_ids, questions) = (row_ids(&case.rows), Questions::new(&case));
        let (body, segments) = (plan.body, plan.segment_ends.len());
        Ok(Self { key, name, tag, case, row_ids, body, segments, questions })
    }

    pub(super) fn rows(&self) -> usize {
        self.case.rows.len()
    }

    pub(super) fn span(&self) -> u32 {
        (self.case.end - self.case.start) as u32
    }

    /// What Pelisafu reads.
    #[inline]
    pub(super) fn ours(&self) -> Set<'_> {
        black_box(Set { tag: self.tag, span: self.span(), body: &self.body })
    }

    /// The same body by the original, which validates it.
    #[inline]
    pub(super) fn validated(&self) -> Accepted<'_> {
        let Set { tag, span, body } = self.ours();
        Accepted::new(tag, span, body).expect("a planned body is accepted")
    }

    /// The same body by the original, which takes it as validated before.
    #[inline]
    pub(super) fn admitted(&self) -> Accepted<'_> {
        let Set { tag, span, body } = self.ours();
        Accepted::admitted(tag, span, body)
    }

    /// The rows as ordinals and a row count for them, where they can be: the row count is the
    /// end of the coverage, or 65,535 if that is less.
    pub(super) fn ordinals(&self) -> Option<(u16, Vec<u16>)> {
        let row_count = u16::try_from(self.case.end).unwrap_or(u16::MAX);
        let ordinals = self.case.rows.iter().map(|row| u16::try_from(*row).ok());
        let ordinals: Vec<u16> = ordinals.collect::<Option<_>>()?;
        (ordinals.last() < Some(&row_count)).then_some((row_count, ordinals))
    }
}

/// Random questions about a row set.
pub(super) struct Questions {
    pub(super) present: Vec<u32>,
    /// Absent positions of the span. None where no position is absent.
    pub(super) absent: Vec<u32>,
    /// Absent positions too, each the first one behind some row: where rows stand close together,
    /// `absent` has few of those.
    pub(super) beside: Vec<u32>,
    /// Positions that are not of the span.
    pub(super) past: Vec<u32>,
    pub(super) ordinals: Vec<u16>,
}

impl Questions {
    pub(super) fn new(case: &Case) -> Self {
        let mut random = Random::new(6);
        let (span, count) = (case.end - case.start, case.rows.len() as u64);
        let ordinals: Vec<u16> = (0..QUESTIONS).map(|_| random.below(count) as u16).collect();
        let position = |ordinal: &u16| (case.rows[usize::from(*ordinal)] - case.start) as u32;
        let present = ordinals.iter().map(position).collect();
        let is_row = |position: u64| case.rows.binary_search(&(case.start + position)).is_ok();
        let (mut absent, mut beside) = (Vec::new(), Vec::new());
        while absent.len() < QUESTIONS && count < span {
            let position = random.below(span);
            if !is_row(position) {
                absent.push(position as u32);
            }
        }
        while beside.len() < QUESTIONS && count < span {
            let row = case.rows[random.below(count) as usize] - case.start;
            if let Some(position) = (row..span).find(|position| !is_row(*position)) {
                beside.push(position as u32);
            }
        }
        let past = (0..QUESTIONS).map(|_| (span + random.below((1 << 32) - span)) as u32).collect();
        Self { present, absent, beside, past, ordinals }
    }
}
