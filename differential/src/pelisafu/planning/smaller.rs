//! Smaller requests.

use super::{Lending, Request};
use crate::shrink::{Input, cuts, fewer, listed};
use std::ops::Range;

/// A request with its lendings.
#[derive(Clone)]
pub(super) struct Lent {
    pub(super) request: Request,
    pub(super) lendings: Vec<Lending>,
}

impl Input for Lent {
    fn smaller(&self) -> impl Iterator<Item = Self> {
        let fewer = fewer(&self.lendings).map(|lendings| Self { lendings, ..self.clone() });
        let requests = self.request.smaller();
        fewer.chain(requests.map(|request| Self { request, ..self.clone() }))
    }

    fn shown(&self) -> String {
        let Self { request: Request { case, seeds }, lendings } = self;
        let (start, end, rows) = (case.start, case.end, listed(&case.rows));
        format!(
            "Request::with_table(Case::new({start}, {end}, {rows}), {}), with {lendings:?} more than needed",
            listed(seeds)
        )
    }
}

impl Request {
    /// Without seeds, with fewer rows, with fewer seeds, and with a narrower coverage.
    fn smaller(&self) -> impl Iterator<Item = Self> {
        let with = |seeds| Self::with_table(self.case.clone(), seeds);
        let fewer_seeds = fewer(&self.seeds).map(with);
        let fewer_rows = cuts(self.case.rows.len()).map(|cut| self.without(cut));
        let narrower = self.case.narrower();
        let narrower = narrower.map(|case| Self::with_table(case, self.seeds.clone()));
        fewer_rows.chain(fewer_seeds).chain(narrower)
    }

    /// Without these rows; each seed end behind them falls by as many.
    fn without(&self, cut: Range<usize>) -> Self {
        let (at, size) = (cut.start, cut.len());
        let moved = |end: &u16| *end - usize::from(*end).saturating_sub(at).min(size) as u16;
        let mut seeds: Vec<u16> = self.seeds.iter().map(moved).collect();
        // Seeds without rows go; seeds that were equal before stay, since they may be what differs.
        let were_equal = self.seeds.windows(2).any(|pair| pair[0] == pair[1]);
        if !were_equal {
            seeds.dedup();
        }
        if self.seeds.first() != Some(&0) {
            seeds.retain(|end| *end != 0);
        }
        let mut case = self.case.clone();
        case.rows.drain(cut);
        Self::with_table(case, seeds)
    }
}
