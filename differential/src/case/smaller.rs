//! Smaller inputs of planning and gathering.

use super::{Case, Piece};
use crate::shrink::{Input, closer, cuts, fewer, listed, lower};
use std::ops::Range;

impl Input for Case {
    fn smaller(&self) -> impl Iterator<Item = Self> {
        let gathered = |gathering| Self { gathering, ..self.clone() };
        let fewer_rows = cuts(self.rows.len()).map(|cut| self.without(cut));
        let fewer_pieces = fewer(&self.gathering).map(gathered);
        let joined = (1..self.gathering.len()).map(move |place| {
            let mut gathering = self.gathering.clone();
            let rows = gathering.remove(place).rows();
            gathering[place - 1] = Piece::Page(gathering[place - 1].rows() + rows);
            gathered(gathering)
        });
        let limited = self.limit != usize::MAX;
        let unlimited = limited.then(|| self.clone().limited(usize::MAX));
        fewer_rows.chain(fewer_pieces).chain(joined).chain(unlimited).chain(self.narrower())
    }

    fn shown(&self) -> String {
        let Self { start, end, rows, gathering, limit } = self;
        let pieces: Vec<String> =
            gathering.iter().map(|piece| format!("Piece::{piece:?}")).collect();
        format!(
            "Case {{ start: {start}, end: {end}, rows: {}, gathering: vec![{}], limit: {limit} }}",
            listed(rows),
            pieces.join(", ")
        )
    }
}

impl Case {
    /// Without these rows; a piece that has none left goes.
    fn without(&self, cut: Range<usize>) -> Self {
        let mut case = self.clone();
        let mut from = 0;
        for piece in &mut case.gathering {
            let (Piece::Page(rows) | Piece::Singly(rows)) = piece;
            let (start, end) = (from.max(cut.start), (from + *rows).min(cut.end));
            from += *rows;
            *rows -= end.saturating_sub(start);
        }
        case.gathering.retain(|piece| piece.rows() > 0);
        case.rows.drain(cut);
        case
    }

    /// The coverage narrower at each side or further down, and rows closer to each other.
    pub(crate) fn narrower(&self) -> impl Iterator<Item = Self> {
        let Self { start, end, rows, .. } = self;
        let (start, end) = (*start, *end);
        let with = move |start, end, rows| Self { start, end, rows, ..self.clone() };
        let first = rows.first().filter(|first| **first > start);
        let from_first = first.map(|first| with(*first, end, rows.clone()));
        let last = rows.last().filter(|last| **last < end.saturating_sub(1));
        let to_last = last.map(|last| with(start, last + 1, rows.clone()));
        let inside = start <= end && rows.iter().all(|row| *row >= start);
        // Windows stay as they are where rows move by whole ones.
        let start_in_window = (start >= 4_096).then_some(start % 4_096);
        let lower_starts = start_in_window.into_iter().chain(lower(start)).filter(move |_| inside);
        let moved = lower_starts.map(move |to| {
            let by = start - to;
            with(to, end - by, rows.iter().map(|row| row - by).collect())
        });
        let closer =
            closer(rows, start).map(move |(rows, by)| with(start, end.saturating_sub(by), rows));
        let packed = self.packed().into_iter();
        packed.chain(from_first).chain(to_last).chain(moved).chain(closer)
    }

    /// All rows next to each other, if they are not.
    fn packed(&self) -> Option<Self> {
        let (first, last) = (self.rows.first()?, self.rows.last()?);
        let rows: Vec<u64> = (*first..=*last).take(self.rows.len()).collect();
        let by = last - rows.last()?;
        let end = self.end.saturating_sub(by);
        (by > 0).then(|| Self { rows, end, ..self.clone() })
    }
}
