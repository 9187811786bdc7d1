//! Document 01, "Gathering" and "Merging".

use super::costs::{Stats, cheapest_local};
use crate::case::{Case, Piece};

/// Gathers the rows of a case: the seed ends. Without a gathering, rows fall in windows.
pub(crate) fn gather(case: &Case) -> Vec<usize> {
    let mut gatherer = Gatherer::default();
    if case.gathering.is_empty() {
        gatherer.rows(&case.rows);
    }
    for (piece, rows) in case.pieces() {
        match piece {
            Piece::Page(_) => gatherer.page(rows),
            Piece::Singly(_) => gatherer.rows(rows),
        }
    }
    gatherer.ends
}

#[derive(Default)]
struct Gatherer {
    ends: Vec<usize>,
    total: usize,
    first_of_last_seed: u64,
}

impl Gatherer {
    fn page(&mut self, rows: &[u64]) {
        match rows {
            [] => {}
            [first, .., last] if last - first >= 65_535 => self.rows(rows),
            [first, ..] => self.seed(*first, rows.len()),
        }
    }

    fn rows(&mut self, rows: &[u64]) {
        for row in rows {
            let same_window = row / 4_096 == self.first_of_last_seed / 4_096;
            match self.ends.last_mut() {
                Some(end) if same_window => {
                    self.total += 1;
                    *end = self.total;
                }
                _ => self.seed(*row, 1),
            }
        }
    }

    fn seed(&mut self, first: u64, rows: usize) {
        self.total += rows;
        self.ends.push(self.total);
        self.first_of_last_seed = first;
    }
}

/// A segment: where it ends, counted in rows, and its statistics.
#[derive(Clone, Copy, Debug)]
pub(crate) struct Segment {
    pub(crate) end: usize,
    pub(crate) stats: Stats,
}

/// What a join saves, where the pair is admitted.
pub(crate) fn admitted(left: &Segment, right: &Segment) -> Option<u64> {
    let joined = left.stats.joined(&right.stats);
    if joined.length() > 65_535 {
        return None;
    }
    let apart = 16 + cheapest_local(&left.stats).bytes + cheapest_local(&right.stats).bytes;
    apart.checked_sub(cheapest_local(&joined).bytes)
}

pub(crate) fn seed_segments(rows: &[u64], ends: &[usize]) -> Vec<Segment> {
    let starts = std::iter::once(&0).chain(ends);
    let ranges = starts.zip(ends);
    ranges
        .map(|(start, end)| Segment { end: *end, stats: Stats::of(&rows[*start..*end]) })
        .collect()
}

/// The plain rule: joins the admitted pair with the largest saving, the leftmost on a tie,
/// until none is left. Answers the segments and the number of offers.
pub(crate) fn merge(mut segments: Vec<Segment>) -> (Vec<Segment>, u64) {
    // Place i holds the saving of the pair i, i + 1. It changes only where a join touches it.
    let pairs = segments.windows(2);
    let mut savings: Vec<_> = pairs.map(|pair| admitted(&pair[0], &pair[1])).collect();
    let mut offers = savings.iter().flatten().count() as u64;
    while let Some(left) = leftmost_largest(&savings) {
        let right = segments.remove(left + 1);
        savings.remove(left);
        segments[left].stats = segments[left].stats.joined(&right.stats);
        segments[left].end = right.end;
        for pair in left.saturating_sub(1)..(left + 1).min(savings.len()) {
            savings[pair] = admitted(&segments[pair], &segments[pair + 1]);
            offers += u64::from(savings[pair].is_some());
        }
    }
    (segments, offers)
}

fn leftmost_largest(savings: &[Option<u64>]) -> Option<usize> {
    let largest = savings.iter().flatten().max()?;
    savings.iter().position(|saving| *saving == Some(*largest))
}
