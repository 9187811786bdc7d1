//! Document 01, "Costs": statistics and what each form costs.

use super::{BITMAP, DENSE, LIST16, LIST32, MISSING, RUNS16, RUNS32, TRIMMED_MISSING};

/// What costs depend on.
#[derive(Clone, Copy, Debug)]
pub(crate) struct Stats {
    pub(crate) first: u64,
    pub(crate) last: u64,
    pub(crate) count: u64,
    pub(crate) runs: u64,
}

impl Stats {
    pub(crate) fn of(rows: &[u64]) -> Self {
        let gaps = rows.windows(2).filter(|pair| pair[1] - pair[0] > 1);
        Self {
            first: rows[0],
            last: rows[rows.len() - 1],
            count: rows.len() as u64,
            runs: 1 + gaps.count() as u64,
        }
    }

    pub(crate) fn joined(&self, right: &Self) -> Self {
        let touching = right.first - self.last == 1;
        Self {
            first: self.first,
            last: right.last,
            count: self.count + right.count,
            runs: self.runs + right.runs - u64::from(touching),
        }
    }

    /// Document 01's L.
    pub(crate) fn length(&self) -> u64 {
        self.last - self.first + 1
    }

    /// Document 01's H.
    pub(crate) fn holes(&self) -> u64 {
        self.length() - self.count
    }
}

pub(crate) fn bitmap_length(span: u64) -> u64 {
    let words = span.div_ceil(64);
    8 * words + 2 * words.div_ceil(4)
}

/// The count of binary digits, 0 for 0.
pub(crate) fn depth(mut n: u64) -> u64 {
    let mut digits = 0;
    while n > 0 {
        n /= 2;
        digits += 1;
    }
    digits
}

/// A form with its cost. The fields stand in the order in which document 01 compares them;
/// the tag comes last and never decides.
#[derive(Clone, Copy, Debug, PartialEq, Eq, PartialOrd, Ord)]
pub(crate) struct Cost {
    pub(crate) bytes: u64,
    pub(crate) depth: u64,
    pub(crate) words: u64,
    pub(crate) order: u64,
    pub(crate) trimmed: bool,
    pub(crate) tag: u8,
}

impl Cost {
    pub(crate) fn new(tag: u8, bytes: u64, items: u64) -> Self {
        let order = match tag {
            DENSE => 0,
            LIST16 | LIST32 => 1,
            RUNS16 | RUNS32 => 2,
            MISSING | TRIMMED_MISSING => 3,
            _ => 4,
        };
        Self {
            bytes,
            depth: depth(items),
            words: if tag == BITMAP { 4 } else { 0 },
            order,
            trimmed: tag == TRIMMED_MISSING,
            tag,
        }
    }
}

/// The cheapest local form.
pub(crate) fn cheapest_local(stats: &Stats) -> Cost {
    let (length, holes) = (stats.length(), stats.holes());
    let groups = length.div_ceil(256);
    let dense = (holes == 0).then(|| Cost::new(DENSE, 0, 0));
    let others = [
        Cost::new(LIST16, 2 * stats.count, stats.count),
        Cost::new(RUNS16, 6 * stats.runs, stats.runs),
        Cost::new(MISSING, 2 * holes, holes),
        Cost::new(BITMAP, bitmap_length(length), groups),
    ];
    let all = others.into_iter().chain(dense);
    all.min().expect("a list is always there")
}

/// Every whole form that can hold the rows.
pub(crate) fn whole_forms(stats: &Stats, start: u64, span: u64) -> Vec<Cost> {
    let (length, holes) = (stats.length(), stats.holes());
    let mut forms = vec![
        Cost::new(LIST32, 4 * stats.count, stats.count),
        Cost::new(BITMAP, 4 + bitmap_length(span), span.div_ceil(256)),
        Cost {
            trimmed: true,
            ..Cost::new(BITMAP, 12 + bitmap_length(length), length.div_ceil(256))
        },
    ];
    if stats.count == span {
        forms.push(Cost::new(DENSE, 0, 0));
    }
    if stats.last - start <= 65_535 {
        forms.push(Cost::new(LIST16, 2 * stats.count, stats.count));
        forms.push(Cost::new(RUNS16, 4 + 6 * stats.runs, stats.runs));
    } else {
        forms.push(Cost::new(RUNS32, 4 + 8 * stats.runs, stats.runs));
    }
    if span <= 65_535 {
        let absent = span - stats.count;
        forms.push(Cost::new(MISSING, 4 + 2 * absent, absent));
    }
    if length <= 65_535 {
        forms.push(Cost::new(TRIMMED_MISSING, 8 + 2 * holes, holes));
    }
    forms
}
