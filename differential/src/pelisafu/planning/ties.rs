//! Row sets with every small number of rows and runs, evenly spread: among them are those on which two forms cost the same
//! bytes, so that depth, words and the order of forms decide.

use super::{BOUNDS, EXACT, Request, Tally, compare_request};
use crate::case::Case;

/// How many positions there are between two runs.
const GAPS: [u64; 5] = [1, 2, 6, 40, 900];

/// Where the first row stands in the coverage: positions that fit two bytes, and positions that don't.
const PLACES: [u64; 4] = [0, 5, 60_000, 70_000];

/// All with so many runs at most; where holes are counted instead of rows, with half as many.
pub(super) fn compare(most: u64, tally: &mut Tally) -> Result<(), String> {
    for runs in 1..=most {
        for count in runs..=2 * runs + 8 {
            for gap in GAPS {
                compare_rows(runs + count + gap, &spread(count, runs, gap), tally)?;
            }
        }
    }
    for runs in 2..=most / 2 {
        for holes in runs - 1..=4 * runs + 8 {
            for length in [3, 60] {
                compare_rows(runs + holes + length, &holed(runs, length, holes), tally)?;
            }
        }
    }
    Ok(())
}

/// One row set at each place, the coverage and the seeds chosen by turns.
fn compare_rows(turn: u64, rows: &[u64], tally: &mut Tally) -> Result<(), String> {
    for place in PLACES {
        let turn = (turn + place) as usize;
        let start = [0, 4_096 - place % 4_096, 1 << 40][turn % 3];
        let moved = rows.iter().map(|row| start + place + row);
        let last = rows[rows.len() - 1];
        let end = start + place + last + 1 + [0, 3, 70_000][turn / 3 % 3];
        let mut case = Case::new(start, end, moved);
        if turn.is_multiple_of(2) {
            case = case.in_pages_of([65_535, 9][turn / 2 % 2]);
        }
        compare_request(&Request::gathered(case), &[EXACT, BOUNDS[turn % 8]], tally)?;
    }
    Ok(())
}

/// So many runs of that length with so many holes between them; the first gaps take what does not divide.
fn holed(runs: u64, length: u64, holes: u64) -> Vec<u64> {
    let (gap, wider) = (holes / (runs - 1), holes % (runs - 1));
    let mut rows = Vec::new();
    let mut next = 0;
    for run in 0..runs {
        rows.extend(next..next + length);
        next += length + gap + u64::from(run < wider);
    }
    rows
}

/// So many rows in so many runs with that many positions between them; the first runs take what does not divide.
fn spread(count: u64, runs: u64, gap: u64) -> Vec<u64> {
    let (length, longer) = (count / runs, count % runs);
    let mut rows = Vec::new();
    let mut next = 0;
    for run in 0..runs {
        let end = next + length + u64::from(run < longer);
        rows.extend(next..end);
        next = end + gap;
    }
    rows
}
