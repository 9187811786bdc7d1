//! Inputs on every bound: lengths around 64, 256, 4,096 and 65,536, coverages up to the largest, rows at the top of u64,
//! and as many seeds as there can be.

use super::{BOUNDS, EXACT, Request, Tally, compare_request};
use crate::case::Case;

const LENGTHS: [u64; 16] =
    [1, 2, 63, 64, 65, 255, 256, 257, 4_095, 4_096, 4_097, 32_768, 65_534, 65_535, 65_536, 65_537];

const WIDEST: u64 = 4_294_967_295;

/// Row sets above this take long, so that only some of their coverages and pages are tried.
const LONG: u64 = 5_000;

/// Each `every`-th of the inputs.
pub(super) fn compare(every: usize, tally: &mut Tally) -> Result<(), String> {
    let mut turn = 0;
    for length in LENGTHS {
        for rows in row_sets(length) {
            for (coverage, start, end) in coverages(length) {
                for pages in [0, 1, 7, 64, 1_000, 65_535] {
                    turn += 1;
                    let apart = if length > LONG { 11 } else { 1 };
                    let many_seeds = length > LONG && pages == 1;
                    if turn % (apart * every) != 0 || (many_seeds && turn % 55 != 0) {
                        continue;
                    }
                    let moved = rows.iter().map(|row| start + coverage + row);
                    let mut case = Case::new(start, end, moved);
                    if pages > 0 {
                        case = case.in_pages_of(pages);
                    }
                    let bound = BOUNDS[turn % 8];
                    compare_request(&Request::gathered(case), &[EXACT, bound], tally)?;
                }
            }
        }
    }
    for case in others().into_iter().step_by(every) {
        compare_request(&Request::gathered(case), &[EXACT, BOUNDS[1], BOUNDS[2]], tally)?;
    }
    Ok(())
}

/// Rows below `length`, most of them with both ends.
fn row_sets(length: u64) -> Vec<Vec<u64>> {
    let (last, middle) = (length - 1, length / 2);
    let all_but = |absent: u64| (0..length).filter(move |row| *row != absent).collect();
    let mut sets = vec![
        vec![0],
        vec![last],
        vec![0, last],
        vec![0, middle, last],
        (0..length).collect(),
        all_but(0),
        all_but(last),
        all_but(middle),
        (0..length).step_by(2).collect(),
        (0..length).filter(|row| row % 9 != 4).collect(),
        (0..length).filter(|row| row % 100 < 30).collect(),
        (0..length).step_by(31).collect(),
    ];
    for set in &mut sets {
        set.dedup();
    }
    sets
}

/// How far the rows stand from the coverage's start, and the coverage: just as long, with a little more on either side,
/// with so much that trimming or wide positions pay, and as wide as can be, at 0, off a window's border, and at the top.
fn coverages(length: u64) -> Vec<(u64, u64, u64)> {
    let wide = WIDEST - length;
    let margins =
        [(0, 0), (0, 1), (1, 0), (64, 65), (0, 70_000), (70_000, 0), (wide, 0), (0, wide)];
    let mut all = Vec::new();
    for (before, after) in margins {
        let span = before + length + after;
        for start in [0, 4_095, u64::MAX - span] {
            all.push((before, start, start + span));
        }
    }
    all
}

/// As many rows and seeds as can be, coverages one too wide or without width, and bodies one too long.
fn others() -> Vec<Case> {
    let far_apart = |count| Case::new(0, WIDEST, (0..count).map(|n| 200_000 * n));
    let thirds = (0..196_605).filter(|row| row % 3 != 1);
    let mut all = vec![
        Case::new(0, 65_535, 0..65_535).in_pages_of(1),
        Case::new(3, 131_080, (3..131_073).step_by(2)).in_pages_of(1),
        Case::new(0, 200_000, thirds.take(65_535)).in_pages_of(1),
        Case::new(0, WIDEST, (0..65_535).map(|n| 65_536 * n)).in_pages_of(1),
        far_apart(16_383),
        far_apart(16_384),
        far_apart(16_384).in_pages_of(1),
        Case::new(0, 65_536, [0, 65_534]).in_pages_of(2),
        Case::new(0, 65_536, [0, 65_535]).in_pages_of(2),
    ];
    all.extend([7_708, 7_709, 7_710].into_iter().flat_map(longest_bitmaps));
    for (start, end) in [(5, 4), (5, 5), (0, 0), (0, WIDEST), (0, WIDEST + 1), (1, WIDEST + 1)] {
        all.push(Case::new(start, end, [start]));
        all.push(Case::new(start, end, []));
    }
    let top = u64::MAX;
    for end in [top - 1, top] {
        for start in [end - WIDEST - 1, end - WIDEST, end - 65_536, end - 65_535, end - 1, 0] {
            all.push(Case::new(start, end, [end - 1]));
            all.push(Case::new(start, end, [start.max(end - 70_000), end - 1]));
        }
    }
    all
}

/// Bitmaps of so many words, plain and trimmed, of 65,522 to 65,548 bytes: on both sides of the longest body.
fn longest_bitmaps(words: u64) -> [Case; 2] {
    let rows = (0..8 * words).map(|n| 8 * n + n * n % 5);
    let span = 64 * words;
    let moved = rows.clone().map(|row| 70_000 + row);
    [Case::new(0, span, rows), Case::new(0, 70_000 + span, moved)]
}
