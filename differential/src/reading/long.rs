//! Bodies longer than 65,535 bytes, and bodies whose numbers pass the width of a field.

use super::Reading;
use super::bodies::part;
use crate::plain::bodies::{Bytes, Part, payload, segmented, whole};
use crate::plain::costs::Cost;
use crate::plain::{BITMAP, LIST16, LIST32, MISSING, RUNS16, RUNS32, SEGMENTED, TRIMMED_MISSING};

const TOP: u32 = 4_294_967_295;

pub(super) fn all() -> Vec<Reading> {
    let mut all = Vec::new();
    all.extend(lists());
    all.extend(runs());
    all.extend(holes());
    all.extend(bitmaps());
    all.extend(directories());
    all
}

fn reading(tag: u8, span: u32, body: Vec<u8>) -> Reading {
    Reading { tag, span, body }
}

/// Lists on both sides of 65,535 rows.
fn lists() -> Vec<Reading> {
    let first = |count| (0..count).collect::<Vec<u64>>();
    let mut all = Vec::new();
    for count in [65_534, 65_535, 65_536, 65_537] {
        for span in [65_535, 65_536, 65_537, TOP] {
            all.push(reading(LIST32, span, payload(LIST32, &first(count), 0)));
            if count <= 65_536 {
                all.push(reading(LIST16, span, payload(LIST16, &first(count), 0)));
            }
        }
    }
    all
}

/// A body of runs with the given fields; what passes a field loses its upper digits.
fn run_body(tag: u8, runs: &[(u64, u64)]) -> Vec<u8> {
    let mut out = Bytes::default();
    let count: u64 = runs.iter().map(|run| run.1).sum();
    out.u16(count % 65_536).u16(runs.len() as u64 % 65_536);
    let mut before = 0;
    for (start, length) in runs {
        match tag {
            RUNS16 => out.u16(*start),
            _ => out.u32(*start),
        };
        out.u16(*length).u16(before % 65_536);
        before += length;
    }
    out.0
}

fn runs() -> Vec<Reading> {
    let mut all = Vec::new();
    for span in [65_534, 65_535, 65_536, 65_537, TOP - 1, TOP] {
        for runs in short_runs() {
            all.push(reading(RUNS16, span, run_body(RUNS16, &runs)));
            all.push(reading(RUNS32, span, run_body(RUNS32, &runs)));
        }
        for runs in wide_runs() {
            all.push(reading(RUNS32, span, run_body(RUNS32, &runs)));
        }
    }
    all
}

/// So many runs of one row.
fn single_rows(count: u64) -> Vec<(u64, u64)> {
    (0..count).map(|n| (2 * n, 1)).collect()
}

/// Runs whose starts fit two bytes, around the end at 65,536.
fn short_runs() -> Vec<Vec<(u64, u64)>> {
    vec![
        vec![(65_535, 1)],
        vec![(65_535, 2)],
        vec![(65_534, 2)],
        vec![(0, 65_535)],
        vec![(1, 65_535)],
        vec![(2, 65_535)],
        single_rows(32_768),
        // More than 65,535 rows in two-byte starts: such runs must overlap or touch.
        vec![(0, 32_767), (32_768, 32_768), (65_535, 1)],
        vec![(0, 65_535), (65_535, 2)],
    ]
}

/// Runs whose starts need four bytes, around the largest span and around 65,535 rows.
fn wide_runs() -> Vec<Vec<(u64, u64)>> {
    let top = u64::from(TOP);
    vec![
        vec![(top - 1, 1)],
        vec![(top - 1, 2)],
        vec![(top, 1)],
        vec![(top, 65_535)],
        vec![(0, 40_000), (70_000, 25_535)],
        vec![(0, 40_000), (70_000, 25_536)],
        vec![(0, 40_000), (70_000, 40_000)],
        vec![(0, 65_535), (70_000, 1), (70_002, 1)],
        single_rows(65_535),
        single_rows(65_536),
    ]
}

/// As many holes as fit, and bases at the end of the coverage.
fn holes() -> Vec<Reading> {
    let missing = Cost::new(MISSING, 0, 0);
    let trimmed = Cost::new(TRIMMED_MISSING, 0, 0);
    let top = u64::from(TOP);
    let mut all = Vec::new();
    for span in [65_534, 65_535, 65_536] {
        for row in [0, 1, 40_000, 65_533] {
            let body = whole(&missing, &[row], 65_535);
            all.push(reading(MISSING, span, body));
        }
        let body = whole(&trimmed, &[0, 65_534], 65_535);
        all.push(reading(TRIMMED_MISSING, span, body));
    }
    let single = whole(&trimmed, &[top - 1], top);
    let pairs = [[top - 65_535, top - 1], [top - 65_534, top]];
    for span in [TOP, TOP - 1] {
        all.push(reading(TRIMMED_MISSING, span, single.clone()));
        for pair in pairs {
            all.push(reading(TRIMMED_MISSING, span, whole(&trimmed, &pair, top)));
        }
    }
    all
}

/// A bitmap with `count` rows from 0 on, its counts without their upper digits.
fn full_bitmap(count: u64, span: u64) -> Vec<u8> {
    let mut out = Bytes::default();
    out.u16(count % 65_536).u16(0);
    for group in 0..span.div_ceil(256) {
        out.u16((256 * group).min(count) % 65_536);
    }
    let mut bits = vec![0u8; 8 * span.div_ceil(64) as usize];
    for position in 0..count as usize {
        bits[position / 8] |= 1 << (position % 8);
    }
    out.bytes(&bits);
    out.0
}

fn bitmaps() -> Vec<Reading> {
    let plain = Cost::new(BITMAP, 0, 0);
    let trimmed = Cost { trimmed: true, ..plain };
    let top = u64::from(TOP);
    let mut all = Vec::new();
    for count in [65_535, 65_536, 65_537, 66_000, 131_073] {
        for span in [count, count + 63, count + 65_536] {
            all.push(reading(BITMAP, span as u32, full_bitmap(count, span)));
        }
    }
    for span in [600_000, 20_000_000] {
        let rows: Vec<u64> = (0..600).map(|n| 999 * n).chain([span - 1]).collect();
        all.push(reading(BITMAP, span as u32, whole(&plain, &rows, span)));
        all.push(reading(BITMAP, TOP, whole(&trimmed, &rows, span)));
    }
    for (first, last) in [(top - 300, top - 1), (top - 600_000, top - 1), (top - 300, top)] {
        all.push(reading(BITMAP, TOP, whole(&trimmed, &[first, last], top)));
    }
    all
}

/// A list part over [0, 65535) with so many rows, moved to `start`.
fn list_part(start: u64, rows: u64) -> Part {
    let positions: Vec<u64> = (0..rows).chain([65_534]).collect();
    Part { start, ..part(0, &positions).expect("a span of 65,535") }
}

/// A part without holes.
fn dense_part(start: u64, rows: u64) -> Part {
    let positions: Vec<u64> = (0..rows).collect();
    Part { start, ..part(4, &positions).expect("a span of 65,535") }
}

/// A part of one row, written as a run.
fn run_part(row: u64) -> Part {
    part(1, &[row]).expect("one row")
}

/// A part that claims a span and holds nothing.
fn empty_part(start: u64) -> Part {
    Part { start, span: 5, count: 0, tag: LIST16, payload: Vec::new() }
}

fn directories() -> Vec<Reading> {
    let top = u64::from(TOP);
    let single_rows = |count| (0..count).map(|n| run_part(20 * n)).collect::<Vec<_>>();
    let lists = [
        // The last part may begin before byte 65,536 and end after it.
        vec![list_part(0, 30_000), list_part(70_000, 32_766)],
        vec![list_part(0, 30_000), list_part(70_000, 32_767)],
        // A third part would begin after it, where no offset reaches.
        vec![list_part(0, 30_000), list_part(70_000, 20_000), dense_part(140_000, 3)],
        vec![list_part(0, 30_000), list_part(70_000, 20_000), run_part(140_000)],
        // Counts on both sides of 65,535.
        vec![dense_part(0, 65_534), dense_part(65_534, 1)],
        vec![dense_part(0, 65_535), dense_part(65_535, 1)],
        vec![dense_part(0, 65_535), dense_part(65_535, 2)],
        vec![dense_part(0, 40_000), dense_part(40_000, 40_000)],
        // Parts without rows.
        vec![empty_part(0)],
        vec![dense_part(0, 3), empty_part(3), dense_part(8, 3)],
        // Ends of the coverage.
        vec![run_part(top - 1)],
        vec![run_part(top)],
        vec![dense_part(top - 65_535, 65_535)],
        vec![dense_part(top - 65_534, 65_535)],
        // 4,095 entries fill the first 65,524 bytes; with one more, no offset is in reach.
        (0..4_095).map(|n| dense_part(20 * n, 1)).collect(),
        single_rows(4_096),
        single_rows(4_095),
    ];
    lists.iter().map(|parts| reading(SEGMENTED, TOP, segmented(parts))).collect()
}

/// A plain bitmap over the largest span: more than half a gigabyte.
pub(super) fn largest() -> Reading {
    let top = u64::from(TOP);
    let rows = [0, 255, 256, top / 2, top - 256, top - 1];
    reading(BITMAP, TOP, whole(&Cost::new(BITMAP, 0, 0), &rows, top))
}
