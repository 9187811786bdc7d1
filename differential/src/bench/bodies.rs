//! Bodies of a given length under each tag, longer than a planner makes them: a reader takes
//! bodies of any writer. What the format itself cannot have that long is left out.

use crate::plain::bodies::{Part, payload, segmented, whole};
use crate::plain::costs::Cost;
use crate::plain::{BITMAP, LIST16, LIST32, MISSING, RUNS16, RUNS32, SEGMENTED};

/// A body with its span, and its rows as positions.
pub(super) struct Long {
    pub(super) tag: u8,
    pub(super) span: u32,
    pub(super) body: Vec<u8>,
    pub(super) positions: Vec<u64>,
}

/// The forms, and why a body of each is not longer than the last that is shown.
pub(super) const FORMS: [(u8, &str); 7] = [
    (LIST32, "65,535 rows of 4 bytes"),
    (LIST16, "65,535 rows of 2 bytes"),
    (RUNS16, "32,768 runs of 6 bytes below 65,536"),
    (RUNS32, "65,535 runs of 8 bytes"),
    (BITMAP, "any length"),
    (MISSING, "65,534 holes of 2 bytes"),
    (SEGMENTED, "a payload's offset has 16 bits"),
];

/// A body of that tag with about so many bytes, none where the format has no such body.
pub(super) fn long(tag: u8, bytes: u64) -> Option<Long> {
    let spread = |count: u64, below: u64| (0..count).map(move |n| n * below / count);
    let single = |count: u64, apart: u64| (0..count).map(|n| n * apart).collect::<Vec<_>>();
    let whole_of = |span: u64, positions: Vec<u64>| {
        let body = whole(&Cost::new(tag, 0, 0), &positions, span);
        Some(Long { tag, span: span as u32, body, positions })
    };
    match tag {
        LIST32 if bytes / 4 <= 65_535 => whole_of(u64::from(u32::MAX), single(bytes / 4, 60_000)),
        LIST16 if bytes / 2 <= 65_535 => whole_of(65_536, spread(bytes / 2, 65_536).collect()),
        RUNS16 if bytes / 6 <= 32_768 => whole_of(65_536, single(bytes / 6, 2)),
        RUNS32 if bytes / 8 <= 65_535 => whole_of(u64::from(u32::MAX), single(bytes / 8, 60_000)),
        BITMAP => {
            // Four words and their rows before are 34 bytes for 256 positions.
            let span = bytes / 34 * 256;
            whole_of(span, spread((span / 4).min(60_000), span).collect())
        }
        MISSING if bytes / 2 < 65_535 => {
            let holes: Vec<u64> = spread(bytes / 2, 65_535).collect();
            let absent = |position: &u64| holes.binary_search(position).is_err();
            whole_of(65_535, (0..65_535).filter(absent).collect())
        }
        SEGMENTED if bytes <= 65_536 => Some(parts(bytes / 216)),
        _ => None,
    }
}

/// So many segments, each a list of 100 rows: 16 bytes of directory and 200 of payload.
fn parts(count: u64) -> Long {
    let local: Vec<u64> = (0..100).map(|n| 40 * n).collect();
    let payload = payload(LIST16, &local, 4_000);
    let part = |n| Part {
        start: 10_000 * n,
        span: 4_000,
        count: 100,
        tag: LIST16,
        payload: payload.clone(),
    };
    let parts: Vec<Part> = (0..count).map(part).collect();
    let positions = parts.iter().flat_map(|part| local.iter().map(|n| part.start + n)).collect();
    let span = 10_000 * count as u32;
    Long { tag: SEGMENTED, span, body: segmented(&parts), positions }
}

/// A bitmap of the largest span there is, with 65,535 rows, as bytes that were all written: a
/// page of memory that was never written is not read from memory at all.
pub(super) fn largest_bitmap() -> Long {
    let span = u64::from(u32::MAX);
    let positions: Vec<u64> = (0..65_535).map(|n| n * (span / 65_535)).collect();
    let groups = span.div_ceil(256) as usize;
    let mut body = vec![1; 4 + 2 * groups + 8 * span.div_ceil(64) as usize];
    body.fill(0);
    body[..2].copy_from_slice(&65_535u16.to_le_bytes());
    let mut before = 0;
    for group in 0..groups {
        let at = 4 + 2 * group;
        while before < positions.len() && positions[before] < 256 * group as u64 {
            before += 1;
        }
        body[at..at + 2].copy_from_slice(&(before as u16).to_le_bytes());
    }
    let words = 4 + 2 * groups;
    for position in &positions {
        body[words + *position as usize / 8] |= 1 << (position % 8);
    }
    Long { tag: BITMAP, span: u32::MAX, body, positions }
}
