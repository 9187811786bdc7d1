//! Document 01, "Bodies by tag": rows to bytes. Any form that can hold the rows can be
//! written, not only the cheapest, so that reading is compared on bodies no planner makes.

use super::costs::{Cost, cheapest_local};
use super::merging::Segment;
use super::{BITMAP, DENSE, LIST16, LIST32, MISSING, RUNS16, RUNS32, TRIMMED_MISSING};

#[derive(Default)]
pub(crate) struct Bytes(pub(crate) Vec<u8>);

impl Bytes {
    pub(crate) fn u16(&mut self, n: u64) -> &mut Self {
        let n = u16::try_from(n).expect("a field of two bytes");
        self.0.extend(n.to_le_bytes());
        self
    }

    pub(crate) fn u32(&mut self, n: u64) -> &mut Self {
        let n = u32::try_from(n).expect("a field of four bytes");
        self.0.extend(n.to_le_bytes());
        self
    }

    pub(crate) fn bytes(&mut self, bytes: &[u8]) -> &mut Self {
        self.0.extend(bytes);
        self
    }
}

/// Runs as (index of the first row, length).
fn runs(positions: &[u64]) -> Vec<(usize, usize)> {
    let mut runs: Vec<(usize, usize)> = Vec::new();
    for (index, position) in positions.iter().enumerate() {
        match runs.last_mut() {
            Some((_, length)) if positions[index - 1] + 1 == *position => *length += 1,
            _ => runs.push((index, 1)),
        }
    }
    runs
}

/// A body without its header: positions from the local base.
pub(crate) fn payload(tag: u8, positions: &[u64], span: u64) -> Vec<u8> {
    let mut out = Bytes::default();
    match tag {
        DENSE => {}
        LIST16 | LIST32 => {
            for position in positions {
                match tag {
                    LIST16 => out.u16(*position),
                    _ => out.u32(*position),
                };
            }
        }
        MISSING | TRIMMED_MISSING => {
            for absent in (0..span).filter(|p| positions.binary_search(p).is_err()) {
                out.u16(absent);
            }
        }
        RUNS16 | RUNS32 => {
            for (index, length) in runs(positions) {
                match tag {
                    RUNS16 => out.u16(positions[index]),
                    _ => out.u32(positions[index]),
                };
                out.u16(length as u64).u16(index as u64);
            }
        }
        BITMAP => bitmap(&mut out, positions, span),
        _ => unreachable!("a form with a payload"),
    }
    out.0
}

fn bitmap(out: &mut Bytes, positions: &[u64], span: u64) {
    for group in 0..span.div_ceil(256) {
        let before = positions.partition_point(|p| *p < 256 * group);
        out.u16(before as u64);
    }
    let mut bits = vec![0u8; 8 * span.div_ceil(64) as usize];
    for position in positions {
        bits[*position as usize / 8] |= 1 << (position % 8);
    }
    out.bytes(&bits);
}

/// A whole body in the given form.
pub(crate) fn whole(form: &Cost, positions: &[u64], span: u64) -> Vec<u8> {
    let (first, count) = (positions[0], positions.len() as u64);
    let length = positions[positions.len() - 1] - first + 1;
    let mut out = Bytes::default();
    let out = match form.tag {
        RUNS16 | RUNS32 => out.u16(count).u16(runs(positions).len() as u64),
        BITMAP if form.trimmed => out.u16(count).bytes(&[1, 0]).u32(first).u32(length),
        BITMAP | MISSING => out.u16(count).u16(0),
        TRIMMED_MISSING => out.u32(first).u16(length).u16(count),
        _ => &mut out,
    };
    let (base, local_span) = if form.trimmed { (first, length) } else { (0, span) };
    let local: Vec<u64> = positions.iter().map(|p| p - base).collect();
    out.bytes(&payload(form.tag, &local, local_span));
    std::mem::take(&mut out.0)
}

/// One part of a segmented body.
pub(crate) struct Part {
    pub(crate) start: u64,
    pub(crate) span: u64,
    pub(crate) count: u64,
    pub(crate) tag: u8,
    pub(crate) payload: Vec<u8>,
}

/// The part of a segment in its cheapest form.
pub(crate) fn part(segment: &Segment, rows: &[u64], start: u64) -> Part {
    let stats = &segment.stats;
    let tag = cheapest_local(stats).tag;
    let local: Vec<u64> = rows.iter().map(|row| row - stats.first).collect();
    Part {
        start: stats.first - start,
        span: stats.length(),
        count: stats.count,
        tag,
        payload: payload(tag, &local, stats.length()),
    }
}

/// A segmented body. Offsets and ordinals that two bytes do not hold are written without
/// their upper digits: no reader may be taken in by them.
pub(crate) fn segmented(parts: &[Part]) -> Vec<u8> {
    let mut out = Bytes::default();
    let total: u64 = parts.iter().map(|part| part.count).sum();
    out.u16(total % 65_536).u16(parts.len() as u64);
    let (mut ordinal, mut offset) = (0, 4 + 16 * parts.len() as u64);
    for part in parts {
        let length = part.payload.len() as u64;
        out.u32(part.start).u16(part.span).u16(part.count);
        out.u16(ordinal % 65_536).u16(offset % 65_536).u16(length % 65_536);
        out.bytes(&[part.tag, 0]);
        ordinal += part.count;
        offset += length;
    }
    for part in parts {
        out.bytes(&part.payload);
    }
    out.0
}
