//! Document 01, "Accepted": bytes to rows. A body is read field by field; whatever is not as
//! document 01 says ends in nothing.

use super::costs::bitmap_length;
use super::{BITMAP, DENSE, LIST16, LIST32, MISSING, RUNS16, RUNS32, SEGMENTED, TRIMMED_MISSING};

/// The positions that an accepted body stands for.
pub(crate) fn read(tag: u8, span: u64, body: &[u8]) -> Option<Vec<u64>> {
    let positions = match tag {
        DENSE | LIST16 | LIST32 => local(tag, span, body),
        RUNS16 | RUNS32 => {
            let runs = body.get(4..)?;
            let width = if tag == RUNS16 { 6 } else { 8 };
            let stated = number(body, 2, 2)? == (runs.len() / width) as u64;
            counted(number(body, 0, 2)?, local(tag, span, runs).filter(|_| stated))
        }
        BITMAP => counted(number(body, 0, 2)?, whole_bitmap(span, body)),
        MISSING => {
            let zero = number(body, 2, 2)? == 0;
            counted(number(body, 0, 2)?, local(tag, span, &body[4..]).filter(|_| zero))
        }
        TRIMMED_MISSING => {
            let (base, length) = (number(body, 0, 4)?, number(body, 4, 2)?);
            counted(number(body, 6, 2)?, trimmed(MISSING, span, base, length, &body[8..]))
        }
        SEGMENTED => counted(number(body, 0, 2)?, segments(span, body)),
        _ => None,
    }?;
    (1..=65_535).contains(&positions.len()).then_some(positions)
}

/// A bitmap after its count: flag, zero, and where the flag is 1, base and local span.
fn whole_bitmap(span: u64, body: &[u8]) -> Option<Vec<u64>> {
    match (number(body, 2, 1)?, number(body, 3, 1)?) {
        (0, 0) => local(BITMAP, span, &body[4..]),
        (1, 0) => {
            let (base, length) = (number(body, 4, 4)?, number(body, 8, 4)?);
            trimmed(BITMAP, span, base, length, &body[12..])
        }
        _ => None,
    }
}

/// The little-endian number of so many bytes at that place, if it is inside.
pub(crate) fn number(bytes: &[u8], at: usize, width: usize) -> Option<u64> {
    let field = bytes.get(at..at + width)?;
    Some(field.iter().rev().fold(0, |n, byte| 256 * n + u64::from(*byte)))
}

fn counted(stated: u64, positions: Option<Vec<u64>>) -> Option<Vec<u64>> {
    positions.filter(|positions| positions.len() as u64 == stated)
}

/// A form over [base, base + length) that must hold both ends.
fn trimmed(tag: u8, span: u64, base: u64, length: u64, payload: &[u8]) -> Option<Vec<u64>> {
    let positions = local(tag, length, payload)?;
    let ends = *positions.first()? == 0 && *positions.last()? == length - 1;
    let inside = base + length <= span;
    (ends && inside).then(|| positions.iter().map(|p| base + p).collect())
}

/// A payload without header, over [0, span).
fn local(tag: u8, span: u64, payload: &[u8]) -> Option<Vec<u64>> {
    match tag {
        // Dense and missing end at a span of 65,535, before a list of a longer span is made.
        DENSE => (payload.is_empty() && span <= 65_535).then(|| (0..span).collect()),
        LIST16 => list(2, span, payload),
        LIST32 => list(4, span, payload),
        MISSING => {
            let holes = list(2, span, payload).filter(|_| span <= 65_535)?;
            Some((0..span).filter(|p| holes.binary_search(p).is_err()).collect())
        }
        RUNS16 => runs(2, span.min(65_536), payload),
        RUNS32 => runs(4, span, payload),
        BITMAP => bitmap(span, payload),
        _ => None,
    }
}

fn list(width: usize, span: u64, payload: &[u8]) -> Option<Vec<u64>> {
    let fields = payload.chunks(width).map(|field| number(field, 0, width));
    let values: Vec<u64> = fields.collect::<Option<_>>()?;
    let rising = values.windows(2).all(|pair| pair[0] < pair[1]);
    let below = values.iter().all(|value| *value < span);
    (rising && below).then_some(values)
}

fn runs(width: usize, limit: u64, payload: &[u8]) -> Option<Vec<u64>> {
    let mut positions: Vec<u64> = Vec::new();
    for run in payload.chunks(width + 4) {
        let start = number(run, 0, width)?;
        let length = number(run, width, 2)?;
        let before = number(run, width + 2, 2)?;
        let touches = positions.last().is_some_and(|last| start <= last + 1);
        let exact = before == positions.len() as u64;
        if length == 0 || touches || !exact || start + length > limit {
            return None;
        }
        positions.extend(start..start + length);
    }
    Some(positions)
}

fn bitmap(span: u64, payload: &[u8]) -> Option<Vec<u64>> {
    if payload.len() as u64 != bitmap_length(span) {
        return None;
    }
    let groups = span.div_ceil(256) as usize;
    let (before, bits) = payload.split_at(2 * groups);
    let mut positions = Vec::new();
    for (group, bytes) in bits.chunks(32).enumerate() {
        if number(before, 2 * group, 2)? != positions.len() as u64 {
            return None;
        }
        for bit in 0..8 * bytes.len() {
            if bytes[bit / 8] >> (bit % 8) & 1 == 1 {
                positions.push((256 * group + bit) as u64);
            }
        }
    }
    positions.last().is_none_or(|last| *last < span).then_some(positions)
}

fn segments(span: u64, body: &[u8]) -> Option<Vec<u64>> {
    let entries = number(body, 2, 2)? as usize;
    let mut offset = 4 + 16 * entries;
    let directory = body.get(4..offset)?;
    let (mut end, mut positions) = (0, Vec::new());
    for entry in directory.chunks(16) {
        let (start, length) = (number(entry, 0, 4)?, number(entry, 4, 2)?);
        let bytes = number(entry, 12, 2)? as usize;
        let tag = entry[14];
        let payload = body.get(offset..offset + bytes)?;
        let rows = counted(number(entry, 6, 2)?, local(tag, length, payload))?;
        let exact = number(entry, 8, 2)? == positions.len() as u64
            && number(entry, 10, 2)? == offset as u64
            && entry[15] == 0;
        // A part is a local form: the same tags but LIST32 and RUNS32, and never without rows.
        let allowed = matches!(tag, DENSE | LIST16 | RUNS16 | BITMAP | MISSING) && !rows.is_empty();
        if !exact || !allowed || start < end || start + length > span {
            return None;
        }
        end = start + length;
        offset += bytes;
        positions.extend(rows.iter().map(|p| start + p));
    }
    (offset == body.len()).then_some(positions)
}
