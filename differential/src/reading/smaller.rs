//! Smaller bodies. One that the plain rule accepts is read, made smaller as a row set and written in the same form
//! again, so that it stays accepted. Any body can lose bytes.

use super::Reading;
use crate::plain::bodies::{Part, payload, segmented, whole};
use crate::plain::costs::Cost;
use crate::plain::reading::{number, read};
use crate::plain::{BITMAP, DENSE, MISSING, SEGMENTED, TRIMMED_MISSING};
use crate::shrink::{Input, cuts, listed, lower};
use std::iter::once;
use std::ops::Range;

impl Input for Reading {
    fn smaller(&self) -> impl Iterator<Item = Self> {
        let sets = Set::read(self).into_iter().flat_map(Set::smaller);
        let same_form = sets.filter_map(Set::written).filter(move |reading| reading != self);
        let length = self.body.len();
        let shorter = cuts(length).chain(fields(length)).map(|cut| {
            let mut body = self.body.clone();
            body.drain(cut);
            Self { body, ..self.clone() }
        });
        let narrower = lower(u64::from(self.span));
        let narrower = narrower.map(|span| Self { span: span as u32, ..self.clone() });
        let lower_bytes = (0..length).flat_map(move |at| {
            lower(u64::from(self.body[at])).map(move |byte| {
                let mut lowered = self.clone();
                lowered.body[at] = byte as u8;
                lowered
            })
        });
        same_form.chain(narrower).chain(shorter).chain(lower_bytes)
    }

    fn shown(&self) -> String {
        let Self { tag, span, body } = self;
        format!("Reading {{ tag: {tag}, span: {span}, body: {} }}", listed(body))
    }
}

/// Places to cut as many bytes as an entry, a run or a number has.
fn fields(length: usize) -> impl Iterator<Item = Range<usize>> {
    let sizes = [16, 8, 6, 4, 2].into_iter();
    sizes.flat_map(move |size| (0..length / size).map(move |n| n * size..(n + 1) * size))
}

/// What an accepted body stands for, and its form.
struct Set {
    form: Cost,
    span: u64,
    rows: Vec<u64>,
    /// Start, end and tag of each part, where the body has parts.
    parts: Vec<(u64, u64, u8)>,
}

impl Set {
    fn read(reading: &Reading) -> Option<Self> {
        let Reading { tag, span, body } = reading;
        let (tag, span) = (*tag, u64::from(*span));
        let rows = read(tag, span, body)?;
        let mut form = Cost::new(tag, 0, 0);
        form.trimmed |= tag == BITMAP && body[2] == 1;
        let entries = if tag == SEGMENTED { number(body, 2, 2)? as usize } else { 0 };
        let parts = (0..entries).map(|entry| {
            let at = 4 + 16 * entry;
            let start = number(body, at, 4)?;
            Some((start, start + number(body, at + 4, 2)?, body[at + 14]))
        });
        Some(Self { form, span, rows, parts: parts.collect::<Option<_>>()? })
    }

    /// With a piece of the span cut out, with fewer rows, and with narrower gaps.
    fn smaller(self) -> impl Iterator<Item = Self> {
        let (span, count, rows) = (self.span, self.rows.len(), self.rows.clone());
        let sizes = (1..7).map(move |digits| span >> digits).filter(|size| *size > 0);
        let pieces = sizes.chain(once(1).filter(move |_| span < 128)).flat_map(move |size| {
            (0..span.div_ceil(size)).map(move |n| n * size..(n * size + size).min(span))
        });
        let gaps = (0..=count).flat_map(move |place| {
            let end = rows.get(place).copied().unwrap_or(span);
            let start = if place == 0 { 0 } else { rows[place - 1] + 1 };
            lower(end - start).map(move |left| start + left..end)
        });
        // Without a row the forms of holes are longer, and the dense one is the same.
        let holes = matches!(self.form.tag, DENSE | MISSING | TRIMMED_MISSING);
        let fewer = cuts(if holes { 0 } else { count }).map(Change::Rows);
        let changes = pieces.map(Change::Span).chain(fewer).chain(gaps.map(Change::Span));
        changes.map(move |change| match change {
            Change::Span(cut) => self.narrower(&cut),
            Change::Rows(cut) => {
                let rows = [&self.rows[..cut.start], &self.rows[cut.end..]].concat();
                Self { rows, parts: self.parts.clone(), ..self }
            }
        })
    }

    /// Without the positions of the cut: what stands behind it moves down.
    fn narrower(&self, cut: &Range<u64>) -> Self {
        let moved = |at: u64| at - at.saturating_sub(cut.start).min(cut.end - cut.start);
        let left = self.rows.iter().filter(|row| !cut.contains(row));
        let parts = self.parts.iter().map(|(start, end, tag)| (moved(*start), moved(*end), *tag));
        Self {
            form: self.form,
            span: moved(self.span),
            rows: left.map(|row| moved(*row)).collect(),
            parts: parts.collect(),
        }
    }

    /// The body, if there are rows.
    fn written(self) -> Option<Reading> {
        let Self { form, span, rows, parts } = self;
        let parts: Vec<Part> = parts.iter().filter_map(|part| written_part(&rows, part)).collect();
        let body = match form.tag {
            _ if rows.is_empty() => return None,
            SEGMENTED => segmented(&parts),
            _ => whole(&form, &rows, span),
        };
        Some(Reading { tag: form.tag, span: span as u32, body })
    }
}

enum Change {
    Span(Range<u64>),
    Rows(Range<usize>),
}

/// A part with its rows, if it has any.
fn written_part(rows: &[u64], (start, end, tag): &(u64, u64, u8)) -> Option<Part> {
    let inside = rows.iter().filter(|row| (start..end).contains(row));
    let local: Vec<u64> = inside.map(|row| row - start).collect();
    let span = end - start;
    let count = local.len() as u64;
    let payload = payload(*tag, &local, span);
    (count > 0).then_some(Part { start: *start, span, count, tag: *tag, payload })
}
