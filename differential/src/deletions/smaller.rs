//! Smaller deletion sets, and smaller sections to read.

use super::{Deletions, Section};
use crate::plain::reading::read;
use crate::shrink::{Input, closer, fewer, listed, lower};

impl Input for Deletions {
    fn smaller(&self) -> impl Iterator<Item = Self> {
        let with = |ordinals| Self { ordinals, ..self.clone() };
        let rows: Vec<u64> = self.ordinals.iter().copied().map(u64::from).collect();
        let lower_ordinals: Vec<Vec<u16>> = closer(&rows, 0)
            .take(2_000)
            .map(|(rows, _)| rows.iter().map(|row| *row as u16).collect())
            .collect();
        let fewer_rows = lower(u64::from(self.row_count));
        let fewer_rows = fewer_rows.map(|rows| Self { row_count: rows as u16, ..self.clone() });
        let lower_limit = lower(self.block_limit as u64);
        let lower_limit =
            lower_limit.map(|limit| Self { block_limit: limit as usize, ..self.clone() });
        let fewer_ordinals = fewer(&self.ordinals).map(with);
        let lower_ordinals = lower_ordinals.into_iter().map(with);
        fewer_ordinals.chain(fewer_rows).chain(lower_limit).chain(lower_ordinals)
    }

    fn shown(&self) -> String {
        let Self { row_count, block_limit, ordinals } = self;
        format!(
            "Deletions {{ row_count: {row_count}, block_limit: {block_limit}, ordinals: {} }}",
            listed(ordinals)
        )
    }
}

impl Input for Section {
    /// Where the stated count is the body's, that of a smaller body is stated too.
    fn smaller(&self) -> impl Iterator<Item = Self> {
        let with = |block_limit, stated| Self { block_limit, stated, ..self.clone() };
        let bodies = self.reading.smaller().flat_map(move |reading| {
            let rows = read(reading.tag, u64::from(reading.span), &reading.body);
            let count = rows.and_then(|rows| u16::try_from(rows.len()).ok());
            let stated = count.filter(|count| *count < self.stated).into_iter();
            let with = move |stated| Self { stated, reading: reading.clone(), ..*self };
            stated.chain([self.stated]).map(with)
        });
        let stated = lower(u64::from(self.stated));
        let stated = stated.map(move |stated| with(self.block_limit, stated as u16));
        let limits = lower(self.block_limit as u64);
        let limits = limits.map(move |limit| with(limit as usize, self.stated));
        let coded = lower(u64::from(self.coded));
        let coded = coded.map(move |coded| Self { coded: coded as u8, ..self.clone() });
        bodies.chain(stated).chain(limits).chain(coded)
    }

    fn shown(&self) -> String {
        let Self { block_limit, coded, stated, reading } = self;
        let reading = reading.shown();
        format!(
            "Section {{ block_limit: {block_limit}, coded: {coded}, stated: {stated}, reading: {reading} }}"
        )
    }
}
