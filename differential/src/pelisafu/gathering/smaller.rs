//! Smaller records, tables and rows.

use super::{Gathering, Handing};
use crate::shrink::{Input, fewer, listed, lower};

impl Input for Handing {
    fn smaller(&self) -> impl Iterator<Item = Self> {
        let (entries, rows, first, last) = self.record.fields();
        let with = |record: Gathering| Self { record, ..self.clone() };
        let entries = lower(entries as u64)
            .map(move |entries| with(Gathering { entries: entries as usize, ..self.record }));
        let totals = lower(rows as u64)
            .map(move |rows| with(Gathering { rows: rows as usize, ..self.record }));
        let firsts = lower(first).map(move |first| with(Gathering { first, ..self.record }));
        let lasts = lower(last).map(move |last| with(Gathering { last, ..self.record }));
        let rooms = lower(self.room as u64);
        let rooms = rooms.map(|room| Self { room: room as usize, ..self.clone() });
        let fewer_rows = fewer(&self.rows).map(|rows| Self { rows, ..self.clone() });
        let fewer_rows = fewer_rows.filter(|less| !less.singly || !less.rows.is_empty());
        let lower_rows = (0..self.rows.len()).flat_map(move |place| {
            lower(self.rows[place]).map(move |row| {
                let mut lowered = self.clone();
                lowered.rows[place] = row;
                lowered
            })
        });
        let records = entries.chain(totals).chain(firsts).chain(lasts);
        fewer_rows.chain(rooms).chain(records).chain(lower_rows)
    }

    fn shown(&self) -> String {
        let Self { record, room, singly, rows } = self;
        let rows = listed(rows);
        format!("Handing {{ record: {record:?}, room: {room}, singly: {singly}, rows: {rows} }}")
    }
}
