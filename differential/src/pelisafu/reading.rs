//! Reading by Pelisafu against reading by the original, on every body of `reading`. Nothing is taken from the plain
//! rule, but that many ranks answer 4,294,967,295 for nothing, which the original has no call for.

use super::calls::{Body, Record, Told};
use super::memory::{Canary, canaries};
use crate::index::original::Accepted;
use crate::reading::{Reading, for_each, questions};
use crate::shrink::shrinking;
use std::fmt::Debug;

/// What single calls may cost on one body. Each call checks the whole body again, so that long bodies are asked
/// singly at fewer places; many ranks and the walk answer for all of them.
const SINGLE_WORK: usize = 1 << 18;

#[derive(Default)]
pub(super) struct Tally {
    accepted: usize,
    refused: usize,
    ranks: usize,
    selects: usize,
    walks: usize,
    entries: usize,
}

pub(super) fn compare() -> Result<String, String> {
    let mut tally = Tally::default();
    for_each(&mut |reading| compare_body(reading, &mut tally))?;
    Ok(tally.summary())
}

impl Tally {
    pub(super) fn summary(&self) -> String {
        let Self { accepted, refused, ranks, selects, walks, entries } = self;
        format!(
            "{accepted} bodies accepted alike with {ranks} ranks, {selects} selects, {walks} walks and {entries} \
             directory entries, {refused} refused alike by every call"
        )
    }
}

pub(super) fn compare_body(reading: &Reading, tally: &mut Tally) -> Result<(), String> {
    shrinking(reading, |reading| {
        let Reading { tag, span, body } = reading;
        let ours = Body { tag: *tag, span: *span, bytes: body };
        match Accepted::new(*tag, *span, body) {
            None => compare_refused(ours, tally),
            Some(set) => Answers::new(set, ours).compare(tally),
        }
    })
}

pub(super) fn same<T: PartialEq + Debug>(what: &str, ours: T, right: T) -> Result<(), String> {
    if ours == right { Ok(()) } else { Err(format!("{what} gives {ours:?}, not {right:?}")) }
}

impl Canary for Record {
    fn at(place: u32) -> Self {
        Self::from((u32::at(place), 1, 2, 3, 4, 5, 0xA5))
    }
}

/// Walks of the list from the ends, the middle and beyond, into nothing, one place, some, just enough and more than
/// enough. Gives their number.
pub(super) fn compare_walks<T: Canary + PartialEq + Debug>(
    list: &[T],
    walk: impl Fn(u16, &mut [T]) -> Told<u64>,
) -> Result<usize, String> {
    let count = list.len();
    let mut walks = 0;
    for from in [0, 1, count / 2, count.saturating_sub(1), count, 65_535] {
        let rest = list.get(from..).unwrap_or(&[]);
        for room in [0, 1, rest.len() / 2, rest.len(), rest.len() + 5] {
            let written = room.min(rest.len());
            let (mut out, mut right) = (canaries(room), canaries(room));
            right[..written].copy_from_slice(&rest[..written]);
            let ours = walk(from as u16, &mut out);
            same(&format!("walk from {from} into {room}"), ours, Ok(Some(written as u64)))?;
            same(&format!("the output of a walk from {from} into {room}"), out, right)?;
            walks += 1;
        }
    }
    Ok(walks)
}

/// Every call refuses by number 8, before 7, and writes nothing.
fn compare_refused(body: Body, tally: &mut Tally) -> Result<(), String> {
    same("validate", body.validate(), Err(8))?;
    for asked in [0, 1, 65_535] {
        same("rank", body.rank(u32::from(asked)), Err(8))?;
        same("select", body.select(asked), Err(8))?;
        same("segment", body.segment(usize::from(asked)), Err(8))?;
    }
    for room in [0, 1, 5] {
        let mut out = canaries(room);
        same("walk", body.walk(0, &mut out), Err(8))?;
        same("ranks", body.ranks(&[0, 1, 2], &mut out), Err(8))?;
        same("the output after a refusal", out, canaries(room))?;
        let mut table = canaries(room);
        same("segments", body.segments(&mut table), Err(8))?;
        same("the table after a refusal", table, canaries(room))?;
    }
    tally.refused += 1;
    Ok(())
}

/// An accepted body with the original's answers about it.
struct Answers<'a> {
    set: Accepted<'a>,
    body: Body<'a>,
    list: Vec<u32>,
    /// Each so many-th single question is asked.
    every: usize,
}

impl<'a> Answers<'a> {
    fn new(set: Accepted<'a>, body: Body<'a>) -> Self {
        let list: Vec<u32> = set.positions().collect();
        let cost = 1 + body.bytes.len() / 8;
        Self { set, body, every: 1 + cost * list.len() / SINGLE_WORK, list }
    }

    fn compare(&self, tally: &mut Tally) -> Result<(), String> {
        same("validate", self.body.validate(), Ok(Some(u64::from(self.set.count()))))?;
        self.compare_ranks(tally)?;
        self.compare_selects(tally)?;
        tally.walks += compare_walks(&self.list, |from, out| self.body.walk(from, out))?;
        self.compare_entries(tally)?;
        tally.accepted += 1;
        Ok(())
    }

    fn compare_ranks(&self, tally: &mut Tally) -> Result<(), String> {
        let rows: Vec<u64> = self.list.iter().copied().map(u64::from).collect();
        let asked = questions(&rows, self.body.span);
        let right: Vec<Option<u16>> = asked.iter().map(|p| self.set.rank(*p)).collect();
        for (position, right) in asked.iter().zip(&right).step_by(self.every) {
            let ours = self.body.rank(*position);
            same(&format!("rank {position}"), ours, Ok(right.map(u64::from)))?;
        }
        // Many ranks into an output with room to spare, an exact one, and one that is too short.
        let mut expected = canaries(asked.len() + 3);
        for (place, right) in expected.iter_mut().zip(&right) {
            *place = right.map_or(u32::MAX, u32::from);
        }
        for spare in [3, 0] {
            let mut out = canaries(asked.len() + spare);
            same("ranks", self.body.ranks(&asked, &mut out), Ok(Some(asked.len() as u64)))?;
            same("the output of ranks", &out[..], &expected[..asked.len() + spare])?;
        }
        let mut short = canaries(asked.len() - 1);
        same("ranks into less", self.body.ranks(&asked, &mut short), Err(7))?;
        same("the output of ranks into less", short, canaries(asked.len() - 1))?;
        tally.ranks += 2 * asked.len() + asked.len().div_ceil(self.every);
        Ok(())
    }

    fn compare_selects(&self, tally: &mut Tally) -> Result<(), String> {
        let count = self.list.len();
        let ends = [0, count - 1, count, count + 1, 65_535];
        for ordinal in (0..count).step_by(self.every).chain(ends) {
            let Ok(asked) = u16::try_from(ordinal) else {
                continue;
            };
            let right = self.set.select(asked).map(u64::from);
            same(&format!("select {ordinal}"), self.body.select(asked), Ok(right))?;
            tally.selects += 1;
        }
        Ok(())
    }

    /// All entries into a table with room to spare, an exact one, and one that is too short; each entry singly, and none
    /// behind the last one.
    fn compare_entries(&self, tally: &mut Tally) -> Result<(), String> {
        let entries = self.set.entries();
        let mut expected = canaries(entries.len() + 3);
        for (place, entry) in expected.iter_mut().zip(&entries) {
            *place = Record::from(*entry);
        }
        for spare in [3, 0] {
            let mut table = canaries(entries.len() + spare);
            let ours = self.body.segments(&mut table);
            same("segments", ours, Ok(Some(entries.len() as u64)))?;
            same("the table of segments", &table[..], &expected[..entries.len() + spare])?;
        }
        if let Some(less) = entries.len().checked_sub(1) {
            let mut short = canaries(less);
            same("segments into less", self.body.segments(&mut short), Err(7))?;
            same("the table of segments into less", short, canaries(less))?;
        }
        let ends = [0, entries.len().saturating_sub(1), entries.len(), 65_535, 65_536, usize::MAX];
        for i in (0..entries.len()).step_by(self.every).chain(ends) {
            let right = entries.get(i).copied().map(Record::from);
            same(&format!("segment {i}"), self.body.segment(i), Ok(right))?;
        }
        tally.entries += entries.len();
        Ok(())
    }
}
