//! The list that the proved program `replay` runs without any Rust: the original's answers,
//! written with fixed seeds, so that the same list comes out each time.
//!
//! The list is a byte 1 and then cases: kind u8 (1 a plan, 2 a body, 3 deletions planned, 4
//! deletions read), size u32, and so many bytes. All numbers are little-endian; the files of
//! `record/` say what a case holds. Rows are items of two u16, a gap and how many rows follow, each that gap after
//! the one before it, the first after the base. No row: the gap counts 65,536 each, and no
//! row is taken. 65,535 rows: the gap goes back, and no row is taken.

mod bodies;
mod deletions;
mod plans;

use crate::case::Verdict;
use std::fs;

/// Where the program finds its list, from the folder that comparisons run in.
const LIST: &str = "../crates/replay/stdin";

/// Times of an item that stand for a gap backwards.
const BACK: u16 = u16::MAX;

#[derive(Default)]
struct List {
    bytes: Vec<u8>,
    plans: usize,
    bodies: usize,
    deletions: usize,
}

pub(crate) fn write() -> Verdict {
    let list = List::recorded()?;
    fs::write(LIST, &list.bytes).map_err(|error| format!("{LIST}: {error}"))?;
    Ok(format!("record: {}", list.summary()))
}

/// The list that is there is the one that would be written now.
pub(crate) fn compare() -> Verdict {
    let list = List::recorded()?;
    let there = fs::read(LIST).map_err(|error| format!("{LIST}: {error}"))?;
    if there != list.bytes {
        let same = there.iter().zip(&list.bytes).take_while(|(one, other)| one == other).count();
        return Err(format!("{LIST} is another list from byte {same} on; `run record` writes it"));
    }
    Ok(format!("recorded: {LIST} is as it would be written now: {}", list.summary()))
}

impl List {
    fn recorded() -> Result<Self, String> {
        let mut list = Self { bytes: vec![1], ..Self::default() };
        plans::record(&mut list)?;
        bodies::record(&mut list)?;
        deletions::record(&mut list)?;
        Ok(list)
    }

    fn summary(&self) -> String {
        let Self { bytes, plans, bodies, deletions } = self;
        let size = bytes.len();
        format!("{plans} plans, {bodies} bodies, {deletions} of deletions in {size} bytes")
    }

    fn plan(&mut self, case: &[u8]) {
        self.plans += 1;
        self.case(1, case);
    }

    fn body(&mut self, case: &[u8]) {
        self.bodies += 1;
        self.case(2, case);
    }

    fn deletions(&mut self, kind: u8, case: &[u8]) {
        self.deletions += 1;
        self.case(kind, case);
    }

    fn case(&mut self, kind: u8, case: &[u8]) {
        self.bytes.push(kind);
        self.bytes.extend((case.len() as u32).to_le_bytes());
        self.bytes.extend(case);
    }
}

/// Rows as items.
fn items(base: u64, rows: impl IntoIterator<Item = u64>) -> Vec<(u16, u16)> {
    let mut items: Vec<(u16, u16)> = Vec::new();
    let mut now = base;
    for row in rows {
        while row < now {
            let gap = (now - row).min(65_535);
            items.push((gap as u16, BACK));
            now -= gap;
        }
        let far = u16::try_from((row - now) / 65_536).expect("rows within 2^32");
        let gap = ((row - now) % 65_536) as u16;
        if far > 0 {
            items.push((far, 0));
        }
        match items.last_mut() {
            Some((same, times)) if *same == gap && (1..BACK - 1).contains(times) => *times += 1,
            _ => items.push((gap, 1)),
        }
        now = row;
    }
    items
}

fn item_bytes(items: &[(u16, u16)]) -> Vec<u8> {
    items
        .iter()
        .flat_map(|(gap, times)| [gap.to_le_bytes(), times.to_le_bytes()].concat())
        .collect()
}
