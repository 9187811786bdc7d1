//! Gathering by Pelisafu against the original's seeds, over random pages and rows; and its refusals, which the
//! original does not have, against document 01.

mod smaller;

use super::calls::Gathering;
use crate::case::{Case, Piece};
use crate::index::original::Seeds;
use crate::random::{Random, SHAPES, SOURCES, case, gathered};
use crate::shrink::shrinking;

const ROUNDS: usize = 300;
const REFUSALS: usize = 400_000;
const LARGE_EVERY: usize = 60;

/// What stands in a table before anything is written to it.
const UNTOUCHED: u16 = 0xA5F0;

pub(super) fn compare() -> Result<String, String> {
    compare_rounds(&mut Random::new(7), ROUNDS, REFUSALS)
}

/// So many rounds over every shape and source, and so many tries at refusals.
pub(super) fn compare_rounds(
    random: &mut Random,
    rounds: usize,
    tries: usize,
) -> Result<String, String> {
    let (mut cases, mut seeds) = (0, 0);
    for round in 1..=rounds {
        for shape in SHAPES {
            for source in SOURCES {
                let bound = if round % LARGE_EVERY == 0 { 20_000 } else { 200 };
                let count = 1 + random.below(bound) as usize;
                let drawn = case(random, shape, count);
                let drawn = gathered(random, source, drawn);
                shrinking(&drawn, |drawn| {
                    seeds += compare_seeds(drawn)?;
                    Ok(())
                })?;
                cases += 1;
            }
        }
    }
    let refusals = compare_refusals(random, tries)?;
    Ok(format!(
        "{cases} gatherings with {seeds} seeds alike, {refusals} refused as document 01 says"
    ))
}

/// Gathers into a table that has just room enough and three entries more. Gives the number of seeds.
fn compare_seeds(case: &Case) -> Result<usize, String> {
    let right: Vec<u16> = Seeds::gathered(case).ends().iter().map(|end| *end as u16).collect();
    let (mut table, mut record) = (vec![UNTOUCHED; right.len() + 3], Gathering::default());
    let mut rows = 0;
    for (piece, given) in case.pieces() {
        record = match piece {
            Piece::Page(_) => record.page(&mut table, given).map_err(refusal)?,
            Piece::Singly(_) => {
                let add = |g: Gathering, row: &u64| g.row(&mut table, *row);
                given.iter().try_fold(record, add).map_err(refusal)?
            }
        };
        rows += given.len();
        let (used, total, _, last) = record.fields();
        if (total, last) != (rows, given[given.len() - 1]) || used > right.len() {
            return Err(format!("a record {record:?} after {rows} rows"));
        }
    }
    let used = record.fields().0;
    if table[..used] != right[..] {
        return Err(format!("ends {:?}, not {right:?}", &table[..used]));
    }
    if table[used..].iter().any(|entry| *entry != UNTOUCHED) {
        return Err(format!("entries past the ends were written: {:?}", &table[used..]));
    }
    if !right.is_empty() && rows > 0 {
        compare_short_table(case, right.len())?;
    }
    Ok(right.len())
}

/// With an entry too few, exactly the piece that needs it is refused by number 11.
fn compare_short_table(case: &Case, seeds: usize) -> Result<(), String> {
    let (mut table, mut record) = (vec![UNTOUCHED; seeds - 1], Gathering::default());
    for (piece, given) in case.pieces() {
        let pieces: Vec<&[u64]> = match piece {
            Piece::Page(_) => vec![given],
            Piece::Singly(_) => given.chunks(1).collect(),
        };
        for rows in pieces {
            let before = table.clone();
            let next = match piece {
                Piece::Page(_) => record.page(&mut table, rows),
                Piece::Singly(_) => record.row(&mut table, rows[0]),
            };
            match next {
                Ok(next) => record = next,
                Err(11) if table == before => return Ok(()),
                Err(number) => {
                    return Err(format!("refusal {number}, or a table that a refusal changed"));
                }
            }
        }
    }
    Err("a table with an entry too few was enough".to_string())
}

fn refusal(number: u8) -> String {
    format!("refusal {number}")
}

/// Rows handed over at once, to a record and a table of so many entries.
#[derive(Clone)]
struct Handing {
    record: Gathering,
    room: usize,
    /// One row is handed over singly.
    singly: bool,
    rows: Vec<u64>,
}

impl Handing {
    /// Document 01's tests 12, 3, 2 and 11, in that order, for rows that are one seed or none.
    fn number(&self) -> u8 {
        let (entries, total, first, last) = self.record.fields();
        let one_zero = (entries == 0) != (total == 0);
        if entries > self.room || entries > total || one_zero || (total > 0 && first > last) {
            return 12;
        }
        let Some(lowest) = self.rows.first() else {
            return 0;
        };
        if (total > 0 && *lowest <= last) || !self.rows.windows(2).all(|pair| pair[0] < pair[1]) {
            return 3;
        }
        if total as u128 + self.rows.len() as u128 > 65_535 {
            return 2;
        }
        let joins = self.singly && total > 0 && lowest / 4_096 == first / 4_096;
        if !joins && entries == self.room { 11 } else { 0 }
    }

    /// A page of more than one seed is left to the random gatherings.
    fn many_seeds(&self) -> bool {
        let Self { singly, rows, .. } = self;
        !singly && rows.last().is_some_and(|last| last.saturating_sub(rows[0]) >= 65_535)
    }

    /// The number, and that a table stays as it was if nothing is added to it.
    fn compare(&self) -> Result<(), String> {
        if self.many_seeds() {
            return Ok(());
        }
        let mut table = vec![UNTOUCHED; self.room];
        let right = self.number();
        let answer = match self.singly {
            true => self.record.row(&mut table, self.rows[0]),
            false => self.record.page(&mut table, &self.rows),
        };
        let ours = answer.err().unwrap_or(0);
        let still = right != 0 || self.rows.is_empty();
        if ours != right || (still && table.iter().any(|entry| *entry != UNTOUCHED)) {
            return Err(format!("gathering gives {ours}, not {right}, and leaves {table:04X?}"));
        }
        Ok(())
    }
}

/// Records, rows and pages on the bounds of each test.
fn compare_refusals(random: &mut Random, tries: usize) -> Result<usize, String> {
    const COUNTS: [usize; 9] = [0, 1, 2, 3, 4, 65_533, 65_534, 65_535, usize::MAX];
    const ROWS: [u64; 8] = [0, 1, 4_095, 4_096, 4_097, 70_000, u64::MAX - 1, u64::MAX];
    let mut refused = 0;
    for _ in 0..tries {
        let mut count = || COUNTS[random.below(9) as usize];
        let (entries, total) = (count(), count());
        let mut row = || ROWS[random.below(8) as usize];
        let (first, last, single) = (row(), row(), row());
        let mut page = vec![row(), row(), row()];
        page.truncate(random.below(4) as usize);
        let record = Gathering::record(entries, total, first, last);
        let room = random.below(6) as usize;
        for (singly, rows) in [(true, vec![single]), (false, page)] {
            let handing = Handing { record, room, singly, rows };
            shrinking(&handing, Handing::compare)?;
            refused += usize::from(!handing.many_seeds() && handing.number() != 0);
        }
    }
    Ok(refused)
}
