//! Deletion sets: planning and reading by the original against document 01's tests, with the
//! block limit as an argument.

mod smaller;

use crate::case::{Case, Verdict};
use crate::index::deletions::{Section as Planned, plan, read, read_empty};
use crate::plain;
use crate::plain::costs::bitmap_length;
use crate::random::Random;
use crate::reading::Reading;
use crate::shrink::shrinking;

pub(crate) const ROW_COUNTS: [u16; 11] = [0, 1, 2, 10, 64, 65, 256, 257, 5_000, 65_534, 65_535];

/// Deletions to plan.
#[derive(Clone)]
pub(crate) struct Deletions {
    pub(crate) row_count: u16,
    pub(crate) block_limit: usize,
    pub(crate) ordinals: Vec<u16>,
}

/// A section to read. The span of the reading is the row count. Where `coded` is 0 it is the empty set.
#[derive(Clone)]
pub(crate) struct Section {
    pub(crate) block_limit: usize,
    pub(crate) coded: u8,
    pub(crate) stated: u16,
    pub(crate) reading: Reading,
}

impl Section {
    pub(crate) fn row_count(&self) -> u16 {
        self.reading.span as u16
    }

    /// Row count, block limit, stated count, tag and body, as a call takes them.
    pub(crate) fn given(&self) -> (u16, usize, u16, u8, &[u8]) {
        let Self { block_limit, stated, reading: Reading { tag, body, .. }, .. } = self;
        (self.row_count(), *block_limit, *stated, *tag, body)
    }
}

#[derive(Default)]
struct Tally {
    planned: usize,
    empty: usize,
    read: usize,
    refused: [usize; 11],
}

pub(crate) fn compare() -> Verdict {
    let mut random = Random::new(3);
    let mut tally = Tally::default();
    for row_count in ROW_COUNTS {
        for block_limit in limits(row_count) {
            for ordinals in ordinal_sets(&mut random, row_count) {
                compare_set(&Deletions { row_count, block_limit, ordinals }, &mut tally)?;
            }
        }
    }
    Ok(format!(
        "deletions: {} sections planned alike and {} empty ones, {} read alike; refused alike \
         by number: 3 {}, 8 {}, 9 {}, 10 {}",
        tally.planned,
        tally.empty,
        tally.read,
        tally.refused[3],
        tally.refused[8],
        tally.refused[9],
        tally.refused[10]
    ))
}

/// Deletions of every density, none at all, and some that no planner may take.
pub(crate) fn ordinal_sets(random: &mut Random, row_count: u16) -> Vec<Vec<u16>> {
    let mut sets = vec![
        Vec::new(),
        (0..row_count).collect(),
        (0..row_count).step_by(2).collect(),
        vec![row_count.saturating_sub(1)],
        vec![row_count],
        vec![5, 5],
        vec![7, 6],
    ];
    for spread in [2, 3, 20, 900] {
        sets.push((0..row_count).filter(|_| random.one_in(spread)).collect());
        sets.push((0..row_count).filter(|_| !random.one_in(spread)).collect());
    }
    sets
}

fn compare_set(set: &Deletions, tally: &mut Tally) -> Result<(), String> {
    shrinking(set, |set| compare_plan(set, tally))?;
    for section in sections(set) {
        shrinking(&section, |section| compare_reading(section, tally))?;
    }
    Ok(())
}

fn compare_plan(set: &Deletions, tally: &mut Tally) -> Result<(), String> {
    match (plan(set.row_count, set.block_limit, &set.ordinals), plain_plan(set)) {
        (Ok(theirs), Ok(plain)) if theirs == plain => match plain.0 {
            None => tally.empty += 1,
            Some(_) => tally.planned += 1,
        },
        (Err(no), Err(number)) if no.is(number) && number != 6 => {
            tally.refused[usize::from(number)] += 1;
        }
        (theirs, plain) => return Err(format!("planned {theirs:?} and {plain:?}")),
    }
    Ok(())
}

/// Block limits around a row count.
pub(crate) fn limits(row_count: u16) -> [usize; 5] {
    let rows = usize::from(row_count);
    [0, rows.saturating_sub(1), rows, 65_535, usize::MAX]
}

/// Ways to read what the original plans: other limits, stated counts, tags and lengths, few of them right. And the empty
/// set, with each of these beside it.
pub(crate) fn sections(set: &Deletions) -> Vec<Section> {
    let Deletions { row_count, block_limit, ordinals } = set;
    let section = |coded, block_limit, stated, tag, body: &[u8]| {
        let reading = Reading { tag, span: u32::from(*row_count), body: body.to_vec() };
        Section { block_limit, coded, stated, reading }
    };
    let limits = [*block_limit, usize::from(*row_count).saturating_sub(1)];
    let mut all: Vec<Section> = limits.map(|limit| section(0, limit, 0, 0, &[])).into();
    let Ok((Some(tag), body)) = plan(*row_count, *block_limit, ordinals) else {
        return all;
    };
    let count = ordinals.len() as u16;
    let bound = 4 + bitmap_length(u64::from(*row_count)) as usize;
    let padded = [&body[..], &vec![0; bound + 1 - body.len()]].concat();
    for stated in [count, 0, count.wrapping_add(1), count - 1, u16::MAX] {
        for limit in limits {
            for (tag, body) in [(tag, &body), (tag, &padded), (tag ^ 1, &body)] {
                let coded = [1, 2, u8::MAX][all.len() % 3];
                all.push(section(coded, limit, stated, tag, body));
            }
            all.push(section(0, limit, stated, tag, &body));
        }
    }
    all
}

/// Document 01's planning of deletions: test 9, then Empty, then planning's own.
fn plain_plan(set: &Deletions) -> Result<Planned, u8> {
    let Deletions { row_count, block_limit, ordinals } = set;
    if *row_count == 0 || usize::from(*row_count) > *block_limit {
        return Err(9);
    }
    if ordinals.is_empty() {
        return Ok((None, Vec::new()));
    }
    let limit = 4 + bitmap_length(u64::from(*row_count)) as usize;
    let rows = ordinals.iter().map(|ordinal| u64::from(*ordinal));
    let case = Case::new(0, u64::from(*row_count), rows).limited(limit);
    plain::planning::plan(&case).map(|plan| (Some(plan.tag), plan.body))
}

fn compare_reading(section: &Section, tally: &mut Tally) -> Result<(), String> {
    match deleted(section)? {
        Ok(_) => tally.read += 1,
        Err(number) => tally.refused[usize::from(number)] += 1,
    }
    Ok(())
}

/// The deleted ordinals of a section, or the number of its refusal, as the original and the plain rule both say.
pub(crate) fn deleted(section: &Section) -> Result<Result<Vec<u16>, u8>, String> {
    let (row_count, block_limit, stated, tag, body) = section.given();
    let theirs = match section.coded {
        0 => read_empty(row_count, block_limit),
        _ => read(row_count, block_limit, stated, tag, body),
    };
    match (theirs, plain_read(section)) {
        (Ok(theirs), Ok(plain)) if theirs.iter().copied().map(u64::from).eq(plain.clone()) => {
            Ok(Ok(theirs))
        }
        (Err(no), Err(number)) if no.is(number) => Ok(Err(number)),
        (theirs, plain) => Err(format!("the original reads {theirs:?}, the plain rule {plain:?}")),
    }
}

/// Document 01's reading of deletions: 9, of an empty section for the row count alone, then 8, then 10.
fn plain_read(section: &Section) -> Result<Vec<u64>, u8> {
    let (row_count, block_limit, stated, tag, body) = section.given();
    let span = u64::from(row_count);
    if row_count == 0 || usize::from(row_count) > block_limit {
        return Err(9);
    }
    if section.coded == 0 {
        return Ok(Vec::new());
    }
    if stated == 0 || stated > row_count || body.len() as u64 > 4 + bitmap_length(span) {
        return Err(9);
    }
    let rows = plain::reading::read(tag, span, body).ok_or(8)?;
    if rows.len() != usize::from(stated) {
        return Err(10);
    }
    Ok(rows)
}
