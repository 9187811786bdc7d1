//! Reading by the original against reading by the plain rule: which bodies are accepted, and
//! on accepted ones count, list, ranks and selects.

mod bodies;
mod long;
mod short;
mod smaller;

use crate::case::Verdict;
use crate::index::original::Accepted;
use crate::plain;
use crate::random::Random;
use crate::shrink::shrinking;
pub(crate) use bodies::{in_every_form, segmented_body, spans};

/// One question to a reader.
#[derive(Clone, Debug, PartialEq, Eq)]
pub(crate) struct Reading {
    pub(crate) tag: u8,
    pub(crate) span: u32,
    pub(crate) body: Vec<u8>,
}

#[derive(Default)]
struct Tally {
    accepted: [usize; 11],
    refused: usize,
    ranks: usize,
}

/// Every body that readers are compared on, the short ones first.
pub(crate) fn for_each(
    each: &mut impl FnMut(&Reading) -> Result<(), String>,
) -> Result<(), String> {
    let mut random = Random::new(2);
    short::for_each(each)?;
    bodies::for_each(&mut |reading| {
        each(reading)?;
        bodies::damaged(&mut random, reading, each)
    })?;
    long::all().iter().try_for_each(each)
}

pub(crate) fn compare() -> Verdict {
    let mut tally = Tally::default();
    for_each(&mut |reading| compare_body(reading, &mut tally))?;
    let tags: Vec<String> = (1..10).map(|tag| tally.accepted[tag].to_string()).collect();
    Ok(format!(
        "reading: {} bodies accepted alike with {} ranks, {} refused alike; accepted by tags \
         1 to 9: {}",
        tally.accepted.iter().sum::<usize>(),
        tally.ranks,
        tally.refused,
        tags.join(" ")
    ))
}

/// Bodies of one random row set in every form that can hold it, each of them also damaged.
pub(crate) fn for_each_drawn(
    random: &mut Random,
    each: &mut impl FnMut(&Reading) -> Result<(), String>,
) -> Result<(), String> {
    bodies::drawn(random).iter().try_for_each(|reading| {
        each(reading)?;
        bodies::damaged(random, reading, each)
    })
}

/// One body by the original and by the plain rule.
#[cfg(pelisafu)]
pub(crate) fn compare_drawn(reading: &Reading) -> Result<(), String> {
    compare_body(reading, &mut Tally::default())
}

/// The one body too large for every run.
pub(crate) fn compare_largest() -> Verdict {
    let largest = long::largest();
    compare_body(&largest, &mut Tally::default())?;
    Ok(format!("largest: a bitmap of {} bytes read alike", largest.body.len()))
}

fn compare_body(reading: &Reading, tally: &mut Tally) -> Result<(), String> {
    shrinking(reading, |reading| compare_readers(reading, tally))
}

fn compare_readers(reading: &Reading, tally: &mut Tally) -> Result<(), String> {
    let Reading { tag, span, body } = reading;
    let plain = plain::reading::read(*tag, u64::from(*span), body);
    match (Accepted::new(*tag, *span, body), &plain) {
        (None, None) => tally.refused += 1,
        (Some(set), Some(list)) => {
            tally.ranks += compare_answers(set, list, *span)?;
            tally.accepted[usize::from(*tag)] += 1;
        }
        (theirs, _) => return Err(format!("accepted by the original: {}", theirs.is_some())),
    }
    Ok(())
}

/// Every answer on an accepted body. Gives the number of ranks that were asked.
fn compare_answers(set: Accepted, list: &[u64], span: u32) -> Result<usize, String> {
    if usize::from(set.count()) != list.len() {
        return Err(format!("count {}, not {}", set.count(), list.len()));
    }
    if !set.positions().map(u64::from).eq(list.iter().copied()) {
        return Err(format!("walks other rows than {list:?}"));
    }
    let last = list.len() - 1;
    for ordinal in (0..last).step_by(step(list)).chain([last, last + 1, 65_535]) {
        let Ok(asked) = u16::try_from(ordinal) else {
            continue;
        };
        let (found, right) = (set.select(asked).map(u64::from), list.get(ordinal).copied());
        if found != right {
            return Err(format!("select {ordinal} gives {found:?}, not {right:?}"));
        }
    }
    let questions = questions(list, span);
    for position in &questions {
        let found = set.rank(*position).map(usize::from);
        let right = list.binary_search(&u64::from(*position)).ok();
        if found != right {
            return Err(format!("rank {position} gives {found:?}, not {right:?}"));
        }
    }
    Ok(questions.len())
}

/// Long lists are asked at about 2,000 rows, evenly spread; their walk is compared whole.
fn step(list: &[u64]) -> usize {
    1 + list.len() / 2_000
}

/// Positions worth asking for: the ends, rows and what stands beside them.
pub(crate) fn questions(list: &[u64], span: u32) -> Vec<u32> {
    let ends = [0, 1, span / 2, span - 1, span, span.saturating_add(1), u32::MAX];
    let beside = |row: &u64| [row.wrapping_sub(1), *row, row + 1].map(|p| p as u32);
    let rows = list.iter().step_by(step(list));
    let mut questions: Vec<u32> = rows.flat_map(beside).chain(ends).collect();
    questions.sort_unstable();
    questions.dedup();
    questions
}
