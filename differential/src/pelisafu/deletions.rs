//! Deletion sets by Pelisafu against the original, and against document 01 for numbers, memory and workspace.

use super::memory::canaries;
use super::planning::deletion_answer;
use super::reading::{compare_walks, same};
use super::sections::plan_deletions;
use crate::deletions::{Deletions, ROW_COUNTS, Section, deleted, limits, ordinal_sets, sections};
use crate::index::deletions::plan;
use crate::random::Random;
use crate::shrink::shrinking;

/// What the comparison has met.
#[derive(Default)]
pub(super) struct Tally {
    planned: usize,
    read: usize,
    asked: usize,
    refused: [usize; 11],
}

impl Tally {
    pub(super) fn summary(&self) -> String {
        let Self { planned, read, asked, refused } = self;
        let numbers = [3, 5, 7, 8, 9, 10].map(|number| format!("{number}: {}", refused[number]));
        format!(
            "deletions: {planned} plans alike, {read} sections read alike with {asked} questions, refused by number {}",
            numbers.join(", ")
        )
    }
}

/// All row counts on the bounds, and so many at random.
pub(super) fn compare(random: &mut Random, drawn: usize, tally: &mut Tally) -> Result<(), String> {
    for row_count in ROW_COUNTS {
        compare_count(random, row_count, tally)?;
    }
    for _ in 0..drawn {
        compare_drawn(random, tally)?;
    }
    Ok(())
}

pub(super) fn compare_drawn(random: &mut Random, tally: &mut Tally) -> Result<(), String> {
    let most = [10, 300, 5_000, 65_535][random.below(4) as usize];
    let row_count = 1 + random.below(most) as u16;
    compare_count(random, row_count, tally)
}

fn compare_count(random: &mut Random, row_count: u16, tally: &mut Tally) -> Result<(), String> {
    for ordinals in ordinal_sets(random, row_count) {
        let limits = limits(row_count);
        let block_limit = limits[random.below(limits.len() as u64) as usize];
        let set = Deletions { row_count, block_limit, ordinals };
        shrinking(&set, |set| compare_plan(set, tally))?;
        for section in sections(&set) {
            shrinking(&section, |section| compare_reading(section, tally))?;
        }
    }
    Ok(())
}

/// Planning into memory that is enough, and into too little.
fn compare_plan(set: &Deletions, tally: &mut Tally) -> Result<(), String> {
    for (work, out) in [(0, 0), (3, 5), (-1, 0), (0, -1), (-1, -1)] {
        let right = deletion_answer(set, (work, out))?;
        right.compare("plan_deletions", |means| plan_deletions(set, means))?;
        match right.number() {
            0 => tally.planned += 1,
            number => tally.refused[usize::from(number)] += 1,
        }
    }
    let Deletions { row_count, block_limit, ordinals } = set;
    if let Ok((Some(tag), body)) = plan(*row_count, *block_limit, ordinals) {
        let right = deletion_answer(set, (0, 0))?;
        same("the planned section", right.section(), (tag, &body[..]))?;
    }
    Ok(())
}

fn compare_reading(section: &Section, tally: &mut Tally) -> Result<(), String> {
    let list = match deleted(section)? {
        Ok(list) => list,
        Err(number) => {
            tally.refused[usize::from(number)] += 1;
            return compare_refused(section, number);
        }
    };
    same("check", section.check(), Ok(Some(list.len() as u64)))?;
    tally.read += 1;
    let every = 1 + list.len() / 200;
    let beside = |n: &u16| [n.wrapping_sub(1), *n, n.wrapping_add(1)];
    let near = list.iter().step_by(every).flat_map(beside);
    let row_count = section.row_count();
    for ordinal in near.chain([0, row_count - 1, row_count, u16::MAX]) {
        let right = list.binary_search(&ordinal).is_ok().then_some(1);
        same(&format!("deleted {ordinal}"), section.deleted(ordinal), Ok(right))?;
        tally.asked += 1;
    }
    compare_walks(&list, |from, out| section.walk(from, out))?;
    Ok(())
}

fn compare_refused(section: &Section, number: u8) -> Result<(), String> {
    same("check", section.check(), Err(number))?;
    for asked in [0, 1, 65_535] {
        same("deleted", section.deleted(asked), Err(number))?;
        let mut out = canaries(4);
        same("walk", section.walk(asked, &mut out), Err(number))?;
        same("the output of a walk that is refused", out, canaries(4))?;
    }
    Ok(())
}
