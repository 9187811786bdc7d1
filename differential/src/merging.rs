//! Planning by the original against planning by the plain rule, over random seed tables:
//! segments and offers, and with them seed ends, tag and body.

use crate::case::{Case, Verdict, bad_cases};
use crate::index::original::{self, Seeds};
use crate::plain;
use crate::random::{Random, SHAPES, SOURCES, case, gathered};
use crate::shrink::shrinking;

/// Rounds over every shape from every source, and how many of them are large.
const ROUNDS: usize = 1_000;
const LARGE_EVERY: usize = 100;

/// What the comparison has seen.
#[derive(Default)]
struct Tally {
    cases: usize,
    seeds: usize,
    joins: usize,
    offers: u64,
    without_offers: usize,
    refused: usize,
    tags: [usize; 10],
}

pub(crate) fn compare() -> Verdict {
    let mut random = Random::new(1);
    let mut tally = Tally::default();
    for round in 0..ROUNDS {
        let most = if round % LARGE_EVERY == 0 { 4_000 } else { 150 };
        for shape in SHAPES {
            for source in SOURCES {
                let count = 1 + random.below(most) as usize;
                let case = case(&mut random, shape, count);
                let case = gathered(&mut random, source, case);
                compare_plan(&case, &mut tally)?;
            }
        }
    }
    for case in edge_cases() {
        compare_plan(&case, &mut tally)?;
    }
    Ok(tally.summary())
}

/// One random case of each shape from each source.
#[cfg(pelisafu)]
pub(crate) fn compare_drawn(random: &mut Random) -> Result<(), String> {
    for shape in SHAPES {
        for source in SOURCES {
            let count = 1 + random.below(300) as usize;
            let drawn = case(random, shape, count);
            compare_plan(&gathered(random, source, drawn), &mut Tally::default())?;
        }
    }
    Ok(())
}

fn compare_plan(case: &Case, tally: &mut Tally) -> Result<(), String> {
    shrinking(case, |case| compare_rules(case, tally))
}

/// One case: the original and the plain rule must give the same seeds and the same plan, or
/// refuse alike.
fn compare_rules(case: &Case, tally: &mut Tally) -> Result<(), String> {
    let seeds = plain::merging::gather(case);
    let gathered = Seeds::gathered(case).ends();
    if !case.gathering.is_empty() && gathered != seeds {
        return Err(format!("seed ends {gathered:?} and {seeds:?}"));
    }
    match (original::plan(case), plain::planning::plan(case)) {
        (Ok(theirs), Ok(plain)) if theirs == plain => {
            if plain.offers > 3 * (seeds.len() as u64 - 1) {
                return Err(format!("{} offers of {} seeds", plain.offers, seeds.len()));
            }
            tally.cases += 1;
            tally.seeds += seeds.len();
            tally.joins += seeds.len() - plain.segment_ends.len();
            tally.offers += plain.offers;
            tally.without_offers += usize::from(plain.offers == 0);
            tally.tags[usize::from(plain.tag)] += 1;
            Ok(())
        }
        (Err(no), Err(number)) if no.is(number) => {
            tally.cases += 1;
            tally.refused += 1;
            Ok(())
        }
        (theirs, plain) => Err(format!("planned {theirs:?} and {plain:?}")),
    }
}

/// Inputs on the bounds of planning that random rows do not meet.
fn edge_cases() -> Vec<Case> {
    let far_apart = |count| Case::new(0, 4_294_967_295, (0..count).map(|n| 200_000 * n));
    let mut cases = bad_cases();
    cases.extend([16_383, 16_384].map(far_apart));
    for end in [1, 65_535, 65_536, 65_537, 4_294_967_295] {
        let (middle, last, many) = (end / 2, end - 1, end.min(65_535));
        for first in [0, middle, last] {
            let mut rows = vec![first, middle.max(first), last];
            rows.dedup();
            cases.push(Case::new(0, end, rows));
        }
        cases.push(Case::new(0, end, 0..many));
        cases.push(Case::new(0, end, (0..many).step_by(2)));
        cases.push(Case::new(0, end, end - many..end));
    }
    for size in [4, 15, 4_096, 65_535] {
        cases.push(Case::new(7, 70_000, 7..65_542).in_pages_of(size));
    }
    cases
}

impl Tally {
    fn summary(&self) -> String {
        let tags: Vec<String> = (1..10).map(|tag| self.tags[tag].to_string()).collect();
        format!(
            "merging: {} cases alike, {} refused alike, {} seeds, {} joins, {} offers, \
             {} plans without an offer; tags 1 to 9: {}",
            self.cases - self.refused,
            self.refused,
            self.seeds,
            self.joins,
            self.offers,
            self.without_offers,
            tags.join(" ")
        )
    }
}
