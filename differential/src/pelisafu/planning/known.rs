//! What planning must answer: from the original, and from document 01 written anew.

use super::{Lending, Planned, Request, Right, canaries};
use crate::case::{Case, Plan};
use crate::index::original::{self, No};
use crate::plain;

/// The most seeds with which the plain rule plans as well: it looks through all pairs at each join.
const PLAIN_SEEDS: usize = 600;

/// What is known of a request before memory and limit are looked at.
pub(super) struct Known {
    /// Seeds, given or generated. Where one of tests 1 to 4 refuses, seeds for which there would be memory.
    pub(super) seeds: usize,
    /// The plan, or the number of the refusal: 1 to 4, or 6 for a body longer than 65,535 bytes.
    pub(super) plan: Result<Plan, u8>,
}

/// Asks the original and the plain rule. They must agree wherever both answer.
pub(super) fn known(request: &Request) -> Result<Known, String> {
    let case = &request.case;
    let ends = match plain::planning::seed_ends(case, &request.seeds) {
        Ok(ends) => ends,
        Err(number) => return refused(request, number),
    };
    let theirs = original::plan(case);
    if ends.len() <= PLAIN_SEEDS {
        let plain = plain::planning::plan_from(case, &ends);
        let alike = match (&theirs, &plain) {
            (Ok(theirs), Ok(plain)) => theirs == plain,
            (Err(no), Err(number)) => no.is(*number),
            _ => false,
        };
        if !alike {
            return Err(format!("the original plans {theirs:?}, the plain rule {plain:?}"));
        }
    }
    let plan = match theirs {
        Ok(plan) => Ok(plan),
        Err(No::Capacity) => Err(6),
        Err(no) => return Err(format!("the original fails: {no:?}")),
    };
    if let (Some((row_count, ordinals)), Ok(plan)) = (request.ordinals(), &plan) {
        let theirs = original::plan_ordinals(row_count, &ordinals);
        if theirs.as_ref() != Ok(&(plan.tag, plan.body.clone(), plan.offers)) {
            return Err(format!("the original plans ordinals as {theirs:?}"));
        }
    }
    Ok(Known { seeds: ends.len(), plan })
}

/// The original refuses by the same number, but for test 4: no gathering of its own comes to a bad table.
fn refused(request: &Request, number: u8) -> Result<Known, String> {
    let bare = Case { gathering: Vec::new(), ..request.case.clone() };
    match original::plan(&bare) {
        _ if number == 4 => {}
        Err(no) if no.is(number) => {}
        theirs => return Err(format!("refusal {number}, but the original plans {theirs:?}")),
    }
    Ok(Known { seeds: request.seeds.len().max(3), plan: Err(number) })
}

/// How long an output is taken to be needed where no body is known.
const SOME_BYTES: usize = 40;

/// So many more than needed, or fewer, and never below none.
fn beside(needed: usize, more: i64) -> usize {
    needed.saturating_add_signed(more as isize)
}

impl Known {
    /// What a call with that lending must come to, by document 01's tests in their order.
    pub(super) fn right(&self, lending: &Lending) -> Right {
        let needed = 24 * self.seeds;
        let length = self.plan.as_ref().map_or(SOME_BYTES, |plan| plan.body.len());
        let limit = lending.limit.map_or(usize::MAX, |more| beside(length, more));
        let mut work = canaries(beside(needed, lending.work));
        let mut out = canaries(beside(length, lending.out));
        let number = match &self.plan {
            Err(number) if *number < 5 => *number,
            _ if work.len() < needed => 5,
            Err(number) => *number,
            Ok(_) if length > limit => 6,
            Ok(_) if length > out.len() => 7,
            Ok(_) => 0,
        };
        if matches!(number, 0 | 6 | 7) {
            work[..needed].fill(0);
        }
        let answer = match &self.plan {
            Ok(plan) if number == 0 => {
                out[..length].copy_from_slice(&plan.body);
                Planned {
                    number,
                    tag: plan.tag,
                    length: length as u16,
                    segments: plan.segment_ends.len() as u16,
                    offers: plan.offers as u32,
                }
            }
            _ => Planned { number, ..Planned::default() },
        };
        Right { limit, answer, work, out }
    }
}
