//! What the comparison of planning has met.

use super::known::Known;
use crate::plain::BITMAP;

#[derive(Default)]
pub(crate) struct Tally {
    /// Row sets with their seeds, each asked in one or more calls.
    requests: usize,
    calls: usize,
    pub(super) ordinals: usize,
    /// Calls by the number that they answer.
    numbers: [usize; 8],
    /// Plans by tag; at 10 the trimmed ones among the bitmaps, which are not counted at their tag.
    kinds: [usize; 11],
    seeds: usize,
    joins: usize,
    offers: u64,
}

impl Tally {
    pub(super) fn known(&mut self, known: &Known) {
        self.requests += 1;
        let Ok(plan) = &known.plan else {
            return;
        };
        let trimmed = plan.tag == BITMAP && plan.body[2] == 1;
        self.kinds[if trimmed { 10 } else { usize::from(plan.tag) }] += 1;
        self.seeds += known.seeds;
        self.joins += known.seeds - plan.segment_ends.len();
        self.offers += plan.offers;
    }

    pub(super) fn call(&mut self, number: u8) {
        self.calls += 1;
        self.numbers[usize::from(number)] += 1;
    }

    /// Every kind of body was planned so many times, or the inputs are too narrow.
    pub(super) fn enough(&self, least: usize) -> Result<(), String> {
        match (1..11).find(|kind| self.kinds[*kind] < least) {
            Some(kind) => Err(format!("kind {kind} was planned {} times", self.kinds[kind])),
            None => Ok(()),
        }
    }

    pub(crate) fn summary(&self) -> String {
        let Self { requests, calls, ordinals, numbers, kinds, seeds, joins, offers } = self;
        let counted = |from: usize, counts: &[usize]| {
            let each = counts.iter().enumerate().skip(from);
            each.map(|(n, count)| format!("{n}: {count}")).collect::<Vec<_>>().join(", ")
        };
        let (by_tag, trimmed) = (counted(1, &kinds[..10]), kinds[10]);
        let refusals = counted(1, numbers);
        format!(
            "planning: {calls} calls alike, {ordinals} of them for ordinals, over {requests} row sets with {seeds} seeds, \
             {joins} joins and {offers} offers; plans by tag {by_tag}, trimmed bitmaps {trimmed}; accepted calls {}, \
             refused calls by number {refusals}",
            numbers[0]
        )
    }
}
