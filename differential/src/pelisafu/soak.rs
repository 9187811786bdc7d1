//! Random cases of all comparisons until the time is over.

use super::memory::{Place, set_place};
use super::{deletions, gathering, planning, reading};
use crate::case::Verdict;
use crate::merging;
use crate::random::Random;
use std::time::{Duration, Instant};

/// For so many seconds, from that seed on. The same seed gives the same cases in the same order.
pub(crate) fn soak(seconds: u64, seed: u64) -> Verdict {
    let begin = Instant::now();
    let mut random = Random::new(seed);
    let (mut plans, mut bodies) = (planning::Tally::default(), reading::Tally::default());
    let mut sections = deletions::Tally::default();
    let mut rounds = 0;
    while begin.elapsed() < Duration::from_secs(seconds) {
        set_place([Place::AsGiven, Place::Ending, Place::Starting][rounds % 3]);
        let compared = round(&mut random, &mut plans, &mut bodies, &mut sections);
        set_place(Place::AsGiven);
        compared.map_err(|what| format!("seed {seed}, round {rounds}: {what}"))?;
        rounds += 1;
    }
    Ok(format!(
        "soak: seed {seed}, {rounds} rounds in {seconds} s, two of three beside guarded pages; {}; {}; {}; every \
         round also merging and gathering",
        plans.summary(),
        bodies.summary(),
        sections.summary()
    ))
}

fn round(
    random: &mut Random,
    plans: &mut planning::Tally,
    bodies: &mut reading::Tally,
    sections: &mut deletions::Tally,
) -> Result<(), String> {
    for _ in 0..4 {
        planning::compare_drawn(random, plans)?;
    }
    crate::reading::for_each_drawn(random, &mut |body| {
        crate::reading::compare_drawn(body)?;
        reading::compare_body(body, bodies)
    })?;
    gathering::compare_rounds(random, 1, 200)?;
    merging::compare_drawn(random)?;
    deletions::compare_drawn(random, sections)
}
